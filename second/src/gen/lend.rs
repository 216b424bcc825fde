//! From a tree and its words to a whole call: right counts, and buffers of
//! lengths around the limits, filled with numbers other than 0.

use super::rng::Rng;
use super::shape::Tree;
use crate::call::{Call, Index, Search};
use crate::count::counts;
use crate::judge::answer;

pub struct Plan {
    pub search: Search,
    pub tree: Tree,
    /// The lists, positive words first.
    pub words: Vec<Vec<u32>>,
    pub p: usize,
}

/// How long the buffers are.
#[derive(Clone, Copy, PartialEq, Eq, Debug)]
pub enum Room {
    /// All exactly as long as needed.
    Exact,
    /// Out one short, where the answer is not empty.
    OutShort,
    /// For ELCA own one short, where the answer is not empty.
    OwnShort,
    /// All longer than needed.
    More,
    /// Each length on its own around the limits.
    Any,
}

fn filled(rng: &mut Rng, length: usize) -> Vec<u32> {
    (0..length).map(|_| rng.nonzero()).collect()
}

/// One of the lengths around what is needed.
fn around(rng: &mut Rng, needed: usize, plenty: usize) -> usize {
    let few_more = needed + rng.range(1, 3);
    let any = rng.range(0, plenty + 2);
    rng.weighted(&[
        (42, needed),
        (20, few_more),
        (12, needed.saturating_sub(1)),
        (4, 0),
        (14, plenty),
        (8, any),
    ])
}

/// The call that lends the plan, undamaged.
pub fn lend(rng: &mut Rng, plan: &Plan, room: Room) -> Call {
    let parents = &plan.tree.parents;
    let (n, k, p) = (parents.len(), plan.words.len(), plan.p);
    let index = Index {
        parents,
        tags: &plan.tree.tags,
        words: plan.words.iter().map(Vec::as_slice).collect(),
        p,
    };
    let counts = counts(parents, &index.words);
    let m = answer(plan.search, &index).0.len();
    // What own needs: only ELCA writes it.
    let owned = match plan.search {
        Search::Elca => p * m,
        _ => 0,
    };
    let used = (k + 2) * n;
    let (work, out, own) = match room {
        Room::Exact => (used, m, owned),
        Room::OutShort => (used, m.saturating_sub(1), owned),
        Room::OwnShort => (used, m, owned.saturating_sub(1)),
        Room::More => (used + 5, m + 3, owned + 2),
        Room::Any => {
            let work = used + rng.weighted(&[(50, 0), (15, 1), (10, n), (25, 7)]);
            let out = around(rng, m, n);
            let own = match rng.range(0, 19) {
                // Room for one own count a node only.
                0 => m,
                _ => around(rng, owned, p * n),
            };
            (work, out, own)
        }
    };
    let mut end = 0;
    let mut ends = Vec::new();
    for list in &plan.words {
        end += list.len() as u32;
        ends.push(end);
    }
    Call {
        search: plan.search,
        p: p as u32,
        q: (k - p) as u32,
        parents: parents.clone(),
        tags: plan.tree.tags.clone(),
        ends,
        occurrences: plan.words.concat(),
        counts,
        work: filled(rng, work),
        out: filled(rng, out),
        own: filled(rng, own),
    }
}
