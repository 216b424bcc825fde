//! Small cases of a node's reason: on the index of each small case of elca, and
//! on indexes of their own.

use super::damage::{damaged, Damage};
use super::lend::{lend, Plan, Room};
use super::merges;
use super::placed::{middle, place, Want};
use super::rng::Rng;
use super::small;
use crate::call::{Call, Index, Search};
use crate::check::check;
use crate::elca::own_climbing;
use crate::full;
use crate::reason::call::{Reasoning, LISTED, NOT_FULL, NOT_LISTED};
use std::collections::BTreeMap;

/// How the index of a case came about.
#[derive(Clone, Copy, PartialEq, Eq, PartialOrd, Ord, Debug)]
pub enum Manner {
    /// That of a small case of elca, with its work.
    Twin,
    /// Made as for the searches without counts, in a manner of theirs.
    Like(merges::Manner),
    /// Words placed around a node.
    Placed(Want),
}

/// A node asked for on an index.
#[derive(Clone, PartialEq, Eq, Debug)]
pub struct Asked {
    pub reasoning: Reasoning,
    pub manner: Manner,
    pub damage: Vec<Damage>,
}

/// The case of a node's reason, and its word or 0, by the counts of an accepted
/// call and the own counts.
fn case(call: &Call, own: &[u32], v: usize) -> (u32, usize) {
    let (n, p) = (call.n(), call.p as usize);
    let missing = (0..p).find(|&j| call.counts[j * n + v] == 0);
    let covered = (0..p).find(|&j| own[v * p + j] == 0);
    match (missing, covered) {
        (Some(word), _) => (NOT_FULL, word),
        (None, Some(word)) => (NOT_LISTED, word),
        (None, None) => (LISTED, 0),
    }
}

/// The nodes with each case and each word, on the index of an accepted call.
fn by_case(call: &Call, index: &Index) -> BTreeMap<u32, BTreeMap<usize, Vec<u32>>> {
    let own = own_climbing(index, &full::climbing(index));
    let mut nodes: BTreeMap<u32, BTreeMap<usize, Vec<u32>>> = BTreeMap::new();
    for v in 0..call.n() {
        let (case, word) = case(call, &own, v);
        let words = nodes.entry(case).or_default();
        words.entry(word).or_default().push(v as u32);
    }
    nodes
}

/// A node of an accepted call whose reason is of the case, or of any case that
/// there is; none where the call is not accepted or has no such node. Rare words
/// are picked as often as others.
pub fn some_node(rng: &mut Rng, call: &Call, case: Option<u32>) -> Option<u32> {
    let index = check(call).ok()?;
    let nodes = by_case(call, &index);
    let cases: Vec<u32> = nodes.keys().copied().collect();
    let words = nodes.get(&case.unwrap_or_else(|| rng.pick(&cases)))?;
    let word = rng.range(0, words.len() - 1);
    words.values().nth(word).map(|nodes| rng.pick(nodes))
}

/// A node to ask for, the one given or another. Where the index is refused, it is
/// often n or more: then it is to be told which refusal comes first.
fn node(rng: &mut Rng, call: &Call, given: Option<u32>) -> u32 {
    let n = call.n() as u32;
    let any = rng.range(0, n.max(1) as usize - 1) as u32;
    let told = some_node(rng, call, None);
    let beyond = rng.pick(&[2 * n, any + (1 << 16), any + (1 << 31), u32::MAX - any, u32::MAX]);
    let often = if told.is_some() { 1 } else { 3 };
    rng.weighted(&[
        (62, given.or(told).unwrap_or(any)),
        (10, any),
        (4, 0),
        (9, n.max(1) - 1),
        (7 * often, n),
        (3 * often, n + 1),
        (5 * often, beyond),
    ])
}

/// A lawful call of elca with words around a node, and this node.
fn around(rng: &mut Rng, want: Want) -> (Call, u32) {
    let p = rng.weighted(&[
        (6, 1),
        (12, 2),
        (12, 3),
        (12, 4),
        (10, 5),
        (12, 6),
        (14, 7),
        (22, 8),
    ]);
    // Of any shape, as for rare words.
    let tree = merges::some_tree(rng, merges::Manner::Rare);
    let v = middle(rng, &tree);
    let words = place(rng, &tree, v, p, want);
    let plan = Plan {
        search: Search::Elca,
        tree,
        words,
        p,
    };
    (lend(rng, &plan, Room::Any), v as u32)
}

/// A lawful call of elca on an index of its own, and the node that it was made
/// for, if there is one.
fn undamaged(rng: &mut Rng) -> (Call, Manner, Option<u32>) {
    let want = rng.weighted(&[
        (22, None),
        (20, Some(Want::NotFull)),
        (27, Some(Want::NotListed)),
        (31, Some(Want::Listed)),
    ]);
    match want {
        Some(want) => {
            let (call, v) = around(rng, want);
            (call, Manner::Placed(want), Some(v))
        }
        None => {
            let manner = rng.weighted(merges::MANNERS);
            let call = Call {
                search: Search::Elca,
                ..merges::undamaged(rng, manner)
            };
            (call, Manner::Like(manner), None)
        }
    }
}

/// A case of its own.
fn own(rng: &mut Rng) -> (Call, Manner, Vec<Damage>, Option<u32>) {
    let (base, manner, given) = undamaged(rng);
    let how_many = rng.weighted(&[(75, 0), (19, 1), (6, 2)]);
    let another = |rng: &mut Rng| rng.pick(Damage::ALL);
    let mut kinds: Vec<Damage> = (0..how_many).map(|_| another(rng)).collect();
    let call = damaged(rng, &base, &mut kinds, another);
    (call, manner, kinds, given)
}

/// Small case `number` of the seed: where small case `number` of the searches is
/// one of elca on its index, else on one of its own.
pub fn small(seed: u64, number: u64) -> Asked {
    let rng = &mut Rng::new(seed ^ (1 << 63), number);
    let (call, kinds) = small::small(seed, number);
    let (call, manner, damage, given) = match call.search {
        Search::Elca => (call, Manner::Twin, kinds, None),
        _ => own(rng),
    };
    let node = node(rng, &call, given);
    Asked {
        reasoning: Reasoning::of(&call, node),
        manner,
        damage,
    }
}
