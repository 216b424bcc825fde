//! Small cases of the searches without counts: the twin of each small case of
//! elca and slca, and cases of their own.

use super::damage::{damaged, Damage};
use super::lend::{lend, Plan, Room};
use super::rng::Rng;
use super::shape::{tree, Shape, Tags, Tree};
use super::small;
use super::words::{list, nearly, Kind};
use crate::call::{Call, Search};
use crate::merge::call::{Entry, Merge, Merging, NUMBERS};

/// How a case came about.
#[derive(Clone, Copy, PartialEq, Eq, PartialOrd, Ord, Debug)]
pub enum Manner {
    /// The index, out and own of a small case of elca or slca.
    Twin,
    /// Words at one to three nodes each.
    Rare,
    /// Words at half of the nodes or more.
    Dense,
    /// One word standing twice or oftener.
    Twice,
    /// Words that share most of their nodes.
    Shared,
    /// A word with an empty list among others.
    Empty,
    /// Words on every level of a comb: all levels are open at once.
    Open,
    /// Chains to level 64.
    Deep,
    /// All nodes but the root at level 2.
    Flat,
}

pub const MANNERS: &[(usize, Manner)] = &[
    (20, Manner::Rare),
    (16, Manner::Dense),
    (14, Manner::Twice),
    (16, Manner::Shared),
    (6, Manner::Empty),
    (14, Manner::Open),
    (6, Manner::Deep),
    (8, Manner::Flat),
];

/// One search on one index, with counts and without.
#[derive(Clone, PartialEq, Eq, Debug)]
pub struct Pair {
    pub call: Call,
    pub merging: Merging,
    pub manner: Manner,
    pub damage: Vec<Damage>,
}

/// What entries hold when they are lent.
#[derive(Clone, Copy)]
enum Dirt {
    /// Any numbers but 0.
    Any,
    /// What an earlier call might have left: a node and small counts.
    Likely,
    Highest,
    None,
}

fn entry(rng: &mut Rng, n: usize, dirt: Dirt) -> Entry {
    let mut numbers = [0; NUMBERS];
    for number in &mut numbers {
        *number = match dirt {
            Dirt::Any => rng.nonzero(),
            Dirt::Likely => rng.range(0, 3) as u32,
            Dirt::Highest => u32::MAX,
            Dirt::None => 0,
        };
    }
    if let Dirt::Likely = dirt {
        numbers[0] = rng.range(0, n) as u32;
    }
    Entry::of(&numbers)
}

/// A stack of so many entries for a tree of n nodes.
pub fn stack(rng: &mut Rng, length: usize, n: usize) -> Vec<Entry> {
    let dirt = rng.weighted(&[
        (75, Dirt::Any),
        (15, Dirt::Likely),
        (5, Dirt::Highest),
        (5, Dirt::None),
    ]);
    (0..length).map(|_| entry(rng, n, dirt)).collect()
}

/// The lengths around 64, seldom too short.
fn stack_length(rng: &mut Rng) -> usize {
    let few_more = rng.range(66, 70);
    let fewer = rng.range(2, 62);
    rng.weighted(&[
        (51, 64),
        (24, 65),
        (12, few_more),
        (6, 128),
        (4, 63),
        (1, fewer),
        (1, 1),
        (1, 0),
    ])
}

/// The call without counts that lends what a call of elca or slca lends.
pub fn twin(call: &Call, stack: Vec<Entry>) -> Merging {
    Merging {
        merge: match call.search {
            Search::Slca => Merge::Slca,
            _ => Merge::Elca,
        },
        p: call.p,
        q: call.q,
        parents: call.parents.clone(),
        tags: call.tags.clone(),
        ends: call.ends.clone(),
        occurrences: call.occurrences.clone(),
        stack,
        out: call.out.clone(),
        own: call.own.clone(),
    }
}

/// A tree for words in the manner.
pub fn some_tree(rng: &mut Rng, manner: Manner) -> Tree {
    let (shape, n) = match manner {
        Manner::Open => (Shape::Comb, rng.pick(&[127, 127, 130, 260, 40, 64])),
        Manner::Deep => (Shape::Chains, rng.range(65, 140)),
        Manner::Flat => (Shape::Flat, rng.range(1, 50)),
        _ => {
            let shape = rng.weighted(&[
                (20, Shape::Deep),
                (15, Shape::Wide),
                (30, Shape::Random),
                (8, Shape::Caterpillar),
                (12, Shape::Comb),
                (15, Shape::Schedule),
            ]);
            (shape, rng.range(1, 60))
        }
    };
    let texts = rng.pick(&[0, 30, 100]);
    tree(rng, n, shape, Tags::Few(2), texts)
}

fn lists(rng: &mut Rng, tree: &Tree, manner: Manner, p: usize) -> Vec<Vec<u32>> {
    let kinds: &[Kind] = match manner {
        Manner::Rare => &[Kind::Few],
        Manner::Dense => &[Kind::Each(50), Kind::Each(80), Kind::Each(100)],
        Manner::Open => &[Kind::Each(100), Kind::Each(70), Kind::Others(50), Kind::Texts(90)],
        _ => &[Kind::Few, Kind::Few, Kind::Each(15), Kind::Each(40)],
    };
    let mut words: Vec<Vec<u32>> = (0..p)
        .map(|_| {
            let kind = rng.pick(kinds);
            list(rng, tree, kind)
        })
        .collect();
    let one = rng.range(0, p - 1);
    match manner {
        Manner::Twice => {
            for _ in 0..rng.range(1, p) {
                words[rng.range(0, p - 1)] = words[one].clone();
            }
        }
        Manner::Shared => {
            let shared = words[one].clone();
            for word in &mut words {
                if rng.percent(80) {
                    *word = nearly(rng, tree.parents.len(), &shared);
                }
            }
        }
        Manner::Empty => words[one].clear(),
        _ => (),
    }
    words
}

/// A lawful call of elca or slca in the manner.
pub fn undamaged(rng: &mut Rng, manner: Manner) -> Call {
    let search = rng.weighted(&[(60, Search::Elca), (40, Search::Slca)]);
    let p = rng.weighted(&[(18, 1), (36, 2), (20, 3), (12, 4), (4, 5), (3, 6), (2, 7), (5, 8)]);
    let p = match manner {
        Manner::Twice | Manner::Shared => p.max(2),
        _ => p,
    };
    let tree = some_tree(rng, manner);
    let words = lists(rng, &tree, manner, p);
    let plan = Plan {
        search,
        tree,
        words,
        p,
    };
    lend(rng, &plan, Room::Any)
}

/// Whether a damage is about counts or work, which are not lent here.
pub fn unfelt(kind: Damage) -> bool {
    use Damage::*;
    matches!(
        kind,
        CountSomewhere
            | CountFirst
            | CountLast
            | CountTwice
            | LastSeason
            | ExtraCounted
            | MovedCounted
            | Turned
            | CountsLength
            | WorkShort
            | WorkMuchShort
    )
}

fn felt(rng: &mut Rng) -> Damage {
    loop {
        let kind = rng.pick(Damage::ALL);
        if !unfelt(kind) {
            return kind;
        }
    }
}

/// A case of its own.
fn own(rng: &mut Rng) -> (Call, Manner, Vec<Damage>) {
    let manner = rng.weighted(MANNERS);
    let base = undamaged(rng, manner);
    let how_many = rng.weighted(&[(66, 0), (26, 1), (8, 2)]);
    let mut kinds: Vec<Damage> = (0..how_many).map(|_| felt(rng)).collect();
    let call = damaged(rng, &base, &mut kinds, felt);
    (call, manner, kinds)
}

/// Small case `number` of the seed: where small case `number` of the searches is
/// one of elca or slca its twin, else a case of its own.
pub fn small(seed: u64, number: u64) -> Pair {
    let rng = &mut Rng::new(!seed, number);
    let (call, kinds) = small::small(seed, number);
    let (call, manner, damage) = match call.search {
        Search::Elca | Search::Slca => (call, Manner::Twin, kinds),
        _ => own(rng),
    };
    let length = stack_length(rng);
    let stack = stack(rng, length, call.n());
    Pair {
        merging: twin(&call, stack),
        call,
        manner,
        damage,
    }
}
