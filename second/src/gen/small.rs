//! Small cases: mostly 1 to 64 nodes, about half of them undamaged.

use super::damage::{damaged, Damage};
use super::lend::{lend, Plan, Room};
use super::rng::Rng;
use super::shape::{large_tags, tree, turn_tags, Shape, Tags, Tree};
use super::words::{beside, list, lone, nearly, nearly_noted, with, Kind};
use crate::call::{Call, Search};
use crate::tree::climb;

/// A small tree. A tall one reaches level 64 and has nodes to spare.
fn small_tree(rng: &mut Rng, tall: bool) -> Tree {
    if tall {
        let n = rng.range(65, 140);
        let texts = rng.pick(&[0, 0, 30]);
        return tree(rng, n, Shape::Chains, Tags::Few(3), texts);
    }
    let n = match rng.range(0, 99) {
        0..=3 => rng.range(41, 300),
        4..=8 => rng.range(1, 3),
        _ => rng.range(1, 40),
    };
    let shape = rng.weighted(&[
        (12, Shape::Deep),
        (16, Shape::Wide),
        (20, Shape::Random),
        (8, Shape::Caterpillar),
        (2, Shape::Chains),
        (4, Shape::Flat),
        (38, Shape::Schedule),
        (12, Shape::Alike),
    ]);
    let how = rng.weighted(&[
        (15, Tags::Few(1)),
        (35, Tags::Few(2)),
        (25, Tags::Few(4)),
        (10, Tags::Few(10)),
        (15, Tags::Distinct),
    ]);
    let texts = rng.pick(&[0, 30, 60, 60, 90, 100]);
    tree(rng, n, shape, how, texts)
}

const POSITIVE: &[(usize, Kind)] = &[
    (2, Kind::Empty),
    (4, Kind::Root),
    (30, Kind::Few),
    (14, Kind::Each(15)),
    (10, Kind::Each(50)),
    (2, Kind::Each(100)),
    (20, Kind::Texts(40)),
    (6, Kind::Texts(100)),
    (12, Kind::Others(30)),
];

const NEGATIVE: &[(usize, Kind)] = &[
    (5, Kind::Empty),
    (3, Kind::Root),
    (20, Kind::Few),
    (5, Kind::Each(30)),
    (15, Kind::Texts(15)),
    (7, Kind::Others(40)),
    (30, Kind::Noted),
    (15, Kind::Lone),
];

/// Words for a tree in which NOT strikes out some answers and leaves some.
const LIVELY_POSITIVE: &[(usize, Kind)] = &[
    (40, Kind::Texts(50)),
    (20, Kind::Texts(100)),
    (20, Kind::Each(40)),
    (20, Kind::Others(50)),
];

const LIVELY_NEGATIVE: &[(usize, Kind)] = &[(90, Kind::Noted), (10, Kind::Others(20))];

/// Lists for all words; now and then a word stands twice, or nearly so.
fn lists(rng: &mut Rng, tree: &Tree, p: usize, q: usize, kinds: [&[(usize, Kind)]; 2]) -> Vec<Vec<u32>> {
    let [positive, negative] = kinds;
    let mut words: Vec<Vec<u32>> = Vec::new();
    for j in 0..p + q {
        let kind = rng.weighted(if j < p { positive } else { negative });
        let mut word = list(rng, tree, kind);
        if j < p && word.is_empty() && kind != Kind::Empty && rng.percent(85) {
            word = list(rng, tree, Kind::Few);
        }
        if j > 0 && rng.percent(8) {
            word = words[rng.range(0, j - 1)].clone();
        } else if j > 0 && rng.percent(8) {
            let other = words[rng.range(0, j - 1)].clone();
            word = nearly(rng, tree.parents.len(), &other);
        }
        words.push(word);
    }
    words
}

/// A tree and words in which NOT often matters and seldom strikes out all.
fn lively(rng: &mut Rng, p: usize, q: usize) -> (Tree, Vec<Vec<u32>>) {
    let n = rng.range(10, 50);
    let shape = rng.pick(&[Shape::Schedule, Shape::Schedule, Shape::Wide, Shape::Deep]);
    let tree = tree(rng, n, shape, Tags::Few(2), 90);
    let words = lists(rng, &tree, p, q, [LIVELY_POSITIVE, LIVELY_NEGATIVE]);
    (tree, words)
}

/// A tree in which types repeat at many parents, and words as for a lively one.
/// The first negative word stands, where it can, below an entity that has no
/// sibling with its tag, or below a node that only looks like an entity. Often
/// a text beside this node holds every positive word: there the answer shows
/// what negates.
fn alike(rng: &mut Rng, p: usize, q: usize) -> (Tree, Vec<Vec<u32>>) {
    let n = rng.range(20, 64);
    let shape = rng.weighted(&[(70, Shape::Alike), (20, Shape::OneLeg), (10, Shape::Schedule)]);
    let tree = tree(rng, n, shape, Tags::Few(1), 0);
    let mut words = lists(rng, &tree, p, q, [LIVELY_POSITIVE, LIVELY_NEGATIVE]);
    let (lone, nearly) = (lone(&tree), nearly_noted(&tree));
    let below = if rng.percent(60) || nearly.is_empty() {
        lone
    } else {
        nearly
    };
    if below.is_empty() {
        return (tree, words);
    }
    let (text, node) = rng.pick(&below);
    words[p] = vec![text];
    let texts = beside(&tree, node);
    if !texts.is_empty() && rng.percent(60) {
        let held = rng.pick(&texts);
        words[..p].iter_mut().for_each(|word| *word = with(word, held));
    }
    (tree, words)
}

/// A tree in which a child of the root has the root's tag and no twin, and the
/// first negative word stands at a text below this child. The root is nobody's
/// child, so the child is no entity, and the root negates.
fn rooted(rng: &mut Rng, p: usize, q: usize) -> (Tree, Vec<Vec<u32>>) {
    let n = rng.range(6, 30);
    let shape = rng.pick(&[Shape::Wide, Shape::Random, Shape::Deep]);
    let mut tree = tree(rng, n, shape, Tags::Distinct, 80);
    let mut words = lists(rng, &tree, p, q, [LIVELY_POSITIVE, &[(1, Kind::Empty)]]);
    let deep_texts: Vec<usize> = (1..n)
        .filter(|&u| tree.tags[u] == 0 && tree.parents[u] != 0)
        .collect();
    if !deep_texts.is_empty() {
        let u = rng.pick(&deep_texts);
        let child = climb(&tree.parents, u).find(|&c| tree.parents[c] == 0).unwrap();
        tree.tags[0] = tree.tags[child];
        words[p] = vec![u as u32];
    }
    (tree, words)
}

/// The numbers of positive and negative words.
fn how_many_words(rng: &mut Rng, search: Search) -> (usize, usize) {
    let p = rng.weighted(&[(30, 1), (35, 2), (15, 3), (8, 4), (4, 5), (3, 6), (2, 7), (3, 8)]);
    let q = match search {
        Search::Elca | Search::Slca => 0,
        _ => rng.weighted(&[(15, 0), (45, 1), (20, 2), (10, 3), (10, 8)]),
    };
    (p, q.min(8 - p))
}

/// A lawful tree and lawful lists for the search.
pub fn plan(rng: &mut Rng, search: Search, tall: bool) -> Plan {
    let (p, q) = how_many_words(rng, search);
    let (mut tree, words) = match rng.range(0, 99) {
        0..=34 if q > 0 && !tall => lively(rng, p, q),
        35..=42 if q > 0 && !tall => rooted(rng, p, q),
        43..=67 if q > 0 && !tall => alike(rng, p, q),
        _ => {
            let tree = small_tree(rng, tall);
            let words = lists(rng, &tree, p, q, [POSITIVE, NEGATIVE]);
            (tree, words)
        }
    };
    match rng.range(0, 99) {
        0..=9 => large_tags(&mut tree.tags),
        10..=24 => turn_tags(&mut tree.tags, 11),
        25..=39 => turn_tags(&mut tree.tags, 22),
        _ => (),
    }
    Plan {
        search,
        tree,
        words,
        p,
    }
}

/// An undamaged call.
fn undamaged(rng: &mut Rng, tall: bool) -> Call {
    let search = rng.weighted(&[
        (8, Search::Check),
        (34, Search::Elca),
        (20, Search::Slca),
        (38, Search::Valid),
    ]);
    let plan = plan(rng, search, tall);
    lend(rng, &plan, Room::Any)
}

/// Small case `number` of the seed, with the damage done to it.
pub fn small(seed: u64, number: u64) -> (Call, Vec<Damage>) {
    let rng = &mut Rng::new(seed, number);
    let how_many = rng.weighted(&[(52, 0), (34, 1), (14, 2)]);
    let mut wanted: Vec<Damage> = (0..how_many).map(|_| rng.pick(Damage::ALL)).collect();
    let tall = wanted.contains(&Damage::Level65) || rng.percent(1);
    let base = undamaged(rng, tall);
    let call = damaged(rng, &base, &mut wanted, |rng| rng.pick(Damage::ALL));
    (call, wanted)
}
