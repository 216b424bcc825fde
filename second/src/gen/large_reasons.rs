//! Large cases of a node's reason, a fixed set up to the seed's random content.

use super::damage::{damage, Damage};
use super::lend::{lend, Plan, Room};
use super::placed::{place, Want};
use super::reasons::some_node;
use super::rng::Rng;
use super::shape::{tree, Shape, Tags, Tree};
use super::words::{list, Kind};
use crate::call::{Call, Search};
use crate::reason::call::{Reasoning, LISTED, NOT_FULL, NOT_LISTED};

/// How words get their lists.
#[derive(Clone, Copy)]
enum Words {
    Of(Kind),
    /// Placed around the root.
    Around(Want),
}

/// Which node is asked for.
#[derive(Clone, Copy)]
enum Ask {
    Node(u32),
    /// One whose reason is of this case.
    Case(u32),
}

struct Row {
    n: usize,
    shape: Shape,
    p: usize,
    words: Words,
    ask: Ask,
    room: Room,
    damage: Option<Damage>,
}

fn rows() -> Vec<Row> {
    use Ask::*;
    use Damage::*;
    use Room::*;
    use Shape::*;
    use Words::*;
    const ALL: Words = Of(Kind::Each(100));
    const DENSE: Words = Of(Kind::Each(50));
    const SPARSE: Words = Of(Kind::Thin(4));
    const THIN: Words = Of(Kind::Thin(1));
    const EMPTY: Words = Of(Kind::Empty);
    const FIRST: Ask = Node(0);
    const LAST: Ask = Node(65_535);
    const N: Ask = Node(65_536);
    const NEXT: Ask = Node(65_537);
    const HIGHEST: Ask = Node(u32::MAX);
    let row = |n, (shape, p, words), ask, room, damage| Row {
        n,
        shape,
        p,
        words,
        ask,
        room,
        damage,
    };
    vec![
        row(1024, (Random, 8, Around(Want::Listed)), FIRST, Exact, None),
        row(1024, (Chains, 4, DENSE), Case(NOT_LISTED), More, None),
        row(4096, (Comb, 8, SPARSE), Case(NOT_FULL), Exact, None),
        row(4096, (Schedule, 8, Around(Want::NotListed)), FIRST, More, None),
        row(4096, (Wide, 3, DENSE), Case(LISTED), Exact, Some(CountTwice)),
        row(65_535, (Deep, 3, SPARSE), Case(NOT_LISTED), Exact, None),
        row(65_535, (Flat, 1, ALL), LAST, Exact, None),
        row(65_536, (Flat, 1, ALL), LAST, Exact, None),
        row(65_536, (Flat, 2, DENSE), FIRST, Exact, None),
        row(65_536, (Flat, 2, THIN), FIRST, More, None),
        row(65_536, (Flat, 2, EMPTY), FIRST, Exact, None),
        row(65_536, (Flat, 1, THIN), N, Exact, None),
        row(65_536, (Chains, 2, DENSE), FIRST, Exact, None),
        row(65_536, (Chains, 3, Around(Want::Listed)), FIRST, More, None),
        row(65_536, (Chains, 2, ALL), Case(LISTED), Exact, None),
        row(65_536, (Chains, 1, SPARSE), NEXT, Exact, None),
        row(65_536, (Comb, 2, SPARSE), Case(LISTED), Exact, None),
        row(65_536, (Comb, 2, DENSE), HIGHEST, Exact, None),
        row(65_536, (Random, 8, ALL), LAST, Exact, None),
        row(65_536, (Random, 4, Around(Want::NotListed)), FIRST, Exact, None),
        row(65_536, (Random, 2, DENSE), Case(NOT_LISTED), More, None),
        row(65_536, (Random, 2, SPARSE), Case(NOT_FULL), Exact, None),
        row(65_536, (Deep, 2, Around(Want::Listed)), FIRST, Exact, None),
        row(65_536, (Wide, 2, THIN), LAST, Exact, None),
        row(65_536, (Chains, 1, DENSE), FIRST, Exact, Some(Level65)),
        row(65_536, (Random, 2, DENSE), N, Exact, Some(EntryN)),
        row(65_536, (Random, 2, DENSE), N, Exact, Some(CountLast)),
        row(65_536, (Flat, 1, DENSE), LAST, Exact, Some(WorkShort)),
        row(65_537, (Flat, 1, THIN), FIRST, Exact, None),
        row(65_537, (Random, 1, THIN), NEXT, Exact, None),
    ]
}

/// The number of large cases.
pub fn how_many() -> usize {
    rows().len()
}

fn lists(rng: &mut Rng, tree: &Tree, row: &Row) -> Vec<Vec<u32>> {
    match row.words {
        Words::Of(kind) => (0..row.p).map(|_| list(rng, tree, kind)).collect(),
        Words::Around(want) => place(rng, tree, 0, row.p, want),
    }
}

fn node(rng: &mut Rng, call: &Call, ask: Ask) -> u32 {
    match ask {
        Ask::Node(node) => node,
        Ask::Case(case) => some_node(rng, call, Some(case)).expect("the index has such a node"),
    }
}

/// Large case `number` of the seed, with the damage done to it.
pub fn large(seed: u64, number: usize) -> (Reasoning, Option<Damage>) {
    let rng = &mut Rng::new(seed ^ (1 << 63), number as u64);
    let row = &rows()[number];
    let tree = tree(rng, row.n, row.shape, Tags::Few(2), 30);
    let words = lists(rng, &tree, row);
    let plan = Plan {
        search: Search::Elca,
        tree,
        words,
        p: row.p,
    };
    let base = lend(rng, &plan, row.room);
    let node = node(rng, &base, row.ask);
    let mut call = base.clone();
    if let Some(kind) = row.damage {
        let fits = damage(rng, &base, &mut call, kind);
        assert!(fits, "{kind:?} does not fit case {number}");
    }
    (Reasoning::of(&call, node), row.damage)
}
