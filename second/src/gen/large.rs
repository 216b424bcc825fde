//! Large cases, a fixed set up to the seed's random content.

use super::damage::{damage, Damage};
use super::lend::{lend, Plan, Room};
use super::rng::Rng;
use super::shape::{tree, Shape, Tags};
use super::words::{list, Kind};
use crate::call::{Call, Search};

struct Row {
    n: usize,
    shape: Shape,
    tags: Tags,
    search: Search,
    p: usize,
    q: usize,
    words: Kind,
    room: Room,
    damage: Option<Damage>,
}

/// The set. Dense lists stand at half of the nodes, sparse ones at a few.
fn rows() -> Vec<Row> {
    use Damage::*;
    use Room::*;
    use Search::*;
    use Shape::*;
    use Tags::*;
    const DENSE: Kind = Kind::Each(50);
    const SPARSE: Kind = Kind::Thin(4);
    let row = |n, (shape, tags), search, (p, q), words, room, damage| Row {
        n,
        shape,
        tags,
        search,
        p,
        q,
        words,
        room,
        damage,
    };
    let one_tag = (Flat, Few(1));
    let all_tags = (Flat, Distinct);
    let high_tags = (Flat, Spread);
    let chains = (Chains, Few(2));
    let random = (Random, Few(3));
    let deep = (Deep, Few(3));
    let wide = (Wide, Few(2));
    let trains = (Schedule, Few(1));
    // One type at each of 64 levels, and over a thousand at each but the first.
    let one_way = (Chains, Few(1));
    let all_ways = (Chains, Spread);
    // No type twice, and one for all children of a node.
    let all_types = (Random, Spread);
    let one_child_type = (Wide, Few(1));
    // Types met at many parents, and one whose twins stand at the last alone.
    let alike = (Alike, Few(1));
    let one_leg = (OneLeg, Few(1));
    vec![
        row(1024, one_tag, Elca, (1, 0), DENSE, Exact, None),
        row(1024, all_tags, Slca, (2, 0), DENSE, More, None),
        row(1024, chains, Elca, (4, 0), DENSE, Exact, None),
        row(1024, random, Valid, (4, 4), SPARSE, More, None),
        row(1024, trains, Valid, (1, 1), SPARSE, Exact, None),
        row(1024, trains, Elca, (8, 0), DENSE, OwnShort, None),
        row(1024, chains, Slca, (2, 0), SPARSE, Exact, Some(Level65)),
        row(1024, random, Check, (1, 1), DENSE, Exact, Some(CountTwice)),
        row(4096, one_tag, Valid, (1, 1), SPARSE, Exact, None),
        row(4096, all_tags, Valid, (1, 1), DENSE, Exact, None),
        row(4096, chains, Valid, (2, 2), DENSE, More, None),
        row(4096, deep, Elca, (8, 0), SPARSE, Exact, None),
        row(4096, trains, Valid, (4, 4), DENSE, More, None),
        row(4096, trains, Slca, (4, 0), DENSE, OutShort, None),
        row(4096, deep, Elca, (2, 0), SPARSE, Exact, Some(ExtraCounted)),
        row(4096, wide, Valid, (1, 3), DENSE, Exact, Some(MovedCounted)),
        row(4096, chains, Check, (2, 6), SPARSE, Exact, Some(Level65)),
        row(4096, alike, Valid, (1, 1), DENSE, Exact, None),
        row(4096, one_leg, Valid, (1, 1), DENSE, Exact, None),
        row(65_535, one_tag, Slca, (2, 0), DENSE, Exact, None),
        row(65_535, random, Elca, (2, 0), DENSE, Exact, None),
        row(65_535, trains, Valid, (1, 1), SPARSE, Exact, None),
        row(65_535, chains, Slca, (4, 0), SPARSE, Exact, None),
        row(65_535, random, Elca, (1, 0), SPARSE, Exact, Some(WorkShort)),
        row(65_535, trains, Valid, (1, 1), DENSE, More, Some(CountSomewhere)),
        row(65_536, one_tag, Elca, (1, 0), DENSE, Exact, None),
        row(65_536, one_tag, Valid, (1, 1), SPARSE, Exact, None),
        row(65_536, all_tags, Elca, (2, 0), DENSE, More, None),
        row(65_536, all_tags, Valid, (1, 1), DENSE, Exact, None),
        row(65_536, one_tag, Valid, (2, 1), SPARSE, More, None),
        row(65_536, high_tags, Valid, (1, 1), SPARSE, Exact, None),
        row(65_536, chains, Elca, (8, 0), DENSE, Exact, None),
        row(65_536, chains, Valid, (1, 1), SPARSE, Exact, None),
        row(65_536, chains, Valid, (2, 1), DENSE, More, None),
        row(65_536, chains, Elca, (2, 0), DENSE, Exact, Some(Level65)),
        row(65_536, chains, Valid, (1, 1), SPARSE, Exact, Some(Level65)),
        row(65_536, random, Elca, (4, 0), DENSE, Exact, None),
        row(65_536, random, Elca, (2, 0), DENSE, OwnShort, None),
        row(65_536, random, Valid, (2, 2), SPARSE, More, None),
        row(65_536, one_way, Valid, (1, 1), DENSE, Exact, None),
        row(65_536, all_ways, Valid, (1, 1), DENSE, Exact, None),
        row(65_536, all_types, Valid, (1, 1), DENSE, Exact, None),
        row(65_536, one_child_type, Valid, (1, 1), SPARSE, Exact, None),
        row(65_536, alike, Valid, (1, 1), DENSE, More, None),
        row(65_536, alike, Valid, (2, 1), SPARSE, Exact, None),
        row(65_536, one_leg, Valid, (1, 1), DENSE, Exact, None),
        row(65_536, deep, Slca, (8, 0), SPARSE, Exact, None),
        row(65_536, trains, Check, (4, 4), SPARSE, More, None),
        row(65_536, trains, Valid, (4, 4), DENSE, Exact, None),
        row(65_536, trains, Valid, (1, 3), DENSE, OutShort, None),
        row(65_536, wide, Slca, (2, 0), SPARSE, Exact, Some(EntryN)),
        row(65_536, trains, Slca, (4, 0), SPARSE, Exact, Some(CountLast)),
        row(65_536, random, Valid, (1, 1), DENSE, Exact, Some(EqualNeighbours)),
        row(65_536, wide, Elca, (1, 0), SPARSE, Exact, Some(ParentOffTheClimb)),
        row(65_536, one_tag, Check, (1, 0), DENSE, Exact, Some(LastEndShort)),
        row(65_537, one_tag, Elca, (1, 0), SPARSE, Exact, None),
        row(65_537, random, Slca, (1, 0), DENSE, More, None),
        row(65_537, trains, Valid, (1, 1), SPARSE, Exact, None),
        row(65_537, all_tags, Check, (1, 0), SPARSE, Exact, None),
    ]
}

/// The number of large cases.
pub fn how_many() -> usize {
    rows().len()
}

/// The search of large case `number`.
pub fn search(number: usize) -> Search {
    rows()[number].search
}

/// Large case `number` of the seed, with the damage done to it.
pub fn large(seed: u64, number: usize) -> (Call, Option<Damage>) {
    let rng = &mut Rng::new(seed, number as u64);
    let row = &rows()[number];
    let texts = match row.shape {
        Shape::Flat | Shape::Chains => 20,
        _ => 60,
    };
    let tree = tree(rng, row.n, row.shape, row.tags, texts);
    let words = (0..row.p + row.q)
        .map(|j| {
            // Few negative occurrences, so that not all is struck out. In a
            // flat tree no entity has a text below it, and where all tags
            // differ there is no entity: there the root negates.
            let negative = j >= row.p;
            let rootward = row.shape == Shape::Flat || row.tags == Tags::Spread;
            let kind = match row.words {
                kind if !negative => kind,
                Kind::Each(_) if rootward => Kind::Texts(5),
                Kind::Each(_) => Kind::NotedEach(5),
                _ => Kind::Noted,
            };
            list(rng, &tree, kind)
        })
        .collect();
    let plan = Plan {
        search: row.search,
        tree,
        words,
        p: row.p,
    };
    let base = lend(rng, &plan, row.room);
    let mut call = base.clone();
    if let Some(kind) = row.damage {
        assert!(
            damage(rng, &base, &mut call, kind),
            "{kind:?} does not fit case {number}"
        );
    }
    (call, row.damage)
}
