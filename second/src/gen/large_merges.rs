//! Large cases of the searches without counts: the twins of the large cases of
//! elca and slca, and a fixed set of their own up to the seed's random content.

use super::damage::{damage, Damage};
use super::large;
use super::lend::{lend, Plan, Room};
use super::merges::{stack, twin, Manner, Pair};
use super::rng::Rng;
use super::shape::{tree, Shape, Tags};
use super::words::{list, Kind};
use crate::call::Search;

struct Row {
    n: usize,
    shape: Shape,
    manner: Manner,
    search: Search,
    p: usize,
    words: Kind,
    room: Room,
    /// The entries of the stack.
    lent: usize,
    damage: Option<Damage>,
}

fn rows() -> Vec<Row> {
    use Damage::*;
    use Manner as M;
    use Room::*;
    use Search::*;
    use Shape::*;
    const ALL: Kind = Kind::Each(100);
    const DENSE: Kind = Kind::Each(50);
    const THIN: Kind = Kind::Thin(1);
    let row = |n, shape, manner, search, p, words, room, lent, damage| Row {
        n,
        shape,
        manner,
        search,
        p,
        words,
        room,
        lent,
        damage,
    };
    vec![
        row(1024, Comb, M::Open, Elca, 4, ALL, Exact, 64, None),
        row(4096, Comb, M::Open, Slca, 2, DENSE, More, 65, None),
        row(4096, Random, M::Rare, Elca, 8, Kind::Few, Exact, 64, None),
        row(4096, Wide, M::Empty, Elca, 3, Kind::Empty, Exact, 64, None),
        row(65_535, Deep, M::Dense, Elca, 3, DENSE, OutShort, 64, None),
        row(65_536, Comb, M::Open, Elca, 1, ALL, Exact, 64, None),
        row(65_536, Comb, M::Open, Elca, 8, ALL, Exact, 65, None),
        row(65_536, Comb, M::Open, Elca, 2, Kind::Texts(100), More, 64, None),
        row(65_536, Comb, M::Open, Slca, 4, DENSE, Exact, 64, None),
        row(65_536, Comb, M::Rare, Elca, 3, THIN, More, 70, None),
        row(65_536, Comb, M::Open, Elca, 2, DENSE, OwnShort, 64, None),
        row(65_536, Comb, M::Open, Slca, 2, DENSE, OutShort, 64, None),
        row(65_536, Random, M::Rare, Elca, 2, Kind::Few, Exact, 64, None),
        row(65_536, Random, M::Rare, Slca, 8, THIN, More, 64, None),
        row(65_536, Random, M::Dense, Elca, 8, ALL, Exact, 64, None),
        row(65_536, Chains, M::Deep, Elca, 4, Kind::Few, Exact, 64, None),
        row(65_536, Chains, M::Deep, Slca, 8, DENSE, More, 1024, None),
        row(65_536, Flat, M::Flat, Elca, 8, DENSE, Exact, 64, None),
        row(65_536, Flat, M::Flat, Slca, 2, THIN, Exact, 65, None),
        row(65_536, Flat, M::Flat, Elca, 2, DENSE, OutShort, 64, None),
        row(65_536, Random, M::Dense, Elca, 2, DENSE, More, 63, None),
        row(65_536, Random, M::Dense, Slca, 2, DENSE, More, 0, None),
        row(65_536, Comb, M::Open, Elca, 2, DENSE, Exact, 64, Some(Level65)),
        row(65_536, Comb, M::Open, Slca, 8, DENSE, Exact, 64, Some(Decrease)),
        row(
            65_536,
            Random,
            M::Dense,
            Elca,
            4,
            DENSE,
            Exact,
            64,
            Some(EndMoved),
        ),
        row(
            65_536,
            Random,
            M::Dense,
            Elca,
            4,
            DENSE,
            Exact,
            64,
            Some(CountLast),
        ),
        row(
            65_536,
            Random,
            M::Rare,
            Slca,
            4,
            THIN,
            Exact,
            64,
            Some(LastSeason),
        ),
        row(65_537, Comb, M::Open, Slca, 2, DENSE, Exact, 64, None),
    ]
}

/// The large cases of elca and slca.
fn twins() -> Vec<usize> {
    (0..large::how_many())
        .filter(|&number| matches!(large::search(number), Search::Elca | Search::Slca))
        .collect()
}

/// The number of large cases.
pub fn how_many() -> usize {
    twins().len() + rows().len()
}

/// Large case `number` of the seed: first the twins, then those of their own.
pub fn large(seed: u64, number: usize) -> Pair {
    let rng = &mut Rng::new(!seed, number as u64);
    let twins = twins();
    let (call, manner, damage, lent) = match twins.get(number) {
        Some(&of) => {
            let (call, kind) = large::large(seed, of);
            (call, Manner::Twin, kind, [64, 65, 80][number % 3])
        }
        None => {
            let row = &rows()[number - twins.len()];
            let tree = tree(rng, row.n, row.shape, Tags::Few(2), 30);
            let words = (0..row.p).map(|_| list(rng, &tree, row.words)).collect();
            let plan = Plan {
                search: row.search,
                tree,
                words,
                p: row.p,
            };
            let base = lend(rng, &plan, row.room);
            let mut call = base.clone();
            if let Some(kind) = row.damage {
                let fits = damage(rng, &base, &mut call, kind);
                assert!(fits, "{kind:?} does not fit case {number}");
            }
            (call, row.manner, row.damage, row.lent)
        }
    };
    let stack = stack(rng, lent, call.n());
    Pair {
        merging: twin(&call, stack),
        call,
        manner,
        damage: damage.into_iter().collect(),
    }
}
