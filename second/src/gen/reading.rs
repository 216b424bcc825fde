//! Small calls of the reader: about half of their texts undamaged.

use super::rng::Rng;
use super::spoil::{spoil, Spoil};
use super::texts::{text, Manner};
use crate::xml::call::Reading;
use crate::xml::derive::derive;
use crate::xml::node::{Outcome, LIMITS};

/// How long the buffers are.
#[derive(Clone, Copy, PartialEq, Eq, Debug)]
pub enum Room {
    /// All exactly as long as needed.
    Exact,
    /// All longer than needed.
    More,
    /// One of the five one short: parents, tags, firsts, lasts, work.
    Short(usize),
    /// Around what is needed, each on its own or all alike.
    Any,
}

fn filled(rng: &mut Rng, length: usize) -> Vec<u32> {
    (0..length).map(|_| rng.nonzero()).collect()
}

fn around(rng: &mut Rng, needed: usize) -> usize {
    let (more, fewer) = (needed + rng.range(1, 3), rng.range(0, needed));
    rng.weighted(&[
        (60, needed),
        (25, more),
        (9, needed.saturating_sub(1)),
        (2, 0),
        (4, fewer),
    ])
}

/// The lengths for n nodes.
fn lengths(rng: &mut Rng, n: usize, room: Room) -> [usize; 5] {
    let needed = [n, n, n, n, 3 * n];
    match room {
        Room::Exact => needed,
        Room::More => needed.map(|length| length + 3),
        Room::Short(which) => {
            let mut lengths = needed;
            lengths[which] = lengths[which].saturating_sub(1);
            lengths
        }
        Room::Any => match rng.range(0, 9) {
            0..=2 => needed,
            3 => needed.map(|length| length + 5),
            4..=5 => {
                let mut lengths = needed.map(|length| length + 1);
                let which = rng.range(0, 4);
                let fewer = rng.range(0, needed[which]);
                lengths[which] = match rng.range(0, 3) {
                    0 => fewer,
                    // Of work two rows are too few, or those of the others.
                    1 if which == 4 => 2 * n,
                    2 if which == 4 => n,
                    _ => needed[which].saturating_sub(1),
                };
                lengths
            }
            _ => needed.map(|length| around(rng, length)),
        },
    }
}

/// The call that lends a text, with buffers for n nodes.
pub fn lend(rng: &mut Rng, text: Vec<u8>, n: usize, room: Room) -> Reading {
    let [parents, tags, firsts, lasts, work] = lengths(rng, n, room);
    Reading {
        text,
        parents: filled(rng, parents),
        tags: filled(rng, tags),
        firsts: filled(rng, firsts),
        lasts: filled(rng, lasts),
        work: filled(rng, work),
    }
}

/// How many nodes a text of the profile has.
pub fn nodes(text: &[u8]) -> Option<usize> {
    match derive(text, LIMITS) {
        Outcome::Whole(nodes) => Some(nodes.len()),
        _ => None,
    }
}

const MANNERS: &[(usize, Manner)] = &[
    (12, Manner::Schedule),
    (16, Manner::Productions),
    (10, Manner::Deep),
    (6, Manner::Brink),
    (6, Manner::Wide),
    (12, Manner::Names),
    (8, Manner::Spaced),
    (14, Manner::Data),
    (16, Manner::Tiny),
];

/// Small case `number` of the seed, with its manner and the damage done to it.
pub fn small(seed: u64, number: u64) -> (Reading, Manner, Vec<Spoil>) {
    let rng = &mut Rng::new(seed, number);
    let manner = rng.weighted(MANNERS);
    let base = text(rng, manner);
    let mut spoilt = base.clone();
    let how_many = rng.weighted(&[(50, 0), (36, 1), (14, 2)]);
    let mut kinds = vec![];
    while kinds.len() < how_many {
        let kind = rng.pick(Spoil::ALL);
        let manner = rng.pick(&[Manner::Tiny, Manner::Data, Manner::Productions]);
        let other = text(rng, manner);
        // A kind that does not fit the text gives way to another.
        if spoil(rng, &mut spoilt, &other, kind).is_some() {
            kinds.push(kind);
        }
    }
    // A text that is refused has room for what it was before the damage.
    let n = nodes(&spoilt)
        .or_else(|| nodes(&base))
        .unwrap_or(spoilt.len() / 4);
    (lend(rng, spoilt, n, Room::Any), manner, kinds)
}
