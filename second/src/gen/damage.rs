//! One damage done to a call that was lawful.
//!
//! Each kind is named after what is wrong. Where a kind needs to know the
//! tree, it asks the undamaged call: a damaged one may not be safe to climb.

use super::rng::Rng;
use super::words::nearly;
use crate::call::{Call, Search};
use crate::count::counts;
use crate::list::lists;
use crate::tree::{climb, level, LEVELS};

#[derive(Clone, Copy, PartialEq, Eq, Debug)]
pub enum Damage {
    // TREE
    RootEntry,
    ParentItself,
    ParentAbove,
    ParentOffTheClimb,
    Level65,
    TextRoot,
    TextParent,
    ChildOfText,
    /// A node hung elsewhere on the climb: mostly a lawful tree that makes the
    /// counts false.
    OtherTree,
    // LIST
    EndBelow,
    EndAbove,
    LastEndShort,
    LastEndLong,
    EqualNeighbours,
    Decrease,
    EntryN,
    EntryHuge,
    /// An end moved by one: an entry changes its word.
    EndMoved,
    // COUNT
    CountSomewhere,
    CountFirst,
    CountLast,
    /// A low word wrong at a high node and a high word wrong at a low node.
    CountTwice,
    /// Counts made from slightly different lists.
    LastSeason,
    /// One occurrence too many, counted alike at all nodes above it.
    ExtraCounted,
    /// One occurrence counted elsewhere, alike at all nodes above both.
    MovedCounted,
    /// Counts set node by node, not word by word.
    Turned,
    // SIZE
    ParentsLength,
    TagsLength,
    EndsLength,
    CountsLength,
    WorkShort,
    WorkMuchShort,
    PZero,
    PNine,
    KNine,
    PHuge,
    QHuge,
    /// p + q wraps to the k that the slices fit.
    Wrapped,
    NegativeWord,
    NoNode,
    // LIST by length
    OccurrencesLength,
}

impl Damage {
    pub const ALL: &'static [Damage] = &[
        Damage::RootEntry,
        Damage::ParentItself,
        Damage::ParentAbove,
        Damage::ParentOffTheClimb,
        Damage::Level65,
        Damage::TextRoot,
        Damage::TextParent,
        Damage::ChildOfText,
        Damage::OtherTree,
        Damage::EndBelow,
        Damage::EndAbove,
        Damage::LastEndShort,
        Damage::LastEndLong,
        Damage::EqualNeighbours,
        Damage::Decrease,
        Damage::EntryN,
        Damage::EntryHuge,
        Damage::EndMoved,
        Damage::CountSomewhere,
        Damage::CountFirst,
        Damage::CountLast,
        Damage::CountTwice,
        Damage::LastSeason,
        Damage::ExtraCounted,
        Damage::MovedCounted,
        Damage::Turned,
        Damage::ParentsLength,
        Damage::TagsLength,
        Damage::EndsLength,
        Damage::CountsLength,
        Damage::WorkShort,
        Damage::WorkMuchShort,
        Damage::PZero,
        Damage::PNine,
        Damage::KNine,
        Damage::PHuge,
        Damage::QHuge,
        Damage::Wrapped,
        Damage::NegativeWord,
        Damage::NoNode,
        Damage::OccurrencesLength,
    ];
}

/// Sets an entry, where an earlier damage has left it in place.
fn set(slice: &mut [u32], at: usize, value: u32) {
    if let Some(entry) = slice.get_mut(at) {
        *entry = value;
    }
}

/// One more or one less, wrapping.
fn off_by_one(rng: &mut Rng, slice: &mut [u32], at: usize) {
    let by = rng.pick(&[1, u32::MAX]);
    if let Some(entry) = slice.get_mut(at) {
        *entry = entry.wrapping_add(by);
    }
}

/// One entry longer or one shorter.
fn length_off(rng: &mut Rng, slice: &mut Vec<u32>) {
    if slice.is_empty() || rng.percent(50) {
        let value = rng.range(0, 3) as u32;
        slice.push(value);
    } else {
        slice.pop();
    }
}

fn some_of<T: Copy>(rng: &mut Rng, from: &[T]) -> Option<T> {
    (!from.is_empty()).then(|| rng.pick(from))
}

/// Adds empty words, counts and work included, until there are k.
fn add_words(rng: &mut Rng, call: &mut Call, k: usize) {
    while call.ends.len() < k {
        call.ends.push(call.occurrences.len() as u32);
        call.counts.extend(vec![0; call.parents.len()]);
        for _ in 0..call.parents.len() {
            call.work.push(rng.nonzero());
        }
    }
}

/// Does the damage. False, and nothing done, where the kind does not fit.
pub fn damage(rng: &mut Rng, base: &Call, call: &mut Call, kind: Damage) -> bool {
    try_damage(rng, base, call, kind).is_some()
}

/// The call with all the damage done. A kind that does not fit the case gives
/// way to another.
pub fn damaged(
    rng: &mut Rng,
    base: &Call,
    kinds: &mut [Damage],
    another: impl Fn(&mut Rng) -> Damage,
) -> Call {
    let mut call = base.clone();
    for kind in kinds {
        while !damage(rng, base, &mut call, *kind) {
            *kind = another(rng);
        }
    }
    call
}

fn try_damage(rng: &mut Rng, base: &Call, call: &mut Call, kind: Damage) -> Option<()> {
    let n = base.n();
    let k = base.ends.len();
    let words = lists(&base.ends, &base.occurrences);
    let length = base.occurrences.len() as u32;
    // A node other than the root, where there is one.
    let below = if n > 1 { Some(rng.range(1, n - 1)) } else { None };
    // A place in the occurrences that the same word goes on after.
    let inner = |rng: &mut Rng| {
        let mut places = Vec::new();
        let mut start = 0;
        for list in &words {
            places.extend(start..start + list.len().saturating_sub(1));
            start += list.len();
        }
        some_of(rng, &places)
    };
    // The last place of a word's list.
    let last = |rng: &mut Rng| {
        let filled: Vec<usize> = (0..k).filter(|&j| !words[j].is_empty()).collect();
        some_of(rng, &filled).map(|j| base.ends[j] as usize - 1)
    };

    match kind {
        Damage::RootEntry => {
            let value = rng.pick(&[1, n as u32 - 1, n as u32, u32::MAX]).max(1);
            set(&mut call.parents, 0, value);
        }
        Damage::ParentItself => {
            let i = below?;
            set(&mut call.parents, i, i as u32);
        }
        Damage::ParentAbove => {
            let i = below? as u32;
            let value = rng.pick(&[i + 1, n as u32, n as u32 + 1, u32::MAX]).max(i + 1);
            set(&mut call.parents, i as usize, value);
        }
        Damage::ParentOffTheClimb => {
            let off = |&(i, w): &(usize, usize)| climb(&base.parents, i - 1).all(|above| above != w);
            let (i, w) = (0..30)
                .filter(|_| n > 2)
                .map(|_| {
                    let i = rng.range(2, n - 1);
                    (i, rng.range(1, i - 1))
                })
                .find(off)?;
            set(&mut call.parents, i, w as u32);
        }
        Damage::Level65 => {
            let deepest: Vec<usize> = (1..n)
                .filter(|&i| level(&base.parents, i - 1) == LEVELS)
                .collect();
            let i = some_of(rng, &deepest)?;
            set(&mut call.parents, i, i as u32 - 1);
            set(&mut call.tags, i - 1, 1);
        }
        Damage::TextRoot => set(&mut call.tags, 0, 0),
        Damage::TextParent => {
            let with_child: Vec<usize> = (2..n)
                .filter(|&i| base.parents[i] as usize == i - 1)
                .map(|i| i - 1)
                .collect();
            let v = some_of(rng, &with_child)?;
            set(&mut call.tags, v, 0);
        }
        Damage::ChildOfText => {
            let texts: Vec<usize> = (0..n - 1).filter(|&v| base.tags[v] == 0).collect();
            let v = some_of(rng, &texts)?;
            set(&mut call.parents, v + 1, v as u32);
        }
        Damage::OtherTree => {
            let i = below?;
            let others: Vec<usize> = climb(&base.parents, i - 1)
                .filter(|&v| base.tags[v] != 0 && v != base.parents[i] as usize)
                .filter(|&v| level(&base.parents, v) < LEVELS)
                .collect();
            let parent = some_of(rng, &others)?;
            set(&mut call.parents, i, parent as u32);
        }

        Damage::EndBelow => {
            let after_filled: Vec<usize> = (1..k).filter(|&j| base.ends[j - 1] > 0).collect();
            let j = some_of(rng, &after_filled)?;
            let before = base.ends[j - 1];
            let value = rng.pick(&[before - 1, 0, before / 2]);
            set(&mut call.ends, j, value);
        }
        Damage::EndAbove => {
            let j = rng.range(0, k - 1);
            let value = rng.pick(&[length + 1, length + n as u32, 1 << 31, u32::MAX]);
            set(&mut call.ends, j, value);
        }
        Damage::LastEndShort => {
            let end = base.ends[k - 1].checked_sub(1)?;
            set(&mut call.ends, k - 1, end);
        }
        Damage::LastEndLong => set(&mut call.ends, k - 1, length + 1),
        Damage::EqualNeighbours => {
            let x = inner(rng)?;
            set(&mut call.occurrences, x + 1, base.occurrences[x]);
        }
        Damage::Decrease => {
            let x = inner(rng)?;
            set(&mut call.occurrences, x, base.occurrences[x + 1]);
            set(&mut call.occurrences, x + 1, base.occurrences[x]);
        }
        Damage::EntryN => {
            let x = last(rng)?;
            set(&mut call.occurrences, x, n as u32);
        }
        Damage::EntryHuge => {
            let x = last(rng)?;
            let value = rng
                .pick(&[n as u32 + 1, 1 << 16, 1 << 31, u32::MAX])
                .max(n as u32);
            set(&mut call.occurrences, x, value);
        }
        Damage::EndMoved => {
            let movable: Vec<(usize, u32)> = (0..k - 1)
                .flat_map(|j| {
                    let end = base.ends[j];
                    [(j, end.wrapping_sub(1)), (j, end + 1)]
                })
                .filter(|&(_, end)| end <= length)
                .collect();
            let (j, end) = some_of(rng, &movable)?;
            set(&mut call.ends, j, end);
        }

        Damage::CountSomewhere => {
            let at = rng.range(0, k * n - 1);
            off_by_one(rng, &mut call.counts, at);
        }
        Damage::CountFirst => off_by_one(rng, &mut call.counts, 0),
        Damage::CountLast => off_by_one(rng, &mut call.counts, k * n - 1),
        Damage::CountTwice => {
            if k < 2 {
                return None;
            }
            let high = below?;
            let low = rng.range(0, high - 1);
            let word = rng.range(1, k - 1);
            let lower_word = rng.range(0, word - 1);
            off_by_one(rng, &mut call.counts, lower_word * n + high);
            off_by_one(rng, &mut call.counts, word * n + low);
        }
        Damage::LastSeason => {
            let season: Vec<Vec<u32>> = words
                .iter()
                .map(|list| {
                    if rng.percent(60) {
                        nearly(rng, n, list)
                    } else {
                        list.to_vec()
                    }
                })
                .collect();
            let season: Vec<&[u32]> = season.iter().map(Vec::as_slice).collect();
            for (at, count) in counts(&base.parents, &season).into_iter().enumerate() {
                set(&mut call.counts, at, count);
            }
        }
        Damage::ExtraCounted => {
            let j = rng.range(0, k - 1);
            let u = rng.range(0, n - 1);
            for v in climb(&base.parents, u) {
                set(&mut call.counts, j * n + v, base.counts[j * n + v] + 1);
            }
        }
        Damage::MovedCounted => {
            let filled: Vec<usize> = (0..k).filter(|&j| !words[j].is_empty()).collect();
            let j = some_of(rng, &filled)?;
            let from = rng.pick(words[j]) as usize;
            let to = rng.range(0, n - 1);
            let mut moved = base.counts[j * n..(j + 1) * n].to_vec();
            climb(&base.parents, from).for_each(|v| moved[v] -= 1);
            climb(&base.parents, to).for_each(|v| moved[v] += 1);
            for (v, count) in moved.into_iter().enumerate() {
                set(&mut call.counts, j * n + v, count);
            }
        }
        Damage::Turned => {
            if k < 2 {
                return None;
            }
            for j in 0..k {
                for v in 0..n {
                    set(&mut call.counts, v * k + j, base.counts[j * n + v]);
                }
            }
        }

        Damage::ParentsLength => length_off(rng, &mut call.parents),
        Damage::TagsLength => length_off(rng, &mut call.tags),
        Damage::EndsLength => length_off(rng, &mut call.ends),
        Damage::CountsLength => length_off(rng, &mut call.counts),
        Damage::OccurrencesLength => length_off(rng, &mut call.occurrences),
        Damage::WorkShort => call.work.truncate((k + 2) * n - 1),
        Damage::WorkMuchShort => {
            let length = rng.pick(&[(k + 1) * n, k * n, n, 0]);
            call.work.truncate(length);
        }
        Damage::PZero => {
            call.p = 0;
            call.q = 0;
            if rng.percent(50) && !matches!(call.search, Search::Elca | Search::Slca) {
                call.q = k as u32;
            } else {
                call.ends.clear();
                call.occurrences.clear();
                call.counts.clear();
            }
        }
        Damage::PNine => {
            add_words(rng, call, 9);
            call.p = 9;
            call.q = 0;
        }
        Damage::KNine => {
            if matches!(call.search, Search::Elca | Search::Slca) {
                return None;
            }
            add_words(rng, call, 9);
            call.q = 9 - base.p;
        }
        Damage::PHuge => call.p = rng.pick(&[10, 256, 1 << 16, 1 << 31, u32::MAX - 1, u32::MAX]),
        Damage::QHuge => call.q = rng.pick(&[10, 256, 1 << 16, 1 << 31, u32::MAX - 1, u32::MAX]),
        Damage::Wrapped => {
            let k = k as u32;
            let any = rng.nonzero().max(k + 1);
            call.p = rng.pick(&[u32::MAX, 1 << 31, any, (k + 1).max(8), k + 1]);
            call.q = k.wrapping_sub(call.p);
        }
        Damage::NegativeWord => {
            if base.q > 0 {
                call.search = rng.pick(&[Search::Elca, Search::Slca]);
            } else if matches!(base.search, Search::Elca | Search::Slca) {
                if k < 8 && (base.p == 1 || rng.percent(50)) {
                    // A further word, negative.
                    add_words(rng, call, k + 1);
                    call.q = 1;
                } else if base.p > 1 {
                    // The last word made negative.
                    call.p = base.p - 1;
                    call.q = 1;
                } else {
                    return None;
                }
            } else {
                return None;
            }
        }
        Damage::NoNode => {
            call.parents.clear();
            call.tags.clear();
            call.counts.clear();
            if rng.percent(50) {
                call.occurrences.clear();
                call.ends.iter_mut().for_each(|end| *end = 0);
            }
        }
    }
    Some(())
}
