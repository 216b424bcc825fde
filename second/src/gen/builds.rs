//! Small calls of the word dictionary.

use super::queries::{parted, query, wrong_ends, wrong_words, Wrong, WRONG};
use super::rng::Rng;
use super::spoil::{spoil, Spoil};
use super::texts;
use super::wordy::{wordy, Manner};
use crate::build::call::{Building, ROWS};
use crate::build::lists::by_mentions;
use crate::build::scan::scan;
use crate::build::table::distinct;
use crate::build::words::Mention;
use crate::xml::derive::derive;
use crate::xml::node::{Outcome, LIMITS};

/// How many slots the table has.
#[derive(Clone, Copy)]
pub enum Slots {
    None,
    One,
    /// As many as there are distinct words.
    Exact,
    OneShort,
    /// Fewer by more than one.
    Fewer,
    OneMore,
    FewMore,
    Twice,
    /// As many as there are nodes.
    Nodes,
    /// So many.
    Of(usize),
}

/// How long the other slices are.
#[derive(Clone, Copy)]
pub enum Room {
    /// All exactly as long as needed.
    Exact,
    /// All longer than needed.
    More,
    /// One of them one short, in the order of the call.
    Short(usize),
    /// One of them much too short, others longer.
    MuchShort(usize),
    /// All of them empty.
    None,
    /// Around what is needed, each on its own.
    Any,
}

/// A call, and how it came about.
#[derive(Clone, PartialEq, Eq, Debug)]
pub struct Asked {
    pub building: Building,
    pub manner: Manner,
    pub spoilt: Option<Spoil>,
    pub wrong: Option<Wrong>,
}

/// What a text and a query need.
pub struct Needs {
    /// The distinct words.
    words: usize,
    nodes: usize,
    /// The slices besides the table, in the order of the call.
    rows: [usize; ROWS],
}

/// What so many nodes with these mentions need, and the lists of these words.
pub fn needs(n: usize, mentions: &[Mention], query: &[Vec<u8>]) -> Needs {
    let k = query.len();
    let list = |word: &Vec<u8>| by_mentions(mentions, &word.to_ascii_lowercase()).len();
    let occurrences = query.iter().map(list).sum();
    Needs {
        words: distinct(mentions).len(),
        nodes: n,
        rows: [n, n, n, n, k, occurrences, k * n, 3 * n],
    }
}

/// The number of slots.
pub fn how_many_slots(rng: &mut Rng, needs: &Needs, slots: Slots) -> usize {
    let words = needs.words;
    match slots {
        Slots::None => 0,
        Slots::One => 1,
        Slots::Exact => words,
        Slots::OneShort => words.saturating_sub(1),
        Slots::Fewer => rng.range(0, words.saturating_sub(2)),
        Slots::OneMore => words + 1,
        Slots::FewMore => words + rng.range(2, 9),
        Slots::Twice => 2 * words,
        Slots::Nodes => needs.nodes,
        Slots::Of(slots) => slots,
    }
}

fn around(rng: &mut Rng, needed: usize) -> usize {
    let (more, fewer) = (needed + rng.range(1, 3), rng.range(0, needed));
    rng.weighted(&[
        (64, needed),
        (29, more),
        (4, needed.saturating_sub(1)),
        (1, 0),
        (2, fewer),
    ])
}

/// The lengths of the slices besides the table.
pub fn lengths(rng: &mut Rng, needs: &Needs, room: Room) -> [usize; ROWS] {
    let mut lengths = needs.rows;
    match room {
        Room::Exact => (),
        Room::More => lengths.iter_mut().for_each(|length| *length += 3),
        Room::Short(which) => lengths[which] = lengths[which].saturating_sub(1),
        Room::MuchShort(which) => {
            lengths.iter_mut().for_each(|length| *length += 1);
            // For work and counts, what another slice needs is too short.
            let n = needs.nodes;
            lengths[which] = rng.pick(&[0, n / 2, n, 2 * n]).min(needs.rows[which] / 2);
        }
        Room::None => lengths = [0; ROWS],
        Room::Any => lengths
            .iter_mut()
            .for_each(|length| *length = around(rng, *length)),
    }
    lengths
}

/// What a slice holds when it is lent.
fn filled(rng: &mut Rng, length: usize) -> Vec<u32> {
    (0..length).map(|_| rng.nonzero()).collect()
}

/// What the table holds when it is lent: any numbers, the places of words as an
/// earlier call might have left them, or the highest number.
fn lent_slots(rng: &mut Rng, length: usize, mentions: &[Mention]) -> Vec<u32> {
    match rng.range(0, 9) {
        0..=1 if !mentions.is_empty() => (0..length)
            .map(|_| mentions[rng.range(0, mentions.len() - 1)].place as u32 + 1)
            .collect(),
        2 => vec![u32::MAX; length],
        _ => filled(rng, length),
    }
}

/// What is lent besides text and query: the table, and slices of these lengths.
pub fn lend(
    rng: &mut Rng,
    text: Vec<u8>,
    (words, word_ends): (Vec<u8>, Vec<u32>),
    slots: Vec<u32>,
    lengths: [usize; ROWS],
) -> Building {
    let [parents, tags, firsts, lasts, ends, occurrences, counts, work] =
        lengths.map(|length| filled(rng, length));
    Building {
        text,
        words,
        word_ends,
        slots,
        parents,
        tags,
        firsts,
        lasts,
        ends,
        occurrences,
        counts,
        work,
    }
}

/// How many nodes a text of the profile has, and its words.
pub fn known(text: &[u8]) -> Option<(usize, Vec<Mention>)> {
    match derive(text, LIMITS) {
        Outcome::Whole(nodes) => Some((nodes.len(), scan(text))),
        _ => None,
    }
}

/// Of a text that is none of the profile what its words might be: all runs of
/// letters and digits.
fn runs(text: &[u8]) -> Vec<Mention> {
    let mut place = 0;
    let mut mentions = vec![];
    for run in text.split(|byte| !byte.is_ascii_alphanumeric()) {
        if !run.is_empty() {
            mentions.push(Mention {
                node: 0,
                place,
                word: run.to_ascii_lowercase(),
            });
        }
        place += run.len() + 1;
    }
    mentions
}

const MANNERS: &[(usize, Manner)] = &[
    (5, Manner::Like(texts::Manner::Schedule)),
    (4, Manner::Like(texts::Manner::Productions)),
    (4, Manner::Like(texts::Manner::Deep)),
    (4, Manner::Like(texts::Manner::Brink)),
    (1, Manner::Like(texts::Manner::Wide)),
    (4, Manner::Like(texts::Manner::Names)),
    (3, Manner::Like(texts::Manner::Data)),
    (4, Manner::Like(texts::Manner::Tiny)),
    (9, Manner::Plain),
    (13, Manner::Broken),
    (9, Manner::Named),
    (8, Manner::Edges),
    (7, Manner::Alike),
    (12, Manner::Clashing),
    (6, Manner::Crowded),
    (8, Manner::Dense),
    (4, Manner::Many),
    (4, Manner::Wordless),
];

fn some_slots(rng: &mut Rng, made_for: Option<usize>) -> Slots {
    if let (Some(slots), true) = (made_for, rng.percent(80)) {
        return Slots::Of(slots);
    }
    let any = Slots::Of(rng.pick(&[7, 16, 31, 64, 97]));
    rng.weighted(&[
        (30, Slots::Exact),
        (17, Slots::Twice),
        (9, Slots::OneMore),
        (12, Slots::FewMore),
        (7, Slots::OneShort),
        (2, Slots::Fewer),
        (2, Slots::None),
        (2, Slots::One),
        (6, Slots::Nodes),
        (9, any),
    ])
}

/// Where the text is refused, there is often no room at all: then it is to be told
/// which refusal comes first.
fn some_room(rng: &mut Rng, refused: bool) -> Room {
    let which = rng.range(0, ROWS - 1);
    rng.weighted(&[
        (42, Room::Exact),
        (24, Room::More),
        (14, Room::Short(which)),
        (6, Room::MuchShort(which)),
        (13, Room::Any),
        (if refused { 40 } else { 1 }, Room::None),
    ])
}

/// Spoils a text by a kind that fits it.
fn spoil_somehow(rng: &mut Rng, text: &mut Vec<u8>) -> Spoil {
    loop {
        let kind = rng.pick(Spoil::ALL);
        let other = texts::text(rng, texts::Manner::Tiny);
        if spoil(rng, text, &other, kind).is_some() {
            return kind;
        }
    }
}

/// Small case `number` of the seed.
pub fn small(seed: u64, number: u64) -> Asked {
    let rng = &mut Rng::new(seed ^ (1 << 62), number);
    let manner = rng.weighted(MANNERS);
    let base = wordy(rng, manner);
    let wrong = rng.percent(19).then(|| rng.weighted(WRONG));
    // A wrong query often stands with a broken text: one of them comes first.
    let broken = if wrong.is_some() { 30 } else { 10 };
    let mut text = base.text.clone();
    let spoilt = rng.percent(broken).then(|| spoil_somehow(rng, &mut text));
    // A text that is refused has room for what it was before the damage.
    let whole = known(&text);
    let refused = whole.is_none();
    let (n, mentions) = whole
        .or_else(|| known(&base.text))
        .unwrap_or_else(|| (text.len() / 8 + 1, runs(&text)));
    let mentioned: Vec<&[u8]> = mentions.iter().map(|mention| mention.word.as_slice()).collect();
    let k = rng.weighted(&[
        (14, 1),
        (16, 2),
        (14, 3),
        (11, 4),
        (8, 5),
        (8, 6),
        (8, 7),
        (21, 8),
    ]);
    let mut words = query(rng, k, &mentioned, &base.words);
    wrong.iter().for_each(|&kind| wrong_words(rng, &mut words, kind));
    let needs = needs(n, &mentions, &words);
    let (mut words, mut word_ends) = parted(&words);
    wrong
        .iter()
        .for_each(|&kind| wrong_ends(rng, &mut words, &mut word_ends, kind));
    let slots = some_slots(rng, base.slots);
    let length = how_many_slots(rng, &needs, slots);
    let lent = lent_slots(rng, length, &mentions);
    let room = some_room(rng, refused);
    let lengths = lengths(rng, &needs, room);
    Asked {
        building: lend(rng, text, (words, word_ends), lent, lengths),
        manner,
        spoilt,
        wrong,
    }
}
