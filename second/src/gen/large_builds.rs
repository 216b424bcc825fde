//! Large calls of the word dictionary, a fixed set up to the seed's random
//! content.

use super::builds::{how_many_slots, known, lend, lengths, needs, Room, Slots};
use super::clash::{of_stages, GROUPS};
use super::large_texts::{self, filled};
use super::pen::Pen;
use super::queries::parted;
use super::rng::Rng;
use super::texts::family;
use super::wordy::{self, cased, short};
use crate::build::call::{Building, ROWS};
use crate::build::table::home;
use crate::build::words::Mention;
use crate::xml::judge::BYTES;
use crate::xml::node::LIMITS;
use std::collections::BTreeSet;

/// What a large text is.
#[derive(Clone, Copy, PartialEq, Eq, Debug)]
pub enum Kind {
    /// One of the reader's.
    Like(large_texts::Kind),
    /// So many nodes, with eight words at most of them.
    Dense(usize),
    /// So many nodes without a word.
    Wordless(usize),
    /// So many words, each once, so many in a node.
    Distinct(usize, usize),
    /// So many times two words with one hash, each twice.
    Pairs(usize),
    /// As many words with one hash as so many stages give, some in a node.
    OneHash(usize),
    /// So many words, and their homes among the last 16 of so many slots.
    Crowd(usize, usize),
    /// Words with comments in them, so many bytes in all.
    Broken(usize),
    /// Few words with long comments in them, so many bytes in all; then this
    /// behind the root.
    Remarks(usize, &'static str),
    /// One word of so many letters: in small letters, in capitals, with a comment
    /// before its last, and without its last.
    LongWord(usize),
}

use Kind::*;

/// What is asked for.
#[derive(Clone, Copy)]
enum Ask {
    /// So many words of the text.
    Of(usize),
    Words(&'static [&'static str]),
    /// The longest word: in capitals, without its last letter, and with one more.
    Longest,
}

const NODES: usize = LIMITS.nodes;

const EIGHT: &[&str] = &["north", "NORD", "wien", "Hbf", "zone", "leg", "02", "x"];

/// The set.
fn rows() -> Vec<(Kind, Ask, Slots, Room)> {
    use large_texts::Kind::*;
    use Ask::*;
    use Room::{Exact, More, MuchShort, Short};
    use Slots as S;
    const ALL: Ask = Words(EIGHT);
    const A: Ask = Words(&["A"]);
    const NINE: Ask = Words(&["a", "b", "c", "d", "e", "f", "g", "h", "i"]);
    let mut rows = vec![
        (LongWord(1_000_000), Longest, S::Exact, Exact),
        (Distinct(300_000, 1_000), Of(8), S::Twice, Exact),
        (Like(Trains(65_000)), Of(3), S::Exact, More),
        (Like(Trains(NODES)), Of(8), S::Twice, Exact),
        (Like(Flat(NODES, "")), Words(&["a", "root"]), S::Exact, Exact),
        (Like(Flat(NODES, "x")), A, S::Exact, More),
        (Like(Flat(NODES, "<a/>")), A, S::Exact, More),
        (Like(Flat(NODES, " \x01x")), A, S::Exact, More),
        (
            Like(Mixed(NODES, "")),
            Words(&["x", "lt", "a"]),
            S::OneMore,
            Exact,
        ),
        (Like(Chains(64, 60_000)), Of(8), S::Exact, Exact),
        (Like(LastChain(64)), Of(2), S::Exact, More),
        (Like(LastChain(65)), A, S::Of(97), More),
        (
            Like(Notes(4_000_000, "")),
            Words(&["clocks", "lt", "since", "02"]),
            S::Exact,
            Exact,
        ),
        (Like(Notes(BYTES + 1, "")), A, S::Exact, More),
        (Like(Notes(BYTES, "\x01")), A, S::Of(97), More),
        (Like(LongName(1_000_000, true)), Of(8), S::Exact, Exact),
        (Like(LongName(1_000_000, false)), A, S::Of(97), More),
        (Like(Fillers(1_000_000)), Of(8), S::Twice, Exact),
        (Like(Names(3, 65_000, false)), Of(2), S::Exact, Exact),
        (
            Like(Names(1, 32_000, true)),
            Words(&["departure", "BOARD"]),
            S::Twice,
            Exact,
        ),
        (Like(Names(6, 65_535, false)), A, S::FewMore, More),
        (Dense(NODES), ALL, S::Exact, Exact),
        (Dense(30_000), ALL, S::Twice, Short(6)),
        (Dense(NODES), Words(&["north", "North"]), S::OneShort, Exact),
        (Dense(9_000), NINE, S::Exact, More),
        (Dense(9_000), Words(&["north", "", "leg"]), S::Exact, More),
        (Dense(9_000), Words(&["north", "no-rth"]), S::Exact, More),
        (Dense(9_000), ALL, S::None, More),
        (Dense(9_000), ALL, S::Twice, MuchShort(7)),
        (Wordless(NODES), A, S::None, Exact),
        (Wordless(9_000), Words(&["c", "lt"]), S::One, More),
        (Distinct(100_000, 50), Of(4), S::Exact, Exact),
        (Distinct(100_000, 4), Of(1), S::OneShort, Exact),
        (Distinct(100_000, 50), Of(1), S::Nodes, More),
        (
            Pairs(20_000),
            Words(&["liquid", "COSTARRING", "kpq", "kpqudna"]),
            S::Exact,
            Exact,
        ),
        (Pairs(20_000), Of(8), S::Twice, More),
        (OneHash(10), Of(8), S::Exact, Exact),
        (OneHash(10), Of(8), S::Twice, More),
        (OneHash(10), Of(2), S::OneShort, More),
        (Crowd(4_000, 4_096), Of(8), S::Of(4_096), Exact),
        (Crowd(4_096, 4_096), Of(2), S::Of(4_096), Exact),
        (Crowd(4_097, 4_096), Of(2), S::Of(4_096), Exact),
        (Broken(2_000_000), Of(8), S::Exact, Exact),
        (Broken(1_000_000), Of(8), S::Twice, More),
        (
            Remarks(BYTES, ""),
            Words(&["north", "remark", "Last"]),
            S::Exact,
            Exact,
        ),
        (Remarks(1_000_000, "<"), Of(1), S::Exact, Exact),
    ];
    for which in 0..ROWS {
        rows.push((Dense(9_000), ALL, S::Exact, Short(which)));
    }
    rows
}

/// The number of large calls.
pub fn how_many() -> usize {
    rows().len()
}

/// So many different words.
fn words(rng: &mut Rng, how_many: usize, fits: impl Fn(&[u8]) -> bool) -> Vec<Vec<u8>> {
    let mut known = BTreeSet::new();
    let mut words = vec![];
    while words.len() < how_many {
        let word = short(rng, 1, 5);
        if fits(&word) && known.insert(word.clone()) {
            words.push(word);
        }
    }
    words
}

/// Elements with so many of the words in each.
fn in_nodes(pen: &mut Pen, words: &[Vec<u8>], in_each: usize) {
    pen.word(b"<_>");
    for some in words.chunks(in_each) {
        pen.word(b"<_>");
        pen.word(&some.join(&b' '));
        pen.word(b"</_>");
    }
    pen.word(b"</_>");
}

fn dense(pen: &mut Pen, nodes: usize) {
    pen.word(b"<Zone>");
    let mut have = 1;
    while have < nodes {
        // An element, and mostly data in it.
        let filled = have + 1 < nodes && pen.rng.percent(90);
        let name = pen.rng.pick(&["leg", "LEG-02", "_x"]);
        pen.start(name.as_bytes());
        if filled {
            for _ in 0..pen.rng.range(1, 9) {
                let word = pen.rng.pick(EIGHT);
                let word = cased(pen.rng, word.as_bytes(), 30);
                pen.word(&word);
                pen.word(b" ");
            }
        }
        pen.end(name.as_bytes());
        have += 1 + usize::from(filled);
    }
    pen.word(b"</Zone>");
}

/// Two words with one hash and the same letters behind both, for each number.
fn pairs(pen: &mut Pen, pairs: usize) {
    let mut words: Vec<Vec<u8>> = vec![];
    for number in 0..pairs {
        let group = GROUPS[number % GROUPS.len()];
        let behind = match number / GROUPS.len() {
            0 => vec![],
            // A t comes before its letters.
            number => family(pen.rng, 3, number),
        };
        words.extend(group[..2].iter().map(|word| [word.as_bytes(), &behind].concat()));
    }
    let again: Vec<Vec<u8>> = words.iter().rev().map(|word| word.to_ascii_uppercase()).collect();
    words.extend(again);
    in_nodes(pen, &words, 100);
}

fn write(pen: &mut Pen, kind: Kind) {
    match kind {
        Like(kind) => large_texts::write(pen, kind),
        Dense(nodes) => dense(pen, nodes),
        Wordless(nodes) => {
            pen.word(b"<:>");
            for number in 1..nodes {
                pen.word(if number % 2 == 1 {
                    b"<_ />"
                } else {
                    b"&lt;<!--c-->."
                });
            }
            pen.word(b"</:>");
        }
        Distinct(how_many, in_each) => {
            let words = words(pen.rng, how_many, |_| true);
            in_nodes(pen, &words, in_each);
        }
        Pairs(how_many) => pairs(pen, how_many),
        OneHash(stages) => in_nodes(pen, &of_stages(stages), 10),
        Crowd(how_many, slots) => {
            let words = words(pen.rng, how_many, |word| home(word, slots) + 16 >= slots);
            in_nodes(pen, &words, 7);
        }
        Broken(bytes) => {
            let style = wordy::Style {
                broken: 30,
                ..wordy::style(words(pen.rng, 500, |_| true))
            };
            pen.word(b"<broken>");
            filled(pen, bytes, b"</broken>", |pen| {
                pen.word(b"<b>");
                wordy::phrase(pen, &style, 20);
                pen.word(b"</b>");
            });
        }
        Remarks(bytes, behind) => {
            pen.word(b"<remarks>");
            let end = [b"<!--x-->la<!--remark-->st</remarks>", behind.as_bytes()].concat();
            filled(pen, bytes, &end, |pen| {
                pen.word(b"<r>NO<!--");
                for _ in 0..pen.rng.range(1, 4_000) {
                    let word = pen.rng.pick(&["remark ", "north ", "- ", "<r> ", "&lt; "]);
                    pen.word(word.as_bytes());
                }
                pen.word(b"-->rth</r>\n");
            });
        }
        LongWord(letters) => {
            let word: Vec<u8> = (0..letters).map(|_| pen.rng.pick(b"abcxyz019")).collect();
            pen.word(b"<long><w>");
            pen.word(&word);
            pen.word(b"</w><w>");
            pen.word(&word.to_ascii_uppercase());
            pen.word(b"</w><w>");
            pen.word(&word[..letters - 1]);
            pen.word(b"<!--c-->");
            pen.word(&word[letters - 1..]);
            pen.word(b"</w><w>");
            pen.word(&word[..letters - 1]);
            pen.word(b"</w></long>");
        }
    }
}

fn query(rng: &mut Rng, mentions: &[Mention], ask: Ask) -> Vec<Vec<u8>> {
    match ask {
        Ask::Of(k) => (0..k)
            .map(|_| {
                let word = &mentions[rng.range(0, mentions.len() - 1)].word;
                cased(rng, word, 50)
            })
            .collect(),
        Ask::Words(words) => words.iter().map(|word| word.as_bytes().to_vec()).collect(),
        Ask::Longest => {
            let longest = mentions
                .iter()
                .map(|mention| &mention.word)
                .max_by_key(|word| word.len());
            let word = longest.expect("the text has a word");
            let shorter = word[..word.len() - 1].to_vec();
            vec![
                word.to_ascii_uppercase(),
                shorter,
                [word.as_slice(), b"x"].concat(),
            ]
        }
    }
}

/// Large call `number` of the seed, with its kind.
pub fn large(seed: u64, number: usize) -> (Building, Kind) {
    let rng = &mut Rng::new(seed ^ (1 << 62), number as u64);
    let (kind, ask, slots, room) = rows()[number];
    let pen = &mut Pen::new(rng, 0);
    write(pen, kind);
    let text = std::mem::take(&mut pen.text);
    let (n, mentions) = known(&text).unwrap_or_else(|| unknown(&text));
    let words = query(rng, &mentions, ask);
    let needs = needs(n, &mentions, &words);
    let how_many = how_many_slots(rng, &needs, slots);
    let lent = (0..how_many).map(|_| rng.nonzero()).collect();
    let lengths = lengths(rng, &needs, room);
    (lend(rng, text, parted(&words), lent, lengths), kind)
}

/// What a text that is refused is taken to have: one word, and as many nodes as
/// there may be; but few where it is long for its data.
fn unknown(text: &[u8]) -> (usize, Vec<Mention>) {
    let one = Mention {
        node: 0,
        place: 0,
        word: b"a".to_vec(),
    };
    let n = if text.len() < 1_000_000 { NODES } else { 1_000 };
    (n, vec![one])
}
