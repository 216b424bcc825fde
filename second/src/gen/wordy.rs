//! Texts that are about their words: broken by comments, parted by references, in
//! names, in both cases, with one hash, with near homes.

use super::clash::group;
use super::pen::Pen;
use super::rng::Rng;
use super::texts;
use crate::build::table::home;

/// What a text is like.
#[derive(Clone, Copy, PartialEq, Eq, PartialOrd, Ord, Debug)]
pub enum Manner {
    /// A text made for the reader, in a manner of these.
    Like(texts::Manner),
    /// Notes and names, nothing more than others.
    Plain,
    /// Comments within words, and several in a row.
    Broken,
    /// Names of several words.
    Named,
    /// Letters and digits at the ends of their ranges, and what stands beside them.
    Edges,
    /// Words that begin one another.
    Alike,
    /// Words with one hash.
    Clashing,
    /// Words whose homes are the last slots of a small table.
    Crowded,
    /// Few words at many nodes, and often.
    Dense,
    /// Many words, seldom twice.
    Many,
    /// No word at all but in comments.
    Wordless,
}

/// A text with what it was made for.
pub struct Wordy {
    pub text: Vec<u8>,
    /// Words that are in it, or might be.
    pub words: Vec<Vec<u8>>,
    /// The slots that it was made for, if for a number of them.
    pub slots: Option<usize>,
}

/// How words are written.
pub struct Style {
    pub words: Vec<Vec<u8>>,
    /// Before how many of a hundred letters within a word comments stand.
    pub broken: usize,
    /// How many of a hundred words end at a reference or at nothing but a comment.
    pub parted: usize,
    /// How many of a hundred names are of several words.
    pub named: usize,
    /// How many of a hundred words have capitals.
    pub capitals: usize,
}

/// The plainest style.
pub fn style(words: Vec<Vec<u8>>) -> Style {
    Style {
        words,
        broken: 4,
        parted: 15,
        named: 30,
        capitals: 35,
    }
}

/// Words that a schedule has, and the names of the references.
const TRAINS: &[&str] = &[
    "north", "nord", "wien", "hbf", "zone", "leg", "legs", "train", "02", "30", "2019", "nj40", "border",
    "station", "x", "c", "lt", "gt", "amp", "apos", "quot", "since",
];

/// Words that begin one another, or end alike.
const ALIKE: &[&str] = &[
    "a", "ab", "abc", "abcd", "b", "bc", "ba", "aa", "aaa", "1", "12", "123", "a1", "1a", "a1b", "ab1",
];

/// Words of the first and the last letters and digits.
const EDGES: &[&str] = &[
    "a", "z", "0", "9", "az", "za", "z9", "0a", "zz", "y8", "b1", "zaz", "909",
];

fn some(rng: &mut Rng, from: &[&str], least: usize, most: usize) -> Vec<Vec<u8>> {
    let how_many = rng.range(least, most);
    (0..how_many)
        .map(|_| rng.pick(from).as_bytes().to_vec())
        .collect()
}

/// A word of few letters and digits.
pub fn short(rng: &mut Rng, least: usize, most: usize) -> Vec<u8> {
    let length = rng.range(least, most);
    (0..length)
        .map(|_| rng.pick(b"abcdefghijklmnopqrstuvwxyz0123456789"))
        .collect()
}

/// Words whose homes are the last of so many slots.
fn crowd(rng: &mut Rng, slots: usize) -> Vec<Vec<u8>> {
    let last = rng.range(1, 3);
    let how_many = rng.range(2, slots);
    let mut words = vec![];
    while words.len() < how_many {
        let word = short(rng, 1, 4);
        if home(&word, slots) + last >= slots {
            words.push(word);
        }
    }
    words
}

/// The word in the case that it is written in.
pub fn cased(rng: &mut Rng, word: &[u8], capitals: usize) -> Vec<u8> {
    let mut word = word.to_ascii_lowercase();
    if rng.percent(capitals) {
        match rng.range(0, 3) {
            0 => word.make_ascii_uppercase(),
            1 => word[..1].make_ascii_uppercase(),
            _ => word
                .iter_mut()
                .filter(|_| rng.percent(50))
                .for_each(|letter| letter.make_ascii_uppercase()),
        }
    }
    word
}

fn some_word(pen: &mut Pen, style: &Style) -> Vec<u8> {
    let at = pen.rng.range(0, style.words.len() - 1);
    cased(pen.rng, &style.words[at], style.capitals)
}

/// A comment, mostly with words.
fn remark(pen: &mut Pen, style: &Style) {
    if style.words.is_empty() || pen.rng.percent(35) {
        return pen.comment();
    }
    pen.word(b"<!--");
    for _ in 0..pen.rng.range(1, 3) {
        let space = pen.rng.pick(&["", " ", "<", "&", "-"]);
        pen.word(space.as_bytes());
        let word = some_word(pen, style);
        pen.word(&word);
    }
    pen.word(b"-->");
}

/// One comment or several.
fn remarks(pen: &mut Pen, style: &Style) {
    for _ in 0..pen.rng.pick(&[1, 1, 1, 2, 2, 3]) {
        remark(pen, style);
    }
}

/// A word, perhaps with comments in it.
fn spell(pen: &mut Pen, style: &Style) {
    let word = some_word(pen, style);
    for (i, letter) in word.iter().enumerate() {
        if i > 0 && pen.rng.percent(style.broken) {
            remarks(pen, style);
        }
        pen.word(&[*letter]);
    }
}

/// What stands between words, among it the bytes beside letters and digits.
const BETWEEN: &[&str] = &[
    " ", " ", " ", " ", ", ", "\n", "\t", "\r\n", "-", "_", ".", ":", "'", "\"", "/", "@", "[", "`", "{",
    "=", "\x7f", " (", ") ", "~", "- ", " _", "> ",
];

/// References that part words, and a comment that does not.
const PARTING: &[&str] = &[
    "&lt;",
    "&gt;",
    "&amp;",
    "&apos;",
    "&quot;",
    "&lt;&gt;",
    " &amp; ",
    "<!--c-->&lt;",
    "&quot;<!---->",
    "<!--c-->",
    "<!---->",
    " <!-- --> ",
];

fn between(pen: &mut Pen, style: &Style) {
    let piece = if pen.rng.percent(style.parted) {
        pen.rng.pick(PARTING)
    } else {
        pen.rng.pick(BETWEEN)
    };
    pen.word(piece.as_bytes());
}

/// Data of some words, or of none.
pub fn phrase(pen: &mut Pen, style: &Style, most: usize) {
    if pen.rng.percent(20) {
        between(pen, style);
    }
    if !style.words.is_empty() {
        for _ in 0..pen.rng.range(1, most) {
            spell(pen, style);
            between(pen, style);
        }
        // Mostly the last word stands before a tag.
        if pen.rng.percent(60) {
            spell(pen, style);
        }
    }
}

/// A name of words, with what a name may have besides.
fn name(pen: &mut Pen, style: &Style) -> Vec<u8> {
    let several = pen.rng.percent(style.named);
    let begin = pen.rng.pick(&["", "_", ":", "_-", "__"]);
    let mut name = if several {
        begin.as_bytes().to_vec()
    } else {
        vec![]
    };
    let parts = if several { pen.rng.range(1, 3) } else { 1 };
    for part in 0..parts {
        if part > 0 {
            let joint = pen.rng.pick(&["-", "-", ".", ":", "_", "--", "._", "-_"]);
            name.extend(joint.bytes());
        }
        if !style.words.is_empty() {
            name.extend(some_word(pen, style));
        }
    }
    if several && pen.rng.percent(20) {
        name.extend(pen.rng.pick(&["-", ".", "_", ":"]).bytes());
    }
    // A digit, a dash or a dot does not begin a name.
    match name.first() {
        Some(b'0'..=b'9' | b'-' | b'.') | None => [b"_", name.as_slice()].concat(),
        _ => name,
    }
}

/// An element of words, with a budget of parts and so many words in a phrase.
fn element(pen: &mut Pen, style: &Style, budget: &mut usize, most: usize, depth: usize) {
    let name = name(pen, style);
    if *budget == 0 || depth > 6 || depth > 1 && pen.rng.percent(15) {
        return pen.leaf(&name);
    }
    pen.start(&name);
    for _ in 0..pen.rng.range(1, 6) {
        if *budget > 0 {
            *budget -= 1;
            match pen.rng.range(0, 9) {
                0..=4 => phrase(pen, style, most),
                5..=7 => element(pen, style, budget, most, depth + 1),
                8 => pen.s(),
                _ => remarks(pen, style),
            }
        }
    }
    pen.end(&name);
}

fn written(rng: &mut Rng, style: &Style, budget: usize, most: usize) -> Vec<u8> {
    let pen = &mut Pen::new(rng, 8);
    pen.miscs();
    element(pen, style, &mut { budget }, most, 1);
    pen.miscs();
    std::mem::take(&mut pen.text)
}

/// A text of a manner. It is of the profile but for those made as for the reader,
/// of which some are not.
pub fn wordy(rng: &mut Rng, manner: Manner) -> Wordy {
    let mut slots = None;
    let words = match manner {
        Manner::Like(_) | Manner::Plain | Manner::Broken => some(rng, TRAINS, 2, 12),
        Manner::Named => some(rng, TRAINS, 2, 6),
        Manner::Edges => some(rng, EDGES, 2, 8),
        Manner::Alike => some(rng, ALIKE, 3, 12),
        Manner::Clashing => {
            let groups = rng.range(1, 3);
            let mut words: Vec<Vec<u8>> = (0..groups).flat_map(|_| group(rng)).collect();
            words.extend(some(rng, TRAINS, 0, 3));
            words
        }
        Manner::Crowded => {
            let of = rng.range(4, 14);
            slots = Some(of);
            crowd(rng, of)
        }
        Manner::Dense => some(rng, TRAINS, 1, 4),
        Manner::Many => (0..rng.range(15, 60)).map(|_| short(rng, 1, 5)).collect(),
        Manner::Wordless => vec![],
    };
    let plain = style(words);
    let style = match manner {
        Manner::Broken => Style {
            broken: 30,
            parted: 35,
            ..plain
        },
        Manner::Named => Style { named: 95, ..plain },
        Manner::Dense => Style { named: 10, ..plain },
        _ => plain,
    };
    let text = match manner {
        Manner::Like(like) => texts::text(rng, like),
        Manner::Dense => {
            let budget = rng.range(8, 30);
            written(rng, &style, budget, 4)
        }
        Manner::Many => {
            let budget = rng.range(4, 14);
            written(rng, &style, budget, 8)
        }
        _ => {
            let budget = rng.range(1, 14);
            written(rng, &style, budget, 4)
        }
    };
    Wordy {
        text,
        words: style.words,
        slots,
    }
}
