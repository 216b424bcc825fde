//! Large calls of the reader, a fixed set up to the seed's random content.

use super::pen::Pen;
use super::reading::{self, lend, Room};
use super::rng::Rng;
use super::texts::{deep, family, schedule};
use crate::xml::call::Reading;
use crate::xml::judge::BYTES;
use crate::xml::node::LIMITS;

/// What a large text is.
#[derive(Clone, Copy, PartialEq, Eq, Debug)]
pub enum Kind {
    /// Schedules of one train each, so many nodes in all.
    Trains(usize),
    /// A root with empty elements, so many nodes in all, then this before its
    /// end tag.
    Flat(usize, &'static str),
    /// The same, where every other node is data.
    Mixed(usize, &'static str),
    /// Chains of so many levels below one root, some thousand nodes.
    Chains(usize, usize),
    /// Chains of 64 levels, and then one that goes to a level.
    LastChain(usize),
    /// Start tags without end.
    Nested(usize),
    /// Long notes, so many bytes in all, then this behind the root.
    Notes(usize, &'static str),
    /// The same without the last so many bytes.
    NotesCut(usize, usize),
    /// One name in a start and an end tag, so many bytes in all; the last byte
    /// of the end tag's name is the same or not.
    LongName(usize, bool),
    /// Comments, references and white space, so many bytes in all.
    Fillers(usize),
    /// So many names of a family, each in an empty-element tag, and perhaps once
    /// more, backwards.
    Names(usize, usize, bool),
    /// The same with so many letters before each name.
    LongNames(usize, usize),
}

impl Kind {
    /// Whether it is about thousands of names.
    pub fn many_names(self) -> bool {
        matches!(self, Names(..) | LongNames(..))
    }
}

use Kind::*;

const NODES: usize = LIMITS.nodes;

/// The set.
fn rows() -> Vec<(Kind, Room)> {
    use Room::*;
    vec![
        (Trains(65_000), Exact),
        (Trains(65_536), More),
        (Trains(9_000), Short(4)),
        (Flat(NODES - 1, ""), Exact),
        (Flat(NODES, ""), Exact),
        (Flat(NODES, " \r\n<!--c-->\t"), More),
        (Flat(NODES - 1, " x "), Exact),
        (Flat(NODES, "<a/>"), More),
        (Flat(NODES, "<a></a>"), More),
        (Flat(NODES, "<a"), More),
        (Flat(NODES, "<a\n/"), More),
        (Flat(NODES, "<a b=\"\"/>"), More),
        (Flat(NODES, "<a></b>"), More),
        (Flat(NODES, " <!---->x"), More),
        (Flat(NODES, " \x01x"), More),
        (Flat(NODES, "]]>"), More),
        (Flat(NODES, "&nbsp;"), More),
        (Flat(NODES, "</"), More),
        (Flat(NODES - 1, "]]>"), More),
        (Flat(NODES - 1, "&nbsp;"), More),
        (Flat(NODES - 1, "<a/></b>"), More),
        (Flat(NODES - 1, "<a/></b><a/>"), More),
        (Mixed(NODES, ""), Exact),
        (Mixed(NODES, "x"), More),
        (Mixed(NODES - 1, "<!--c-->"), More),
        (Flat(NODES, ""), Short(0)),
        (Flat(NODES, ""), Short(1)),
        (Flat(NODES, ""), Short(2)),
        (Flat(NODES, ""), Short(3)),
        (Flat(NODES, ""), Short(4)),
        (Chains(64, 60_000), Exact),
        (Chains(30, 20_000), More),
        (LastChain(64), Exact),
        (LastChain(65), Exact),
        (Nested(1_000_000), Exact),
        (Notes(BYTES, ""), Exact),
        (Notes(BYTES + 1, ""), More),
        (Notes(BYTES, "\x01"), More),
        (Notes(4_000_000, "<x"), More),
        (Notes(4_000_000, " <!--c-->\n"), Exact),
        (NotesCut(BYTES, 1), More),
        (NotesCut(4_000_000, 3), More),
        (LongName(BYTES, true), Exact),
        (LongName(1_000_000, true), Exact),
        (LongName(1_000_000, false), More),
        (Fillers(BYTES), Exact),
        (Fillers(1_000_000), More),
        (Names(3, 65_000, false), Exact),
        (Names(2, 65_000, false), Exact),
        (Names(1, 32_000, true), Exact),
        (Names(0, 3_000, false), Exact),
        (Names(6, 65_535, false), More),
        (LongNames(200, 60_000), Exact),
    ]
}

/// The number of large calls.
pub fn how_many() -> usize {
    rows().len()
}

/// A text of exactly so many bytes: what stands before, a filling, what stands
/// behind.
pub fn filled(pen: &mut Pen, bytes: usize, behind: &[u8], fill: impl Fn(&mut Pen)) {
    let goal = bytes - behind.len();
    let mut good = pen.text.len();
    while pen.text.len() <= goal {
        good = pen.text.len();
        fill(pen);
    }
    pen.text.truncate(good);
    while pen.text.len() < goal {
        pen.word(b" ");
    }
    pen.word(behind);
}

fn notes(pen: &mut Pen, bytes: usize, behind: &str) {
    pen.word(b"<notes>");
    let end = [b"</notes>", behind.as_bytes()].concat();
    filled(pen, bytes, &end, |pen| {
        pen.word(b"\n<note>");
        for _ in 0..pen.rng.range(20, 60) {
            let word = pen.rng.pick(&[
                "the 02:30 runs twice when clocks go back;",
                " reserved seats &amp; couchettes only,",
                " no bicycles (see board)",
                "\n          ",
                " <!-- since the last timetable -->",
                " > ]] >",
            ]);
            pen.word(word.as_bytes());
        }
        pen.word(b"</note>");
    });
}

/// Writes a text of a kind.
pub fn write(pen: &mut Pen, kind: Kind) {
    match kind {
        Trains(nodes) => {
            pen.word(b"<schedules>");
            let mut have = 1;
            loop {
                let from = pen.text.len();
                schedule(pen, 1, true);
                let more = reading::nodes(&pen.text[from..]).unwrap();
                if have + more > nodes {
                    pen.text.truncate(from);
                    break;
                }
                have += more;
            }
            for _ in have..nodes {
                pen.word(b"<border/>");
            }
            pen.word(b"</schedules>");
        }
        Flat(nodes, more) => {
            pen.word(b"<root>");
            for _ in 1..nodes {
                pen.word(b"<a/>");
            }
            pen.word(more.as_bytes());
            pen.word(b"</root>");
        }
        Mixed(nodes, more) => {
            pen.word(b"<root>");
            for number in 1..nodes {
                pen.word(if number % 2 == 1 { b"<a/>" } else { b" x&lt;" });
            }
            pen.word(more.as_bytes());
            pen.word(b"</root>");
        }
        Chains(levels, nodes) => {
            pen.word(b"<root>");
            for _ in 0..nodes / levels {
                deep(pen, levels - 1, 1);
            }
            pen.word(b"</root>");
        }
        LastChain(levels) => {
            pen.word(b"<root>");
            for _ in 0..300 {
                deep(pen, 63, 1);
            }
            deep(pen, levels - 1, 1);
            pen.word(b"</root>");
        }
        Nested(levels) => {
            for _ in 0..levels {
                pen.word(b"<a>");
            }
        }
        Notes(bytes, behind) => notes(pen, bytes, behind),
        NotesCut(bytes, short) => {
            notes(pen, bytes + short, "");
            pen.text.truncate(bytes);
        }
        LongName(bytes, same) => {
            let name: Vec<u8> = (0..(bytes - 5) / 2).map(|_| pen.rng.pick(b"abcXYZ_:")).collect();
            pen.start(&name);
            pen.end(&name);
            let last = pen.text.len() - 2;
            if !same {
                pen.text[last] = b'0';
            }
            while pen.text.len() < bytes {
                pen.word(b"\n");
            }
        }
        Fillers(bytes) => {
            pen.word(b"<a>");
            filled(pen, bytes, b"</a>", |pen| match pen.rng.range(0, 3) {
                0 => pen.comment(),
                1 => pen.reference(),
                2 => pen.s(),
                _ => pen.between(3),
            });
        }
        Names(kind, names, twice) => {
            pen.word(b"<root>");
            let again = if twice { names } else { 0 };
            for number in (0..names).chain((0..again).rev()) {
                let name = family(pen.rng, kind, number);
                pen.empty(&name);
            }
            pen.word(b"</root>");
        }
        LongNames(letters, names) => {
            pen.word(b"<root>");
            for number in 0..names {
                let name = [vec![b'n'; letters], family(pen.rng, 3, number)].concat();
                pen.empty(&name);
            }
            pen.word(b"</root>");
        }
    }
}

/// Large call `number` of the seed, with its kind.
pub fn large(seed: u64, number: usize) -> (Reading, Kind) {
    let rng = &mut Rng::new(seed, number as u64);
    let (kind, room) = rows()[number];
    let pen = &mut Pen::new(rng, 0);
    write(pen, kind);
    let text = std::mem::take(&mut pen.text);
    let n = reading::nodes(&text).unwrap_or(NODES);
    (lend(rng, text, n, room), kind)
}
