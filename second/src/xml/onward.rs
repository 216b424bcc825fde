//! A search for a way on: which texts begin as this one does?
//!
//! The productions stand here as a table. What is still to come is a row of
//! symbols; all rows that the bytes so far leave open are kept at once, each
//! alternative being taken. Where no row is left, no text of the profile begins
//! so. Where one is left, `finish` writes a text that does.

use super::chars::{is_char_not_dash, is_data, is_name_char, is_name_start, is_white, REFERENCES};
use std::collections::BTreeSet;

#[derive(Clone, Copy, PartialEq, Eq, PartialOrd, Ord, Debug)]
enum Production {
    Document,
    Prolog,
    Misc,
    S,
    White,
    NameStartChar,
    NameChar,
    Name,
    Comment,
    CharNotDash,
    CommentPart,
    Element,
    EmptyElemTag,
    Content,
    ContentPart,
    CharData,
    Reference,
}

#[derive(Clone, PartialEq, Eq, PartialOrd, Ord, Debug)]
enum Symbol {
    Byte(u8),
    Once(Production),
    /// production?
    Maybe(Production),
    /// production*
    Many(Production),
    /// CharData, so far.
    Data(Vec<u8>),
    /// The name of a start tag, so far. Where it ends, the rest of the element
    /// follows, whose end tag has this name.
    StartName(Vec<u8>),
}

use Production::*;
use Symbol::*;

/// What is to come, the next symbol last.
type Row = Vec<Symbol>;

fn word(bytes: &[u8]) -> Vec<Symbol> {
    bytes.iter().map(|&byte| Byte(byte)).collect()
}

/// The bytes of a production that is a class of them.
fn class(production: Production) -> Option<fn(u8) -> bool> {
    match production {
        White => Some(is_white),
        NameStartChar => Some(is_name_start),
        NameChar => Some(is_name_char),
        CharNotDash => Some(is_char_not_dash),
        _ => None,
    }
}

/// The alternatives of the other productions. The first of each can be brought
/// to an end without coming back to it.
fn alternatives(production: Production) -> Vec<Vec<Symbol>> {
    match production {
        Document => vec![vec![Once(Prolog), Once(Element), Many(Misc)]],
        Prolog => vec![vec![Many(Misc)]],
        Misc => vec![vec![Once(Comment)], vec![Once(S)]],
        S => vec![vec![Once(White), Many(White)]],
        Name => vec![vec![Once(NameStartChar), Many(NameChar)]],
        Comment => vec![[word(b"<!--"), vec![Many(CommentPart)], word(b"-->")].concat()],
        CommentPart => vec![vec![Once(CharNotDash)], vec![Byte(b'-'), Once(CharNotDash)]],
        // Of the second, STag content ETag, all but the `<` follows the name.
        Element => vec![vec![Once(EmptyElemTag)], vec![Byte(b'<'), StartName(vec![])]],
        EmptyElemTag => vec![vec![Byte(b'<'), Once(Name), Maybe(S), Byte(b'/'), Byte(b'>')]],
        Content => vec![vec![Maybe(CharData), Many(ContentPart)]],
        ContentPart => [Element, Reference, Comment]
            .into_iter()
            .map(|part| vec![Once(part), Maybe(CharData)])
            .collect(),
        CharData => vec![vec![Data(vec![])]],
        Reference => REFERENCES.iter().map(|reference| word(reference)).collect(),
        White | NameStartChar | NameChar | CharNotDash => unreachable!("a class of bytes"),
    }
}

/// What follows the name of a start tag: S? '>' content '</' Name S? '>'.
fn after_name(name: &[u8]) -> Vec<Symbol> {
    [
        vec![Maybe(S), Byte(b'>'), Once(Content)],
        word(b"</"),
        word(name),
        vec![Maybe(S), Byte(b'>')],
    ]
    .concat()
}

fn is_name(bytes: &[u8]) -> bool {
    match bytes {
        [first, rest @ ..] => is_name_start(*first) && rest.iter().all(|&byte| is_name_char(byte)),
        [] => false,
    }
}

/// "[^<&]* - ([^<&]* ']]>' [^<&]*)"
fn is_char_data(bytes: &[u8]) -> bool {
    bytes.iter().all(|&byte| is_data(byte)) && !bytes.windows(3).any(|three| three == b"]]>")
}

fn with(row: &[Symbol], next: &[Symbol]) -> Row {
    row.iter().chain(next.iter().rev()).cloned().collect()
}

/// What a row is where its next symbol has been opened, each way.
fn opened(row: &[Symbol]) -> Vec<Row> {
    let (next, rest) = match row.split_last() {
        None => return vec![],
        Some(parted) => parted,
    };
    match next {
        Once(production) if class(*production).is_none() => alternatives(*production)
            .iter()
            .map(|alternative| with(rest, alternative))
            .collect(),
        Maybe(production) => vec![rest.to_vec(), with(rest, &[Once(*production)])],
        Many(production) => vec![rest.to_vec(), with(rest, &[Once(*production), Many(*production)])],
        Data(_) => vec![rest.to_vec()],
        StartName(name) if is_name(name) => vec![with(rest, &after_name(name))],
        Byte(_) | Once(_) | StartName(_) => vec![],
    }
}

/// What is left of a row after a byte, its next symbol as it stands.
fn taken(row: &[Symbol], byte: u8) -> Option<Row> {
    let (next, rest) = row.split_last()?;
    let longer = |bytes: &[u8]| [bytes, &[byte]].concat();
    match next {
        Byte(wanted) => (*wanted == byte).then(|| rest.to_vec()),
        Once(production) => class(*production)
            .map_or(false, |class| class(byte))
            .then(|| rest.to_vec()),
        Data(held) => is_char_data(&longer(held)).then(|| with(rest, &[Data(longer(held))])),
        StartName(name) => is_name(&longer(name)).then(|| with(rest, &[StartName(longer(name))])),
        Maybe(_) | Many(_) => None,
    }
}

/// All rows, with all that come of opening.
fn all_opened(rows: BTreeSet<Row>) -> BTreeSet<Row> {
    let mut all = rows.clone();
    let mut fresh: Vec<Row> = rows.into_iter().collect();
    while let Some(row) = fresh.pop() {
        for open in opened(&row) {
            if all.insert(open.clone()) {
                fresh.push(open);
            }
        }
    }
    all
}

/// A short text for a symbol.
fn finish_symbol(symbol: &Symbol) -> Vec<u8> {
    match symbol {
        Byte(byte) => vec![*byte],
        Once(production) => match class(*production) {
            Some(class) => (0..=255).find(|&byte| class(byte)).into_iter().collect(),
            None => alternatives(*production)[0]
                .iter()
                .flat_map(finish_symbol)
                .collect(),
        },
        Maybe(_) | Many(_) | Data(_) => vec![],
        StartName(name) => {
            let more: &[u8] = if name.is_empty() { b"a" } else { b"" };
            let rest = after_name(&[name, more].concat());
            [more.to_vec(), rest.iter().flat_map(finish_symbol).collect()].concat()
        }
    }
}

/// The longest beginning of the text that some text of the profile has.
pub struct Longest {
    pub length: usize,
    /// What makes it a text of the profile.
    pub finish: Vec<u8>,
    /// Whether it is one as it stands.
    pub whole: bool,
}

pub fn longest(text: &[u8]) -> Longest {
    let mut rows = all_opened(BTreeSet::from([vec![Once(Document)]]));
    let mut length = 0;
    for &byte in text {
        let next: BTreeSet<Row> = rows.iter().filter_map(|row| taken(row, byte)).collect();
        if next.is_empty() {
            break;
        }
        rows = all_opened(next);
        length += 1;
    }
    let finish = rows
        .iter()
        .map(|row| row.iter().rev().flat_map(finish_symbol).collect::<Vec<u8>>())
        .min_by_key(Vec::len)
        .unwrap();
    Longest {
        length,
        finish,
        whole: rows.contains(&vec![]),
    }
}
