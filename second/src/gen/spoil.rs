//! Damage to texts. Most of it ends in MARKUP, at a place that is easily taken
//! for the one beside it; some of it leaves a text of the profile.

use super::rng::Rng;
use crate::xml::chars::is_data;
use std::ops::Range;

#[derive(Clone, Copy, PartialEq, Eq, PartialOrd, Ord, Debug)]
pub enum Spoil {
    /// Another byte value at some place.
    Byte,
    /// A byte that is no Char.
    NoChar,
    Cut,
    Deleted,
    Doubled,
    Inserted,
    /// Another text behind it.
    Joined,
    /// Another text somewhere within.
    Nested,
    /// Two tags in each other's place.
    TagsSwapped,
    TagDropped,
    TagDoubled,
    /// An end tag with another name: longer, shorter, in capitals, or another.
    EndName,
    /// An end tag too many, before, behind or within.
    EndTooMany,
    /// White space where none may stand in a tag.
    WhiteInTag,
    Attribute,
    /// A name that begins with a byte that may only go on.
    NameStart,
    /// `]]>`, `--`, `<!-->` and their like, somewhere.
    Piece,
    /// `]]>` in data.
    Brackets,
    /// Within a comment.
    InComment,
    /// A reference that is none of the five.
    Reference,
    /// CDATA, a processing instruction, DOCTYPE, the XML declaration, a mark.
    LeftOut,
    /// Data before or behind the root.
    Outside,
}

impl Spoil {
    pub const ALL: &'static [Spoil] = &[
        Spoil::Byte,
        Spoil::NoChar,
        Spoil::Cut,
        Spoil::Deleted,
        Spoil::Doubled,
        Spoil::Inserted,
        Spoil::Joined,
        Spoil::Nested,
        Spoil::TagsSwapped,
        Spoil::TagDropped,
        Spoil::TagDoubled,
        Spoil::EndName,
        Spoil::EndTooMany,
        Spoil::WhiteInTag,
        Spoil::Attribute,
        Spoil::NameStart,
        Spoil::Piece,
        Spoil::Brackets,
        Spoil::InComment,
        Spoil::Reference,
        Spoil::LeftOut,
        Spoil::Outside,
    ];
}

const PIECES: &[&str] = &[
    "]]>", "]]", "]", "--", "-", "<!-->", "<!--->", "<!---->", "<!----->", "<!--", "-->", "<", ">", "&", "/",
    "</", "/>", "<>", "</>", "<!>", "<!-", "<!", ";", "\"", "<a", "</a", "x", "<x/>",
];

const REFERENCES: &[&str] = &[
    "&#65;", "&#38;", "&#x41;", "&#xA;", "&#", "&nbsp;", "&amp", "&am;", "&ampx;", "&AMP;", "&;", "& ", "&&",
    "&lt", "&lt ;", "&l", "&gt&gt;", "&apo;", "&quote;", "&a;", "&g;", "&q", "&", "&ap;", "&apm;", "&amos;",
    "&",
];

const LEFT_OUT: &[&str] = &[
    "<![CDATA[x]]>",
    "<?pi x?>",
    "<?xml version=\"1.0\"?>",
    "<!DOCTYPE a>",
    "<!ENTITY e \"x\">",
    "<!ELEMENT a ANY>",
    "\u{feff}",
    "\u{e9}",
    "<\u{e9}/>",
    "<![",
    "<!D",
    "<?",
];

/// Where a `<` opens a tag and the next `>` ends it.
fn tags(text: &[u8]) -> Vec<Range<usize>> {
    let mut tags = vec![];
    for (at, pair) in text.windows(2).enumerate() {
        if pair[0] == b'<' && pair[1] != b'!' && pair[1] != b'?' {
            if let Some(length) = text[at..].iter().position(|&byte| byte == b'>') {
                tags.push(at..at + length + 1);
            }
        }
    }
    tags
}

fn end_tags(text: &[u8]) -> Vec<Range<usize>> {
    let mut tags = tags(text);
    tags.retain(|tag| text[tag.start + 1] == b'/');
    tags
}

fn pick_range(rng: &mut Rng, ranges: &[Range<usize>]) -> Option<Range<usize>> {
    (!ranges.is_empty()).then(|| ranges[rng.range(0, ranges.len() - 1)].clone())
}

fn insert(text: &mut Vec<u8>, at: usize, piece: &[u8]) {
    text.splice(at..at, piece.iter().copied());
}

/// A place at which content often goes on: behind a `>`, or anywhere.
fn somewhere(rng: &mut Rng, text: &[u8]) -> usize {
    let behind: Vec<usize> = (0..text.len())
        .filter(|&i| text[i] == b'>')
        .map(|i| i + 1)
        .collect();
    if behind.is_empty() || rng.percent(40) {
        rng.range(0, text.len())
    } else {
        rng.pick(&behind)
    }
}

fn no_char(rng: &mut Rng) -> u8 {
    rng.pick(&[
        0, 1, 8, 0x0B, 0x0C, 0x0E, 0x1F, 0x80, 0x81, 0xA0, 0xBF, 0xC3, 0xE9, 0xEF, 0xFE, 0xFF,
    ])
}

fn end_name(rng: &mut Rng, text: &mut Vec<u8>) -> Option<()> {
    let tag = pick_range(rng, &end_tags(text))?;
    let name = tag.start + 2;
    let length = text[name..tag.end]
        .iter()
        .take_while(|byte| !b" \t\r\n>".contains(byte))
        .count();
    let last = name + length;
    match rng.range(0, 5) {
        0 => {
            let byte = rng.pick(b"ab-.:1");
            text.insert(last, byte)
        }
        1 if length > 0 => drop(text.remove(last - 1)),
        2 if length > 0 => {
            let at = rng.range(name, last - 1);
            text[at] ^= 0x20;
        }
        3 => drop(text.drain(name..last)),
        4 => {
            let other = pick_range(rng, &end_tags(text))?;
            let other = text[other].to_vec();
            text.splice(tag, other);
        }
        _ => {
            let at = rng.range(name, last);
            let byte = rng.pick(b"abz_<");
            text.insert(at, byte);
        }
    }
    Some(())
}

fn white_in_tag(rng: &mut Rng, text: &mut Vec<u8>) -> Option<()> {
    let tag = pick_range(rng, &tags(text))?;
    let mut empty = tags(text);
    empty.retain(|tag| text[..tag.end].ends_with(b"/>"));
    let at = match rng.range(0, 4) {
        0 if !empty.is_empty() => pick_range(rng, &empty)?.end - 1,
        0 => tag.start + 1,
        1 => tag.start + 2,
        2 => tag.end - 1,
        _ => rng.range(tag.start, tag.end),
    };
    let byte = rng.pick(b"  \t\r\n");
    text.insert(at, byte);
    Some(())
}

/// Does the damage; nothing where it does not fit the text.
pub fn spoil(rng: &mut Rng, text: &mut Vec<u8>, other: &[u8], kind: Spoil) -> Option<()> {
    let length = text.len();
    let inside = |rng: &mut Rng| (length > 0).then(|| rng.range(0, length - 1));
    match kind {
        Spoil::Byte => {
            let at = inside(rng)?;
            text[at] = match rng.range(0, 2) {
                0 => rng.range(0, 255) as u8,
                _ => rng.pick(b"<>/&;!-] ?abA.:=\"'\t\x7f"),
            };
        }
        Spoil::NoChar => {
            let at = inside(rng)?;
            let byte = no_char(rng);
            if rng.percent(50) {
                text[at] = byte;
            } else {
                text.insert(at, byte);
            }
        }
        Spoil::Cut => {
            let at = inside(rng)?;
            if rng.percent(70) {
                text.truncate(at);
            } else {
                text.drain(..=at);
            }
        }
        Spoil::Deleted => {
            let at = inside(rng)?;
            text.remove(at);
        }
        Spoil::Doubled => {
            let at = inside(rng)?;
            text.insert(at, text[at]);
        }
        Spoil::Inserted => {
            let at = rng.range(0, length);
            let byte = match rng.range(0, 2) {
                0 => rng.range(0, 255) as u8,
                _ => rng.pick(b"<>/&;!-] ?abA.:=\"'\t\x7f"),
            };
            text.insert(at, byte);
        }
        Spoil::Joined => insert(text, length, other),
        Spoil::Nested => {
            let at = somewhere(rng, text);
            insert(text, at, other);
        }
        Spoil::TagsSwapped => {
            let (a, b) = (pick_range(rng, &tags(text))?, pick_range(rng, &tags(text))?);
            let (a, b) = if a.start < b.start { (a, b) } else { (b, a) };
            if a.end > b.start {
                return None;
            }
            let (first, second) = (text[a.clone()].to_vec(), text[b.clone()].to_vec());
            text.splice(b, first);
            text.splice(a, second);
        }
        Spoil::TagDropped => {
            let tag = pick_range(rng, &tags(text))?;
            text.drain(tag);
        }
        Spoil::TagDoubled => {
            let tag = pick_range(rng, &tags(text))?;
            let again = text[tag.clone()].to_vec();
            insert(text, tag.end, &again);
        }
        Spoil::EndName => end_name(rng, text)?,
        Spoil::EndTooMany => {
            let tag = pick_range(rng, &end_tags(text))?;
            let again = text[tag].to_vec();
            let at = match rng.range(0, 2) {
                0 => 0,
                1 => length,
                _ => somewhere(rng, text),
            };
            insert(text, at, &again);
        }
        Spoil::WhiteInTag => white_in_tag(rng, text)?,
        Spoil::Attribute => {
            let tag = pick_range(rng, &tags(text))?;
            let slash = text[..tag.end - 1].ends_with(b"/");
            let attribute = rng.pick(&[" a=\"1\"", " a", " a=", " a='&lt;'", "=", "=\"1\"", " \"", " a b"]);
            insert(text, tag.end - 1 - usize::from(slash), attribute.as_bytes());
        }
        Spoil::NameStart => {
            let tag = pick_range(rng, &tags(text))?;
            let byte = rng.pick(b"-.0123456789");
            let slash = usize::from(text[tag.start + 1] == b'/');
            text.insert(tag.start + 1 + slash, byte);
        }
        Spoil::Brackets => {
            // Behind a tag or within data, as far as bytes can tell.
            let good =
                |i: &usize| *i > 0 && (text[i - 1] == b'>' || is_data(text[i - 1]) && text[*i] == b'<');
            let places: Vec<usize> = (0..length).filter(good).collect();
            if places.is_empty() {
                return None;
            }
            let at = rng.pick(&places);
            let piece = rng.pick(&["]]>", "]]>", "]]]>", "]]]]>", "x]]> ", " ]]>y", "]>", "]]"]);
            insert(text, at, piece.as_bytes());
        }
        Spoil::Piece => {
            let at = somewhere(rng, text);
            let piece = rng.pick(PIECES);
            insert(text, at, piece.as_bytes());
        }
        Spoil::InComment => {
            let starts: Vec<usize> = (0..length).filter(|&i| text[i..].starts_with(b"<!--")).collect();
            let start = if starts.is_empty() {
                let at = somewhere(rng, text);
                insert(text, at, b"<!--c-->");
                at
            } else {
                rng.pick(&starts)
            };
            let long = text[start..].windows(3).position(|three| three == b"-->")?;
            let at = rng.range(start + 2, start + long.max(4) + 2).min(text.len());
            let piece = rng.pick(&[
                "--", "-", "--", ">", "->", "-->", "<!--", "--x", "---", "\x01", "x",
            ]);
            insert(text, at, piece.as_bytes());
        }
        Spoil::Reference => {
            let piece = rng.pick(REFERENCES);
            let ands: Vec<usize> = (0..length).filter(|&i| text[i] == b'&').collect();
            if !ands.is_empty() && rng.percent(40) {
                let at = rng.pick(&ands);
                text.splice(at..at + 1, piece.bytes());
            } else {
                let at = somewhere(rng, text);
                insert(text, at, piece.as_bytes());
            }
        }
        Spoil::LeftOut => {
            let piece = rng.pick(LEFT_OUT);
            let at = if rng.percent(40) { 0 } else { somewhere(rng, text) };
            insert(text, at, piece.as_bytes());
        }
        Spoil::Outside => {
            let piece = rng.pick(&["x", " x", "&lt;", "]", "<!--c-->x", ">", "\x01", "\x7f"]);
            let at = if rng.percent(50) { 0 } else { length };
            insert(text, at, piece.as_bytes());
        }
    }
    Some(())
}
