//! Calls of the reader whose texts are next to small ones: each byte value at
//! each place, each cut, each byte left out or doubled, each two joined. All of
//! them, so that there is nothing to draw.

use super::reading::{lend, nodes, Room};
use super::rng::Rng;
use crate::xml::call::Reading;

/// Together they have every production.
pub const TEXTS: &[&[u8]] = &[
    b"<a/>",
    b"<ab></ab>",
    b" <a >x</a >\t",
    b"<a> x <b/>\r\n</a>",
    b"<!--c--><a><b.1/></a>",
    b"<ab><a>&lt;</a></ab>",
    b"<a>]] <!--->-->]></a>",
    b"<a>&quot;&apos;</a>",
    b"<a><!-- - -->&gt;&amp;</a>",
    b"<a/>\n<!----> ",
];

/// What is put between two bytes.
const BETWEEN: &[u8] = b"<>/&;!-] ?aA.:=\"\t\x00\x7f\x80";

/// The texts next to one.
fn near(text: &[u8]) -> Vec<Vec<u8>> {
    let mut all = vec![text.to_vec()];
    for at in 0..text.len() {
        let (before, behind) = (&text[..at], &text[at + 1..]);
        all.extend((0..=255u8).map(|byte| [before, &[byte], behind].concat()));
        all.extend(
            BETWEEN
                .iter()
                .map(|&byte| [before, &[byte, text[at]], behind].concat()),
        );
        all.push(before.to_vec());
        all.push([before, behind].concat());
        all.push([before, &[text[at]], &text[at..]].concat());
        if at + 1 < text.len() {
            all.push([before, &[text[at + 1], text[at]], &text[at + 2..]].concat());
        }
    }
    all
}

/// Every text, one after the other.
pub fn texts() -> impl Iterator<Item = Vec<u8>> {
    let next = TEXTS.iter().flat_map(|text| near(text));
    let joined = TEXTS
        .iter()
        .flat_map(|a| TEXTS.iter().map(move |b| [*a, *b].concat()));
    next.chain(joined)
}

/// Every call.
pub fn calls() -> impl Iterator<Item = Reading> {
    texts().enumerate().map(|(number, text)| {
        let n = nodes(&text).unwrap_or(3);
        lend(&mut Rng::new(0, number as u64), text, n, Room::Exact)
    })
}
