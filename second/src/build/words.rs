//! The words of a text: where they are mentioned, and at which nodes.
//!
//! Q-5: "A word is a longest run of ASCII letters and digits in a text node
//! (comments dropped, a reference read as its character) or an element name,
//! letters compared without case." A node's name is that of its first tag: an end
//! tag is no mention. Mentions are in order of their nodes, and within a node as
//! they stand in the text.

use super::query::is_word;
use super::scan::scan;
use crate::both::agreed_up_to;
use crate::xml::chars::{REFERENCES, REFERRED};
use crate::xml::node::Node;

/// A word where it stands.
#[derive(Clone, PartialEq, Eq, Debug)]
pub struct Mention {
    /// The element with the name, or the node of data.
    pub node: usize,
    /// The place of its first letter or digit in the text.
    pub place: usize,
    /// The word in lower case.
    pub word: Vec<u8>,
}

/// A character with the place of its first byte.
type Char = (usize, u8);

/// The characters of data, its comments dropped, a reference as the character
/// that it stands for.
fn data(text: &[u8], node: &Node) -> Vec<Char> {
    let mut row = vec![];
    let mut at = node.first;
    while at <= node.last {
        let rest = &text[at..];
        let reference = REFERENCES
            .iter()
            .position(|reference| rest.starts_with(reference));
        if rest.starts_with(b"<!--") {
            let end = rest[4..].windows(3).position(|three| three == b"-->");
            at += 4 + end.expect("a comment ends") + 3;
        } else if let Some(i) = reference {
            row.push((at, REFERRED[i]));
            at += REFERENCES[i].len();
        } else {
            row.push((at, text[at]));
            at += 1;
        }
    }
    row
}

/// The characters in which a node has its words: of its name, or of its data.
pub fn characters(text: &[u8], node: &Node) -> Vec<Char> {
    match &node.name {
        Some(name) => name.clone().map(|at| (at, text[at])).collect(),
        None => data(text, node),
    }
}

fn bytes(row: &[Char]) -> Vec<u8> {
    row.iter().map(|&(_, byte)| byte).collect()
}

/// Whether the characters from i up to j are a longest run of letters and digits:
/// with one more on either side they are none.
fn is_longest_run(row: &[u8], i: usize, j: usize) -> bool {
    is_word(&row[i..j])
        && (i == 0 || !is_word(&row[i - 1..j]))
        && (j == row.len() || !is_word(&row[i..j + 1]))
}

/// Every part of every node's characters asked for itself.
pub fn literal(text: &[u8], nodes: &[Node]) -> Vec<Mention> {
    let mut mentions = vec![];
    for (node, of) in nodes.iter().enumerate() {
        let row = characters(text, of);
        let row_bytes = bytes(&row);
        for i in 0..row.len() {
            let ends = (i + 1..=row.len()).filter(|&j| is_longest_run(&row_bytes, i, j));
            mentions.extend(ends.map(|j| Mention {
                node,
                place: row[i].0,
                word: row_bytes[i..j].to_ascii_lowercase(),
            }));
        }
    }
    mentions
}

/// Up to this many bytes of text the literal rendering runs too.
pub const LITERAL_UP_TO: usize = 512;

/// All mentions in order, of a text of the profile with these nodes.
pub fn mentions(text: &[u8], nodes: &[Node]) -> Vec<Mention> {
    agreed_up_to(LITERAL_UP_TO, "words", text.len(), scan(text), || {
        literal(text, nodes)
    })
}
