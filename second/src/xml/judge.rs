//! The reply of the reader and its final buffers, for every input.
//!
//! Q-2: "Refusals, all leaving what is lent unchanged: SIZE for text above
//! 16,777,216 bytes; then whichever comes first: 7 MARKUP [...] or TREE [...];
//! last ROOM with the nodes needed." Work needs three entries a node, which an
//! accepted call leaves as 0.

use super::call::{Read, Reading};
use super::node::{Node, Outcome};
use super::read::read;
use crate::call::{ACCEPTED, MARKUP, ROOM, SIZE, TREE};
use std::collections::BTreeMap;

/// The longest text.
pub const BYTES: usize = 16_777_216;

/// For each node 0 if it is data, else the number of its name: from 1, in order
/// of first appearance.
pub fn tags(text: &[u8], nodes: &[Node]) -> Vec<u32> {
    let mut numbers = BTreeMap::new();
    nodes
        .iter()
        .map(|node| match &node.name {
            None => 0,
            Some(name) => {
                let fresh = numbers.len() as u32 + 1;
                *numbers.entry(&text[name.clone()]).or_insert(fresh)
            }
        })
        .collect()
}

fn column(nodes: &[Node], of: impl Fn(&Node) -> usize) -> Vec<u32> {
    nodes.iter().map(|node| of(node) as u32).collect()
}

/// Parents, tags, first and last places.
pub fn columns(text: &[u8], nodes: &[Node]) -> [Vec<u32>; 4] {
    [
        column(nodes, |node| node.parent),
        tags(text, nodes),
        column(nodes, |node| node.first),
        column(nodes, |node| node.last),
    ]
}

pub fn judge(call: &Reading) -> Read {
    if call.text.len() > BYTES {
        return call.refused(SIZE, 0, 0);
    }
    let nodes = match read(&call.text) {
        Outcome::Markup(place) => return call.refused(MARKUP, place as u32, 0),
        Outcome::Beyond(number) => return call.refused(TREE, number as u32, 0),
        Outcome::Whole(nodes) => nodes,
    };
    let n = nodes.len();
    let mut after = call.refused(ROOM, 0, n as u32);
    let [parents, tags, firsts, lasts] = columns(&call.text, &nodes);
    let columns = [
        (&mut after.parents, parents),
        (&mut after.tags, tags),
        (&mut after.firsts, firsts),
        (&mut after.lasts, lasts),
        (&mut after.work, vec![0; 3 * n]),
    ];
    if columns.iter().any(|(lent, column)| lent.len() < column.len()) {
        return after;
    }
    after.reply.refusal = ACCEPTED;
    for (lent, column) in columns {
        lent[..column.len()].copy_from_slice(&column);
    }
    after
}
