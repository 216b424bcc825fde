//! The reply and the final buffers, for every input.
//!
//! Q-5: "Refusals: SIZE [...], then Q-2's MARKUP and TREE, nothing touched; ROOM
//! exactly when the distinct words outnumber the slots, or the tree, lists or
//! counts don't fit; the table is then zero and all else unchanged." 01: "Where a
//! later refusal names no place or m, they are 0", so of ROOM both are 0. The
//! tree is the reader's, and work as there: three entries a node, which an
//! accepted call leaves as 0.

use super::call::{Building, Built, ROWS};
use super::lists::{ends, lists};
use super::query::{query, size_broken};
use super::table::table;
use super::words::mentions;
use crate::call::{ACCEPTED, MARKUP, ROOM, SIZE, TREE};
use crate::count::counts;
use crate::xml::judge::columns;
use crate::xml::node::{Node, Outcome};
use crate::xml::read::read;

/// What is built of a text and a query.
pub struct Index {
    /// The table, or none where the words outnumber the slots.
    pub table: Option<Vec<u32>>,
    /// What the other slices begin with, in the order of the call.
    pub rows: [Vec<u32>; ROWS],
}

/// The index of a text of the profile with these nodes, for a call without SIZE.
pub fn index(call: &Building, nodes: &[Node]) -> Index {
    let n = nodes.len();
    let mentions = mentions(&call.text, nodes);
    let lists = lists(n, &mentions, &query(call));
    let words: Vec<&[u32]> = lists.iter().map(Vec::as_slice).collect();
    let [parents, tags, firsts, lasts] = columns(&call.text, nodes);
    let counts = counts(&parents, &words);
    Index {
        table: table(call.slots.len(), &mentions),
        rows: [
            parents,
            tags,
            firsts,
            lasts,
            ends(&lists),
            lists.concat(),
            counts,
            vec![0; 3 * n],
        ],
    }
}

pub fn judge(call: &Building) -> Built {
    if size_broken(call) {
        return call.untouched(SIZE, 0, 0);
    }
    let nodes = match read(&call.text) {
        Outcome::Markup(place) => return call.untouched(MARKUP, place as u32, 0),
        Outcome::Beyond(number) => return call.untouched(TREE, number as u32, 0),
        Outcome::Whole(nodes) => nodes,
    };
    let index = index(call, &nodes);
    let mut after = call.untouched(ROOM, 0, 0);
    after.slots.fill(0);
    let short = |(lent, row): (&mut Vec<u32>, &Vec<u32>)| lent.len() < row.len();
    let table = match index.table {
        Some(table) if !after.rows().into_iter().zip(&index.rows).any(short) => table,
        _ => return after,
    };
    after.reply.refusal = ACCEPTED;
    after.reply.total = nodes.len() as u32;
    after.slots = table;
    for (lent, row) in after.rows().into_iter().zip(&index.rows) {
        lent[..row.len()].copy_from_slice(row);
    }
    after
}
