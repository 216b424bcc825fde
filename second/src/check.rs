//! The index check.
//!
//! 01: "Where several apply the lowest number is given": SIZE, TREE, LIST,
//! COUNT in this order.

use crate::call::{Call, Index, Reply, COUNT, LIST, SIZE, TREE};
use crate::count::count_fault;
use crate::list::{list_fault, lists};
use crate::size::size_broken;
use crate::tree::tree_fault;

pub fn refused(refusal: u32, place: usize) -> Reply {
    Reply {
        refusal,
        place: place as u32,
        total: 0,
    }
}

/// The index, or the reply that refuses it.
pub fn check(call: &Call) -> Result<Index<'_>, Reply> {
    if size_broken(call) {
        return Err(refused(SIZE, 0));
    }
    if let Some(node) = tree_fault(&call.parents, &call.tags) {
        return Err(refused(TREE, node));
    }
    if let Some(word) = list_fault(call.n(), &call.ends, &call.occurrences) {
        return Err(refused(LIST, word));
    }
    let words = lists(&call.ends, &call.occurrences);
    if let Some(entry) = count_fault(&call.parents, &words, &call.counts) {
        return Err(refused(COUNT, entry));
    }
    Ok(Index {
        parents: &call.parents,
        tags: &call.tags,
        words,
        p: call.p as usize,
    })
}
