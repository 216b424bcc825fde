//! The reply of the searches without counts and their final buffers, for every
//! input.
//!
//! Q-3: "Under every reply but SIZE the first 64 entries end as zero." "Refusals:
//! it never gives COUNT; SIZE if the stack has fewer than 64 entries." All else
//! is 01's, without counts and work.

use super::call::{Entry, Merged, Merging};
use crate::call::{Index, Reply, LIST, SIZE, TREE};
use crate::check::refused;
use crate::judge::{answer, list};
use crate::list::{list_fault, lists};
use crate::tree::tree_fault;

/// How many entries the stack must have, and how many end as zero.
pub const STACK: usize = 64;

/// 01's SIZE for ELCA and SLCA, of which the parts about counts and work fall
/// away, or too short a stack.
pub fn size_broken(call: &Merging) -> bool {
    let n = call.parents.len();
    !(1..=65_536).contains(&n)
        || !(1..=8).contains(&call.p)
        || call.q > 0
        || call.tags.len() != n
        || call.ends.len() != call.p as usize
        || call.stack.len() < STACK
}

/// The index, or the reply that refuses it.
fn check(call: &Merging) -> Result<Index<'_>, Reply> {
    if size_broken(call) {
        return Err(refused(SIZE, 0));
    }
    if let Some(node) = tree_fault(&call.parents, &call.tags) {
        return Err(refused(TREE, node));
    }
    if let Some(word) = list_fault(call.parents.len(), &call.ends, &call.occurrences) {
        return Err(refused(LIST, word));
    }
    Ok(Index {
        parents: &call.parents,
        tags: &call.tags,
        words: lists(&call.ends, &call.occurrences),
        p: call.p as usize,
    })
}

pub fn judge(call: &Merging) -> Merged {
    let mut stack = call.stack.clone();
    let mut out = call.out.clone();
    let mut own = call.own.clone();
    let reply = match check(call) {
        Err(refusal) => refusal,
        Ok(index) => list(answer(call.merge.search(), &index), &mut out, &mut own),
    };
    if reply.refusal != SIZE {
        stack[..STACK].fill(Entry::ZERO);
    }
    Merged {
        reply,
        stack,
        out,
        own,
    }
}
