//! The reply, the reason and the final work, for every input.
//!
//! "Refusals: 10 NODE if the node is n or more, after COUNT, place 0." Those
//! before it are the index check's, as for ELCA. 01: "Where a later refusal names
//! no place or m, they are 0." Acceptance lists nothing, so its m is 0 too.

use super::call::{Explanation, Reasoned, Reasoning};
use super::why::why;
use crate::call::{Call, Reply, ACCEPTED, NODE};
use crate::check::{check, refused};
use crate::judge::work_after;

/// The reason, or the reply that refuses it.
fn explain(call: &Call, node: u32) -> Result<Explanation, Reply> {
    let index = check(call)?;
    let v = node as usize;
    if v >= index.n() {
        return Err(refused(NODE, 0));
    }
    Ok(Explanation::of(&why(&index, v)))
}

pub fn judge(call: &Reasoning) -> Reasoned {
    let elca = call.elca();
    let accepted = Reply {
        refusal: ACCEPTED,
        place: 0,
        total: 0,
    };
    let (reply, explanation) = match explain(&elca, call.node) {
        Ok(explanation) => (accepted, explanation),
        Err(refusal) => (refusal, Explanation::NONE),
    };
    Reasoned {
        reply,
        explanation,
        work: work_after(&elca, reply.refusal),
    }
}
