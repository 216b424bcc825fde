//! The reply and the final buffers, for every input.
//!
//! 01: "SIZE touches nothing. Under every other reply the first (k + 2)·n
//! entries of work are 0 and the rest is untouched. Any refusal keeps out and
//! own as lent. Acceptance writes the first m entries of out, and for ELCA the
//! first m·p of own; later entries stay." ROOM: "out is shorter than the
//! answer, or own is shorter than p times the answer", its m "answers needed".

use crate::call::{After, Call, Index, Reply, Search, ACCEPTED, ROOM, SIZE};
use crate::check::check;
use crate::elca::elca;
use crate::slca::slca;
use crate::valid::valid;

/// The listed nodes and, for ELCA only, their own counts. The check alone
/// lists nothing.
pub fn answer(search: Search, index: &Index) -> (Vec<u32>, Vec<u32>) {
    match search {
        Search::Check => (vec![], vec![]),
        Search::Elca => elca(index),
        Search::Slca => (slca(index), vec![]),
        Search::Valid => (valid(index), vec![]),
    }
}

/// Writes an answer where it fits, and replies.
pub fn list((nodes, counts): (Vec<u32>, Vec<u32>), out: &mut [u32], own: &mut [u32]) -> Reply {
    let fits = nodes.len() <= out.len() && counts.len() <= own.len();
    if fits {
        out[..nodes.len()].copy_from_slice(&nodes);
        own[..counts.len()].copy_from_slice(&counts);
    }
    Reply {
        refusal: if fits { ACCEPTED } else { ROOM },
        place: 0,
        total: nodes.len() as u32,
    }
}

/// What a refusal, or acceptance, leaves in work.
pub fn work_after(call: &Call, refusal: u32) -> Vec<u32> {
    let mut work = call.work.clone();
    if refusal != SIZE {
        // Past SIZE these numbers are small and work is long enough.
        let used = (call.k() as usize + 2) * call.n();
        work[..used].fill(0);
    }
    work
}

pub fn judge(call: &Call) -> After {
    let mut out = call.out.clone();
    let mut own = call.own.clone();
    let reply = match check(call) {
        Err(refusal) => refusal,
        Ok(index) => list(answer(call.search, &index), &mut out, &mut own),
    };
    After {
        reply,
        work: work_after(call, reply.refusal),
        out,
        own,
    }
}
