//! SIZE.
//!
//! 01: "n, p or k out of bounds, q above 0 for ELCA or SLCA, tags not n long,
//! ends not k long, counts not k·n long, or work too short", with "n from 1 to
//! 65,536; p from 1 to 8; k at most 8" and work "at least (k + 2)·n".
//!
//! The lengths of out and own are no matter of SIZE.

use crate::call::{Call, Search};

pub fn size_broken(call: &Call) -> bool {
    // Wide enough that no sum or product of these numbers wraps.
    let long = |slice: &[u32]| slice.len() as u128;
    let n = long(&call.parents);
    let p = u128::from(call.p);
    let q = u128::from(call.q);
    let k = p + q;
    let takes_no_negative = matches!(call.search, Search::Elca | Search::Slca);

    !(1..=65_536).contains(&n)
        || !(1..=8).contains(&p)
        || k > 8
        || (takes_no_negative && q > 0)
        || long(&call.tags) != n
        || long(&call.ends) != k
        || long(&call.counts) != k * n
        || long(&call.work) < (k + 2) * n
}
