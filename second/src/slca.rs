//! SLCA.
//!
//! 01: "SLCA: the full nodes with no full proper descendant." Only positive
//! words count.

use crate::both::agreed;
use crate::call::Index;
use crate::full::full;
use crate::tree::{climb, under};

/// Each node held against all others.
pub fn literal(index: &Index, full: &[bool]) -> Vec<u32> {
    let n = index.n();
    (0..n)
        .filter(|&v| full[v] && !(0..n).any(|w| w != v && under(index.parents, v, w) && full[w]))
        .map(|v| v as u32)
        .collect()
}

/// Each full node strikes out its proper ancestors.
pub fn climbing(index: &Index, full: &[bool]) -> Vec<u32> {
    let mut struck = vec![false; index.n()];
    for w in (0..index.n()).filter(|&w| full[w]) {
        for v in climb(index.parents, w).skip(1) {
            struck[v] = true;
        }
    }
    (0..index.n())
        .filter(|&v| full[v] && !struck[v])
        .map(|v| v as u32)
        .collect()
}

pub fn slca(index: &Index) -> Vec<u32> {
    let full = full(index);
    agreed("slca", index.n(), climbing(index, &full), || {
        literal(index, &full)
    })
}
