//! Full nodes.
//!
//! 01: "A node is full if every positive word has an occurrence under it."

use crate::both::agreed;
use crate::call::Index;
use crate::tree::{climb, under};

/// For each node whether it is full, looked up word by word.
pub fn literal(index: &Index) -> Vec<bool> {
    let has = |v: usize, list: &[u32]| list.iter().any(|&u| under(index.parents, v, u as usize));
    (0..index.n())
        .map(|v| index.positive().iter().all(|list| has(v, list)))
        .collect()
}

/// For each node whether some node of the list is under it.
pub fn above_some(parents: &[u32], list: &[u32]) -> Vec<bool> {
    let mut above = vec![false; parents.len()];
    for &u in list {
        for v in climb(parents, u as usize) {
            above[v] = true;
        }
    }
    above
}

/// The same, each word marking all nodes above its occurrences.
pub fn climbing(index: &Index) -> Vec<bool> {
    let mut full = vec![true; index.n()];
    for list in index.positive() {
        let above = above_some(index.parents, list);
        for v in 0..index.n() {
            full[v] &= above[v];
        }
    }
    full
}

pub fn full(index: &Index) -> Vec<bool> {
    agreed("full", index.n(), climbing(index), || literal(index))
}
