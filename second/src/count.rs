//! COUNT.
//!
//! 01: "Entry j·n + v is the number of entries of word j's list that are v or
//! a descendant of v." The place is the lowest entry that is not this number.

use crate::both::agreed;
use crate::tree::{climb, under};

/// Each entry counted for itself.
pub fn literal(parents: &[u32], words: &[&[u32]]) -> Vec<u32> {
    let n = parents.len();
    let mut counts = Vec::new();
    for list in words {
        for v in 0..n {
            let entries = list.iter().filter(|&&u| under(parents, v, u as usize));
            counts.push(entries.count() as u32);
        }
    }
    counts
}

/// Each occurrence adds 1 at itself and at all its ancestors.
pub fn climbing(parents: &[u32], words: &[&[u32]]) -> Vec<u32> {
    let n = parents.len();
    let mut counts = vec![0; words.len() * n];
    for (j, list) in words.iter().enumerate() {
        for &u in *list {
            for v in climb(parents, u as usize) {
                counts[j * n + v] += 1;
            }
        }
    }
    counts
}

/// The true counts.
pub fn counts(parents: &[u32], words: &[&[u32]]) -> Vec<u32> {
    agreed("counts", parents.len(), climbing(parents, words), || {
        literal(parents, words)
    })
}

/// The lowest entry that is not the true number.
pub fn count_fault(parents: &[u32], words: &[&[u32]], lent: &[u32]) -> Option<usize> {
    let right = counts(parents, words);
    (0..right.len()).find(|&entry| lent[entry] != right[entry])
}
