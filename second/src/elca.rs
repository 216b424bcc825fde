//! ELCA and own counts.
//!
//! 01: "Own count of a full node v for a word: the occurrences under v that
//! are under no full proper descendant of v." "ELCA: the full nodes whose own
//! count is 1 or more for every word." "Out lists nodes in increasing number.
//! Own holds p own counts per listed node, in word order."

use crate::both::agreed;
use crate::call::Index;
use crate::full::full;
use crate::tree::{climb, under};

/// Entry v·p + j is v's own count for word j; 0 where v is not full.
pub fn own_literal(index: &Index, full: &[bool]) -> Vec<u32> {
    let n = index.n();
    // below[v][u]: u is under v.
    let below: Vec<Vec<bool>> = (0..n)
        .map(|v| (0..n).map(|u| under(index.parents, v, u)).collect())
        .collect();
    let mut own = Vec::new();
    for v in 0..n {
        // "Full proper descendant of v."
        let inner: Vec<usize> = (0..n).filter(|&w| w != v && below[v][w] && full[w]).collect();
        for list in index.positive() {
            let owned = list
                .iter()
                .map(|&u| u as usize)
                .filter(|&u| full[v] && below[v][u] && !inner.iter().any(|&w| below[w][u]));
            own.push(owned.count() as u32);
        }
    }
    own
}

/// The same: each occurrence is credited to the lowest full node at or above
/// it, and to none where no such node exists.
pub fn own_climbing(index: &Index, full: &[bool]) -> Vec<u32> {
    let mut own = vec![0; index.n() * index.p];
    for (j, list) in index.positive().iter().enumerate() {
        for &u in *list {
            if let Some(v) = climb(index.parents, u as usize).find(|&v| full[v]) {
                own[v * index.p + j] += 1;
            }
        }
    }
    own
}

/// The own counts of all nodes.
pub fn own_counts(index: &Index, full: &[bool]) -> Vec<u32> {
    agreed("own counts", index.n(), own_climbing(index, full), || {
        own_literal(index, full)
    })
}

/// The listed nodes, and p own counts for each.
pub fn elca(index: &Index) -> (Vec<u32>, Vec<u32>) {
    let full = full(index);
    let own_of_all = own_counts(index, &full);
    let mut nodes = Vec::new();
    let mut own = Vec::new();
    for v in 0..index.n() {
        let own_of_v = &own_of_all[v * index.p..(v + 1) * index.p];
        if full[v] && own_of_v.iter().all(|&count| count >= 1) {
            nodes.push(v as u32);
            own.extend_from_slice(own_of_v);
        }
    }
    (nodes, own)
}
