//! The reason of a node.
//!
//! Q-4: "not full, with the first word missing under it; full but not listed,
//! with the first word whose own count is 0; or listed, with the lowest-numbered
//! own occurrence for each word." An own occurrence of a full node v is one that
//! its own count counts, which 01 has as "the occurrences under v that are under
//! no full proper descendant of v".

use super::call::Reason;
use crate::both::agreed;
use crate::call::Index;
use crate::elca::{elca, own_counts};
use crate::full::full;
use crate::tree::{climb, under};

/// Each word asked for itself, with every node that may be full.
pub fn literal(index: &Index, v: usize) -> Reason {
    let words = index.positive();
    let occurs_under = |w: usize, list: &[u32]| list.iter().any(|&u| under(index.parents, w, u as usize));
    if let Some(word) = words.iter().position(|list| !occurs_under(v, list)) {
        return Reason::NotFull { word };
    }
    // "Full proper descendant of v."
    let is_full = |w: usize| words.iter().all(|list| occurs_under(w, list));
    let inner: Vec<usize> = (0..index.n())
        .filter(|&w| w != v && under(index.parents, v, w) && is_full(w))
        .collect();
    let is_own = |&u: &u32| {
        under(index.parents, v, u as usize) && !inner.iter().any(|&w| under(index.parents, w, u as usize))
    };
    let own: Vec<Vec<u32>> = words
        .iter()
        .map(|list| list.iter().copied().filter(is_own).collect())
        .collect();
    match own.iter().position(|own| own.is_empty()) {
        Some(word) => Reason::NotListed { word },
        None => Reason::Listed {
            occurrences: own.iter().map(|own| *own.iter().min().unwrap()).collect(),
        },
    }
}

/// The same: by the own counts of all nodes, and by climbing from occurrences. One
/// of them is v's own where v is the lowest full node at or above it, and the
/// first such one in a list is the lowest.
pub fn climbing(index: &Index, v: usize) -> Reason {
    let words = index.positive();
    let full = full(index);
    if !full[v] {
        let passes = |&u: &u32| climb(index.parents, u as usize).any(|above| above == v);
        let missing = words.iter().position(|list| !list.iter().any(passes));
        let word = missing.expect("under a node that is not full a word is missing");
        return Reason::NotFull { word };
    }
    let own = own_counts(index, &full);
    if let Some(word) = (0..index.p).find(|&j| own[v * index.p + j] == 0) {
        return Reason::NotListed { word };
    }
    let is_own = |&&u: &&u32| climb(index.parents, u as usize).find(|&above| full[above]) == Some(v);
    let lowest = |list: &&[u32]| *list.iter().find(is_own).expect("what is counted is there");
    Reason::Listed {
        occurrences: words.iter().map(lowest).collect(),
    }
}

/// The reason of node v. Panics where the renderings differ, or where it is not
/// the listed nodes that are said to be listed.
pub fn why(index: &Index, v: usize) -> Reason {
    let reason = agreed("reason", index.n(), climbing(index, v), || literal(index, v));
    let said = matches!(reason, Reason::Listed { .. });
    assert!(
        said == elca(index).0.contains(&(v as u32)),
        "node {v}: {reason:?}, against the list"
    );
    reason
}
