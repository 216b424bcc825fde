//! Negators, valid occurrences, valid SLCA.
//!
//! 01: "A negator is the closest entity of a text node on some negative word's
//! list. Occurrences of a negative word at non-text nodes have no effect." "A
//! positive occurrence is valid if neither it nor any of its ancestors is a
//! negator." "Valid SLCA: the SLCAs of the positive words under which every
//! positive word has a valid occurrence. SLCAs are found first, on all
//! occurrences."

use crate::both::agreed;
use crate::call::Index;
use crate::class::{classes, closest_entity, Class};
use crate::full::above_some;
use crate::slca::slca;
use crate::tree::{climb, under};

/// Each node held against all negative occurrences.
pub fn negators_literal(index: &Index, classes: &[Class]) -> Vec<bool> {
    let is_negator = |v: usize| {
        index.negative().iter().any(|list| {
            list.iter()
                .map(|&u| u as usize)
                .any(|u| index.tags[u] == 0 && closest_entity(index.parents, classes, u) == v)
        })
    };
    (0..index.n()).map(is_negator).collect()
}

/// Each text node on a negative list marks its closest entity.
pub fn negators_climbing(index: &Index, classes: &[Class]) -> Vec<bool> {
    let mut negator = vec![false; index.n()];
    for list in index.negative() {
        for &u in *list {
            if index.tags[u as usize] == 0 {
                negator[closest_entity(index.parents, classes, u as usize)] = true;
            }
        }
    }
    negator
}

/// For each node whether it is a negator.
pub fn negators(index: &Index) -> Vec<bool> {
    let classes = classes(index.parents, index.tags);
    agreed("negators", index.n(), negators_climbing(index, &classes), || {
        negators_literal(index, &classes)
    })
}

/// Whether an occurrence at u is valid.
pub fn is_valid(index: &Index, negators: &[bool], u: usize) -> bool {
    !climb(index.parents, u).any(|v| negators[v])
}

/// Each SLCA held against each occurrence.
pub fn literal(index: &Index, slcas: &[u32], negators: &[bool]) -> Vec<u32> {
    let has_valid = |v: usize, list: &[u32]| {
        list.iter()
            .map(|&u| u as usize)
            .any(|u| under(index.parents, v, u) && is_valid(index, negators, u))
    };
    slcas
        .iter()
        .copied()
        .filter(|&v| index.positive().iter().all(|list| has_valid(v as usize, list)))
        .collect()
}

/// The same, each valid occurrence marking all nodes above it.
pub fn climbing(index: &Index, slcas: &[u32], negators: &[bool]) -> Vec<u32> {
    let mut listed = slcas.to_vec();
    for list in index.positive() {
        let valid: Vec<u32> = list
            .iter()
            .copied()
            .filter(|&u| is_valid(index, negators, u as usize))
            .collect();
        let above_valid = above_some(index.parents, &valid);
        listed.retain(|&v| above_valid[v as usize]);
    }
    listed
}

pub fn valid(index: &Index) -> Vec<u32> {
    let slcas = slca(index);
    let negators = negators(index);
    agreed(
        "valid slca",
        index.n(),
        climbing(index, &slcas, &negators),
        || literal(index, &slcas, &negators),
    )
}
