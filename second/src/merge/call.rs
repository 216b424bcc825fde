//! What a caller lends to the searches without counts, and what comes back.
//!
//! Q-3: "a stack of at most 64 entries lent by the caller, each entry a node
//! with its own and covered counts."

use crate::call::{Reply, Search, WORDS};

#[derive(Clone, Copy, PartialEq, Eq, Debug)]
pub enum Merge {
    Elca,
    Slca,
}

impl Merge {
    pub const ALL: [Merge; 2] = [Merge::Elca, Merge::Slca];

    pub fn name(self) -> &'static str {
        match self {
            Merge::Elca => "merge_elca",
            Merge::Slca => "merge_slca",
        }
    }

    /// The search that has the same answers.
    pub fn search(self) -> Search {
        match self {
            Merge::Elca => Search::Elca,
            Merge::Slca => Search::Slca,
        }
    }
}

/// The numbers of an entry: its node, and two counts for each word there may be.
pub const NUMBERS: usize = 1 + 2 * WORDS;

/// An entry of the stack.
#[derive(Clone, Copy, PartialEq, Eq, Debug)]
pub struct Entry {
    pub node: u32,
    pub own: [u32; WORDS],
    pub covered: [u32; WORDS],
}

impl Entry {
    pub const ZERO: Entry = Entry {
        node: 0,
        own: [0; WORDS],
        covered: [0; WORDS],
    };

    /// The node, then the own counts, then the covered ones.
    pub fn numbers(&self) -> [u32; NUMBERS] {
        let mut numbers = [self.node; NUMBERS];
        numbers[1..=WORDS].copy_from_slice(&self.own);
        numbers[1 + WORDS..].copy_from_slice(&self.covered);
        numbers
    }

    pub fn of(numbers: &[u32; NUMBERS]) -> Entry {
        let mut entry = Entry::ZERO;
        entry.node = numbers[0];
        entry.own.copy_from_slice(&numbers[1..=WORDS]);
        entry.covered.copy_from_slice(&numbers[1 + WORDS..]);
        entry
    }
}

/// One call with everything lent to it. Every slice may have any length, and
/// p and q may be any number of 32 bits.
#[derive(Clone, PartialEq, Eq, Debug)]
pub struct Merging {
    pub merge: Merge,
    pub p: u32,
    pub q: u32,
    pub parents: Vec<u32>,
    pub tags: Vec<u32>,
    pub ends: Vec<u32>,
    pub occurrences: Vec<u32>,
    pub stack: Vec<Entry>,
    pub out: Vec<u32>,
    pub own: Vec<u32>,
}

/// The reply, and the final content of the three written slices.
#[derive(Clone, PartialEq, Eq, Debug)]
pub struct Merged {
    pub reply: Reply,
    pub stack: Vec<Entry>,
    pub out: Vec<u32>,
    pub own: Vec<u32>,
}
