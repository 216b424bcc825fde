//! What a caller lends to ask for a node's reason, and what comes back.
//!
//! Q-4: "For a node and the positive words, name to dispatchers the reason under
//! ELCA: not full, with the first word missing under it; full but not listed,
//! with the first word whose own count is 0; or listed, with the lowest-numbered
//! own occurrence for each word."

use crate::call::{Call, Reply, Search, WORDS};

/// One call with everything lent to it: what ELCA takes but out and own, and a
/// node. Every slice may have any length, and p, q and the node may be any
/// number of 32 bits.
#[derive(Clone, PartialEq, Eq, Debug)]
pub struct Reasoning {
    pub p: u32,
    pub q: u32,
    pub node: u32,
    pub parents: Vec<u32>,
    pub tags: Vec<u32>,
    pub ends: Vec<u32>,
    pub occurrences: Vec<u32>,
    pub counts: Vec<u32>,
    pub work: Vec<u32>,
}

impl Reasoning {
    /// The call that asks for a node on what a search was lent.
    pub fn of(call: &Call, node: u32) -> Reasoning {
        Reasoning {
            p: call.p,
            q: call.q,
            node,
            parents: call.parents.clone(),
            tags: call.tags.clone(),
            ends: call.ends.clone(),
            occurrences: call.occurrences.clone(),
            counts: call.counts.clone(),
            work: call.work.clone(),
        }
    }

    /// The call of ELCA on the same index and work, with no room for answers.
    pub fn elca(&self) -> Call {
        Call {
            search: Search::Elca,
            p: self.p,
            q: self.q,
            parents: self.parents.clone(),
            tags: self.tags.clone(),
            ends: self.ends.clone(),
            occurrences: self.occurrences.clone(),
            counts: self.counts.clone(),
            work: self.work.clone(),
            out: vec![],
            own: vec![],
        }
    }
}

/// The reason, with the word or the occurrences that it names. Words are
/// numbered from 0.
#[derive(Clone, PartialEq, Eq, Debug)]
pub enum Reason {
    /// "Not full, with the first word missing under it."
    NotFull { word: usize },
    /// "Full but not listed, with the first word whose own count is 0."
    NotListed { word: usize },
    /// "Listed, with the lowest-numbered own occurrence for each word": p of
    /// them, in word order.
    Listed { occurrences: Vec<u32> },
}

// The numbers of the cases, in the order in which Q-4 names them.
pub const NOT_FULL: u32 = 1;
pub const NOT_LISTED: u32 = 2;
pub const LISTED: u32 = 3;

/// A reason in numbers: its case, the word, and an occurrence for each word that
/// there may be. What a case does not name is 0.
#[derive(Clone, Copy, PartialEq, Eq, Debug)]
pub struct Explanation {
    pub reason: u32,
    pub word: u32,
    pub occurrences: [u32; WORDS],
}

impl Explanation {
    /// What stands under a refusal.
    pub const NONE: Explanation = Explanation {
        reason: 0,
        word: 0,
        occurrences: [0; WORDS],
    };

    pub fn of(reason: &Reason) -> Explanation {
        let mut numbers = Explanation::NONE;
        match reason {
            Reason::NotFull { word } => {
                numbers.reason = NOT_FULL;
                numbers.word = *word as u32;
            }
            Reason::NotListed { word } => {
                numbers.reason = NOT_LISTED;
                numbers.word = *word as u32;
            }
            Reason::Listed { occurrences } => {
                numbers.reason = LISTED;
                numbers.occurrences[..occurrences.len()].copy_from_slice(occurrences);
            }
        }
        numbers
    }
}

/// The name of a reason's number.
pub fn reason_name(number: u32) -> &'static str {
    match number {
        0 => "none",
        NOT_FULL => "not full",
        NOT_LISTED => "not listed",
        LISTED => "listed",
        _ => unreachable!("no reason has number {number}"),
    }
}

/// The reply, the reason, and the final content of work.
#[derive(Clone, PartialEq, Eq, Debug)]
pub struct Reasoned {
    pub reply: Reply,
    pub explanation: Explanation,
    pub work: Vec<u32>,
}
