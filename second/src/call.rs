//! What a caller lends and what a reply holds.
//!
//! 01, "The lent index": parents, tags, words, occurrences with ends, counts,
//! work, out, own. 01, "Replies": "A reply holds a refusal number, a place and
//! a total m."

#[derive(Clone, Copy, PartialEq, Eq, Debug)]
pub enum Search {
    /// The index check alone.
    Check,
    Elca,
    Slca,
    Valid,
}

impl Search {
    pub const ALL: [Search; 4] = [Search::Check, Search::Elca, Search::Slca, Search::Valid];

    pub fn name(self) -> &'static str {
        match self {
            Search::Check => "check",
            Search::Elca => "elca",
            Search::Slca => "slca",
            Search::Valid => "valid",
        }
    }
}

/// "p from 1 to 8; k at most 8": the most words there may be.
pub const WORDS: usize = 8;

/// One call with everything lent to it. Every slice may have any length, and
/// p and q may be any number of 32 bits.
#[derive(Clone, PartialEq, Eq, Debug)]
pub struct Call {
    pub search: Search,
    pub p: u32,
    pub q: u32,
    pub parents: Vec<u32>,
    pub tags: Vec<u32>,
    pub ends: Vec<u32>,
    pub occurrences: Vec<u32>,
    pub counts: Vec<u32>,
    pub work: Vec<u32>,
    pub out: Vec<u32>,
    pub own: Vec<u32>,
}

impl Call {
    /// The number of nodes: the length of parents.
    pub fn n(&self) -> usize {
        self.parents.len()
    }

    /// "k = p + q": the true sum, which may exceed 32 bits.
    pub fn k(&self) -> u64 {
        u64::from(self.p) + u64::from(self.q)
    }
}

pub const ACCEPTED: u32 = 0;
pub const SIZE: u32 = 1;
pub const TREE: u32 = 2;
pub const LIST: u32 = 3;
pub const COUNT: u32 = 4;
pub const ROOM: u32 = 5;
pub const INPUT: u32 = 6;
pub const MARKUP: u32 = 7;
pub const NODE: u32 = 10;

/// The name of a refusal number.
pub fn refusal_name(number: u32) -> &'static str {
    match number {
        ACCEPTED => "accepted",
        SIZE => "SIZE",
        TREE => "TREE",
        LIST => "LIST",
        COUNT => "COUNT",
        ROOM => "ROOM",
        INPUT => "INPUT",
        MARKUP => "MARKUP",
        NODE => "NODE",
        _ => unreachable!("no call gives refusal {number}"),
    }
}

#[derive(Clone, Copy, PartialEq, Eq, Debug)]
pub struct Reply {
    pub refusal: u32,
    pub place: u32,
    /// The m of 01.
    pub total: u32,
}

/// The reply, and the final content of the three written slices.
#[derive(Clone, PartialEq, Eq, Debug)]
pub struct After {
    pub reply: Reply,
    pub work: Vec<u32>,
    pub out: Vec<u32>,
    pub own: Vec<u32>,
}

/// An index that passed the check, its words parted into lists.
pub struct Index<'a> {
    pub parents: &'a [u32],
    pub tags: &'a [u32],
    /// The k lists, positive words first.
    pub words: Vec<&'a [u32]>,
    pub p: usize,
}

impl<'a> Index<'a> {
    pub fn n(&self) -> usize {
        self.parents.len()
    }

    pub fn positive(&self) -> &[&'a [u32]] {
        &self.words[..self.p]
    }

    pub fn negative(&self) -> &[&'a [u32]] {
        &self.words[self.p..]
    }
}
