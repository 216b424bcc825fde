//! What a caller lends for building, and what comes back.

use crate::call::Reply;

/// One call with everything lent to it. Text and slices may have any length, and
/// the words' ends may be any numbers of 32 bits.
#[derive(Clone, PartialEq, Eq, Debug)]
pub struct Building {
    pub text: Vec<u8>,
    /// The query's words one after the other: word j is the bytes from the
    /// previous end, 0 for the first, up to its own end.
    pub words: Vec<u8>,
    pub word_ends: Vec<u32>,
    /// The table: 0 marks a free slot, and otherwise a slot holds the place of a
    /// word's first letter or digit, and 1 more.
    pub slots: Vec<u32>,
    pub parents: Vec<u32>,
    pub tags: Vec<u32>,
    pub firsts: Vec<u32>,
    pub lasts: Vec<u32>,
    pub ends: Vec<u32>,
    pub occurrences: Vec<u32>,
    pub counts: Vec<u32>,
    pub work: Vec<u32>,
}

impl Building {
    /// The number of the query's words.
    pub fn k(&self) -> usize {
        self.word_ends.len()
    }

    /// A reply with everything as lent.
    pub fn untouched(&self, refusal: u32, place: u32, total: u32) -> Built {
        Built {
            reply: Reply {
                refusal,
                place,
                total,
            },
            slots: self.slots.clone(),
            parents: self.parents.clone(),
            tags: self.tags.clone(),
            firsts: self.firsts.clone(),
            lasts: self.lasts.clone(),
            ends: self.ends.clone(),
            occurrences: self.occurrences.clone(),
            counts: self.counts.clone(),
            work: self.work.clone(),
        }
    }
}

/// The reply, and the final content of the slices that may be written.
#[derive(Clone, PartialEq, Eq, Debug)]
pub struct Built {
    pub reply: Reply,
    pub slots: Vec<u32>,
    pub parents: Vec<u32>,
    pub tags: Vec<u32>,
    pub firsts: Vec<u32>,
    pub lasts: Vec<u32>,
    pub ends: Vec<u32>,
    pub occurrences: Vec<u32>,
    pub counts: Vec<u32>,
    pub work: Vec<u32>,
}

/// How many slices may be written besides the table.
pub const ROWS: usize = 8;

/// Their names, in the order of the call.
pub const ROW_NAMES: [&str; ROWS] = [
    "parents",
    "tags",
    "firsts",
    "lasts",
    "ends",
    "occurrences",
    "counts",
    "work",
];

impl Built {
    /// The slices that may be written besides the table, in the order of the call.
    pub fn rows(&mut self) -> [&mut Vec<u32>; ROWS] {
        [
            &mut self.parents,
            &mut self.tags,
            &mut self.firsts,
            &mut self.lasts,
            &mut self.ends,
            &mut self.occurrences,
            &mut self.counts,
            &mut self.work,
        ]
    }
}
