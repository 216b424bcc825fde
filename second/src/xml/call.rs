//! What a caller lends for reading, and what comes back.

use crate::call::Reply;

/// One call of the reader. Text and buffers may have any length.
#[derive(Clone, PartialEq, Eq, Debug)]
pub struct Reading {
    pub text: Vec<u8>,
    pub parents: Vec<u32>,
    pub tags: Vec<u32>,
    pub firsts: Vec<u32>,
    pub lasts: Vec<u32>,
    pub work: Vec<u32>,
}

/// The reply, and the final content of the buffers.
#[derive(Clone, PartialEq, Eq, Debug)]
pub struct Read {
    pub reply: Reply,
    pub parents: Vec<u32>,
    pub tags: Vec<u32>,
    pub firsts: Vec<u32>,
    pub lasts: Vec<u32>,
    pub work: Vec<u32>,
}

impl Reading {
    /// A refusal, with every buffer as lent.
    pub fn refused(&self, refusal: u32, place: u32, total: u32) -> Read {
        Read {
            reply: Reply {
                refusal,
                place,
                total,
            },
            parents: self.parents.clone(),
            tags: self.tags.clone(),
            firsts: self.firsts.clone(),
            lasts: self.lasts.clone(),
            work: self.work.clone(),
        }
    }
}
