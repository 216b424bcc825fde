//! The nodes of a text, and what may come of one.

use std::ops::Range;

/// A node. Nodes are numbered in document order from 0.
#[derive(Clone, PartialEq, Eq, Debug)]
pub struct Node {
    /// The number of the parent; 0 for the root.
    pub parent: usize,
    /// The root's level is 1.
    pub level: usize,
    /// Where an element's name stands in its first tag; none for data.
    pub name: Option<Range<usize>>,
    /// The first and the last byte: of an element from its `<` to the `>` of
    /// its last tag, of data from the first to the last byte of character data
    /// between two tags.
    pub first: usize,
    pub last: usize,
    /// Where it is met: "at its first tag's `>` or its first data byte not
    /// white space".
    pub met: usize,
}

/// How deep and how many the nodes may be.
#[derive(Clone, Copy, Debug)]
pub struct Limits {
    pub levels: usize,
    pub nodes: usize,
}

/// "The first node of level 65 or numbered 65,536" is too many.
pub const LIMITS: Limits = Limits {
    levels: 64,
    nodes: 65_536,
};

impl Limits {
    pub fn keep(&self, number: usize, level: usize) -> bool {
        level <= self.levels && number < self.nodes
    }
}

/// "Whichever comes first."
#[derive(Clone, PartialEq, Eq, Debug)]
pub enum Outcome {
    /// A text of the profile, with its nodes.
    Whole(Vec<Node>),
    /// The first byte at which no text of the profile continues; the length,
    /// if it stops short.
    Markup(usize),
    /// The number of the first node beyond the limits.
    Beyond(usize),
}
