//! Two renderings of one definition, held against each other.
//!
//! The literal rendering says what 01 and 02 say, at any cost. A quicker one says
//! the same, on trees mostly by climbing from nodes to the root, and serves large
//! cases.

use std::fmt::Debug;

/// Up to this many nodes the literal rendering runs too.
pub const LITERAL_UP_TO: usize = 64;

/// The climbing answer. On small trees it panics if the literal one differs.
pub fn agreed<T: PartialEq + Debug>(what: &str, n: usize, climbing: T, literal: impl FnOnce() -> T) -> T {
    agreed_up_to(LITERAL_UP_TO, what, n, climbing, literal)
}

/// The quicker answer. Up to a size it panics if the literal one differs.
pub fn agreed_up_to<T: PartialEq + Debug>(
    limit: usize,
    what: &str,
    size: usize,
    quicker: T,
    literal: impl FnOnce() -> T,
) -> T {
    if size <= limit {
        let literal = literal();
        assert!(
            quicker == literal,
            "{what}: quicker {quicker:?}, literal {literal:?}"
        );
    }
    quicker
}
