//! Request Q-3 of document 02: ELCA and SLCA without counts.
//!
//! Q-3: "For ELCA and SLCA, prove its lists and own counts equal to the first
//! engine's on every index that the first accepts." So the answers here are by
//! the same definitions, `elca` and `slca`, and not by a merge; of its own are
//! what is lent, SIZE, and what becomes of the stack.

pub mod call;
pub mod judge;
