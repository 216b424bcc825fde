//! Request Q-4 of document 02: why a node is listed under ELCA, or is not.
//!
//! Which nodes are full, their own counts and the ELCAs are 01's, as in `full`
//! and `elca`; the index check and what becomes of work are those of ELCA. Of
//! its own are the three cases, the refusal NODE, and what comes back.

pub mod call;
pub mod judge;
pub mod why;
