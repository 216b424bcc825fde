//! Request Q-2 of document 02: XML text read into a tree.
//!
//! The profile is XML 1.0's productions, cut down to what Q-2 names. `derive`
//! follows them downward from document and serves every text. On small texts it
//! is held against renderings that say the same at any cost; see `read`.

pub mod call;
pub mod chars;
pub mod derive;
pub mod judge;
pub mod node;
pub mod onward;
pub mod read;
pub mod seen;
pub mod spans;
