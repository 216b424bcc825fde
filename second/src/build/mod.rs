//! Request Q-5 of document 02: a dictionary of a text's words, and the index of
//! a query's words.
//!
//! The text and its tree are the reader's, as in `xml`; the counts are 01's, as
//! in `count`. Of its own are which words stand where (`words` by the nodes,
//! `scan` by the bytes alone), their hashes (`fnv`), their table (`table`), the
//! lists of a query's words (`lists`), and what a query may be (`query`).

pub mod call;
pub mod fnv;
pub mod judge;
pub mod lists;
pub mod query;
pub mod scan;
pub mod table;
pub mod words;
