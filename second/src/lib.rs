//! A second program for the tree search and the XML reader, written from
//! document 01 and requests of document 02 alone.
//!
//! Each file renders some words of them. Where a literal reading costs too much
//! on large trees, a climbing form stands beside it; see `both`. For texts see
//! `xml`, for the searches without counts `merge`, for why a node is listed
//! `reason`, for a text's words `build`.

pub mod both;
pub mod build;
pub mod call;
pub mod casefile;
pub mod check;
pub mod class;
pub mod count;
pub mod elca;
pub mod full;
pub mod gen;
pub mod judge;
pub mod list;
pub mod merge;
pub mod reason;
pub mod show;
pub mod size;
pub mod slca;
pub mod table;
pub mod tree;
pub mod valid;
pub mod xml;
