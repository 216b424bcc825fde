//! Seeded cases and tables. The same seed gives the same bytes everywhere.

pub mod builds;
pub mod clash;
pub mod damage;
pub mod large;
pub mod large_builds;
pub mod large_merges;
pub mod large_reasons;
pub mod large_texts;
pub mod lend;
pub mod merges;
pub mod near;
pub mod pen;
pub mod placed;
pub mod queries;
pub mod reading;
pub mod reasons;
pub mod rng;
pub mod shape;
pub mod small;
pub mod spoil;
pub mod tables;
pub mod texts;
pub mod words;
pub mod wordy;
