//! The words of a query, and SIZE.
//!
//! Q-5: "SIZE as in Q-2, for 0 or more than 8 query words, or one that is empty
//! or has another byte", another than an ASCII letter or digit. The words stand
//! one after the other, parted by their ends: where no word is empty, the ends
//! rise strictly from above 0; and the last end is the length of all.

use super::call::Building;
use crate::call::WORDS;
use crate::xml::judge::BYTES;

/// The bytes of word j; none where its ends do not lie in order among them.
fn word(call: &Building, j: usize) -> Option<&[u8]> {
    let start = match j {
        0 => 0,
        _ => call.word_ends[j - 1],
    };
    call.words.get(start as usize..call.word_ends[j] as usize)
}

/// Whether these are the bytes of a word: one at least, and no other than
/// letters and digits.
pub fn is_word(bytes: &[u8]) -> bool {
    !bytes.is_empty() && bytes.iter().all(u8::is_ascii_alphanumeric)
}

pub fn size_broken(call: &Building) -> bool {
    let k = call.k();
    call.text.len() > BYTES
        || !(1..=WORDS).contains(&k)
        || call.word_ends[k - 1] as usize != call.words.len()
        || !(0..k).all(|j| word(call, j).map_or(false, is_word))
}

/// The words of a query that is not refused, in lower case.
pub fn query(call: &Building) -> Vec<Vec<u8>> {
    (0..call.k())
        .map(|j| word(call, j).expect("no SIZE").to_ascii_lowercase())
        .collect()
}
