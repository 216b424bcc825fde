//! The query, and the refusals that come before ROOM.

use super::Slip::{self, *};
use second::build::call::Building;
use second::call::{MARKUP, SIZE, TREE};
use second::xml::node::Outcome;

/// The words as their ends part them; where these do not lie in order a word is
/// taken to be empty.
pub fn parted(call: &Building) -> Vec<Vec<u8>> {
    let mut start = 0;
    let mut words = vec![];
    for &end in &call.word_ends {
        let word = call.words.get(start as usize..end as usize);
        words.push(word.unwrap_or(&[]).to_vec());
        start = end;
    }
    words
}

fn byte_taken(byte: u8, slip: Option<Slip>) -> bool {
    match slip {
        Some(AnyByteTaken) => true,
        Some(HyphenTaken) if byte == b'-' => true,
        Some(UnderscoreTaken) if byte == b'_' => true,
        Some(HighLetterTaken) => (byte & 0x7F).is_ascii_alphanumeric(),
        Some(CapitalRefused) => byte.is_ascii_lowercase() || byte.is_ascii_digit(),
        Some(DigitRefused) => byte.is_ascii_alphabetic(),
        _ => byte.is_ascii_alphanumeric(),
    }
}

/// Whether the ends rise strictly from above 0 up to the length.
fn ends_good(call: &Building, slip: Option<Slip>) -> bool {
    let ends = &call.word_ends;
    let last = ends.last().map_or(0, |&end| end as usize);
    let rise = |(j, &end): (usize, &u32)| match slip {
        Some(EmptyWordTaken) => end >= if j == 0 { 0 } else { ends[j - 1] },
        Some(LastEmptyWordTaken) if j > 0 && j + 1 == ends.len() => end >= ends[j - 1],
        Some(FallingEndsTaken) => true,
        _ => end > if j == 0 { 0 } else { ends[j - 1] },
    };
    let whole = match slip {
        Some(NoWordTaken) if ends.is_empty() => true,
        Some(LastEndShortTaken) => last <= call.words.len(),
        _ => last == call.words.len(),
    };
    whole && ends.iter().enumerate().all(rise)
}

fn query_good(call: &Building, words: &[Vec<u8>], slip: Option<Slip>) -> bool {
    let k = words.len();
    let bounds = match slip {
        Some(NineWordsTaken) => 1..=9,
        Some(ManyWordsTaken) => 1..=usize::MAX,
        Some(EightWordsRefused) => 1..=7,
        Some(NoWordTaken) => 0..=8,
        _ => 1..=8,
    };
    let asked = match slip {
        Some(FirstWordAskedOnly) => &words[..1.min(k)],
        _ => words,
    };
    let lower = |j: usize| words[j].to_ascii_lowercase();
    let again = (0..k).any(|j| (0..j).any(|i| lower(i) == lower(j)));
    bounds.contains(&k)
        && ends_good(call, slip)
        && asked.concat().iter().all(|&byte| byte_taken(byte, slip))
        && !(slip == Some(SameWordRefused) && again)
}

/// A refusal before ROOM, with its place.
pub fn fault(
    call: &Building,
    words: &[Vec<u8>],
    outcome: &Outcome,
    slip: Option<Slip>,
) -> Option<(u32, usize)> {
    let longest = match slip {
        Some(Bytes16777217) => 16_777_217,
        Some(Bytes16777216Refused) => 16_777_215,
        _ => 16_777_216,
    };
    let size = call.text.len() > longest || !query_good(call, words, slip);
    let of_text = match *outcome {
        Outcome::Markup(place) => Some((MARKUP, place)),
        Outcome::Beyond(node) => Some((TREE, node)),
        Outcome::Whole(_) => None,
    };
    let first_asked = slip == Some(TextBeforeTheQuery) && call.text.len() <= longest;
    match of_text {
        Some(of_text) if first_asked || !size => Some(of_text),
        _ => size.then_some((SIZE, 0)),
    }
}
