//! The words of a query, and what may be wrong with them.

use super::clash::{group, partner};
use super::rng::Rng;
use super::wordy::cased;

/// What is wrong with a query.
#[derive(Clone, Copy, PartialEq, Eq, PartialOrd, Ord, Debug)]
pub enum Wrong {
    NoWord,
    NineWords,
    ManyWords,
    FirstEmpty,
    InnerEmpty,
    LastEmpty,
    OnlyEmpty,
    /// A byte that is neither letter nor digit, in one of the words.
    OtherByte,
    /// An end below the one before.
    Falls,
    /// The last end before the last byte, or behind it.
    LastEndShort,
    LastEndLong,
    /// An end far behind the last byte.
    FarEnd,
}

/// How often each is wrong. There are many other bytes.
pub const WRONG: &[(usize, Wrong)] = &[
    (6, Wrong::NoWord),
    (6, Wrong::NineWords),
    (6, Wrong::ManyWords),
    (6, Wrong::FirstEmpty),
    (6, Wrong::InnerEmpty),
    (8, Wrong::LastEmpty),
    (6, Wrong::OnlyEmpty),
    (36, Wrong::OtherByte),
    (6, Wrong::Falls),
    (6, Wrong::LastEndShort),
    (6, Wrong::LastEndLong),
    (6, Wrong::FarEnd),
];

/// Bytes that are neither letters nor digits: those that names have, those beside
/// letters and digits, letters and digits with the highest bit, and others.
const OTHER: &[(usize, &[u8])] = &[
    (24, b"-"),
    (24, b"_"),
    (10, b".:"),
    (12, b"/:@[`{"),
    (20, b"\xb0\xb9\xc1\xda\xe1\xfa"),
    (10, b"\x00\x01\x10\x1f \t<&;'\x7f\x80\xff"),
];

fn other_byte(rng: &mut Rng) -> u8 {
    let bytes = rng.weighted(OTHER);
    rng.pick(bytes)
}

/// The beginning or the end of a word, or a word with one letter more.
fn part(rng: &mut Rng, word: &[u8]) -> Vec<u8> {
    let at = rng.range(0, word.len() - 1);
    match rng.range(0, 2) {
        0 if at > 0 => word[..at].to_vec(),
        1 if at > 0 => word[at..].to_vec(),
        _ => [word, &[rng.pick(b"asx0")]].concat(),
    }
}

/// A word to ask for, by the words of the text as they are mentioned, those that
/// it has been made of, and those asked for before.
fn word(rng: &mut Rng, mentioned: &[&[u8]], made_of: &[Vec<u8>], before: &[Vec<u8>]) -> Vec<u8> {
    let some = |rng: &mut Rng| rng.pick(mentioned).to_vec();
    match rng.range(0, 99) {
        0..=59 if !mentioned.is_empty() => some(rng),
        60..=67 if !before.is_empty() => before[rng.range(0, before.len() - 1)].clone(),
        68..=79 if !mentioned.is_empty() => {
            let word = some(rng);
            part(rng, &word)
        }
        80..=82 if !mentioned.is_empty() => [some(rng), some(rng)].concat(),
        83..=90 if !mentioned.is_empty() => {
            let word = some(rng);
            partner(rng, &word).unwrap_or(word)
        }
        91..=93 => rng.pick(&["lt", "gt", "amp", "apos", "quot"]).as_bytes().to_vec(),
        94..=95 => group(rng).remove(0),
        _ if !made_of.is_empty() => made_of[rng.range(0, made_of.len() - 1)].clone(),
        _ => rng.pick(&["x", "c", "clocks", "9"]).as_bytes().to_vec(),
    }
}

/// The words of a query, in both cases.
pub fn query(rng: &mut Rng, k: usize, mentioned: &[&[u8]], made_of: &[Vec<u8>]) -> Vec<Vec<u8>> {
    let mut words: Vec<Vec<u8>> = vec![];
    for _ in 0..k {
        let word = word(rng, mentioned, made_of, &words);
        let word = cased(rng, &word, 60);
        words.push(word);
    }
    words
}

/// The words one after the other, and their ends.
pub fn parted(words: &[Vec<u8>]) -> (Vec<u8>, Vec<u32>) {
    let end = |j: usize| words[..=j].concat().len() as u32;
    (words.concat(), (0..words.len()).map(end).collect())
}

/// Makes words wrong, where it is the words that are; another word comes from
/// those that are there.
pub fn wrong_words(rng: &mut Rng, words: &mut Vec<Vec<u8>>, kind: Wrong) {
    let grown = |rng: &mut Rng, words: &mut Vec<Vec<u8>>, k: usize| {
        while words.len() < k {
            let again = words[rng.range(0, words.len() - 1)].clone();
            words.push(again);
        }
    };
    match kind {
        Wrong::NoWord => words.clear(),
        Wrong::NineWords => grown(rng, words, 9),
        Wrong::ManyWords => {
            let k = rng.pick(&[10, 16, 17, 33]);
            grown(rng, words, k)
        }
        Wrong::FirstEmpty => words[0].clear(),
        Wrong::InnerEmpty => {
            grown(rng, words, 3);
            let j = rng.range(1, words.len() - 2);
            words[j].clear();
        }
        Wrong::LastEmpty => {
            grown(rng, words, 2);
            words.last_mut().unwrap().clear();
        }
        Wrong::OnlyEmpty => *words = vec![vec![]],
        Wrong::OtherByte => {
            let j = rng.range(0, words.len() - 1);
            let byte = other_byte(rng);
            let at = rng.range(0, words[j].len() - 1);
            match rng.range(0, 2) {
                0 => words[j][at] = byte,
                1 => words[j].insert(at, byte),
                _ => words[j].push(byte),
            }
        }
        Wrong::Falls => grown(rng, words, 2),
        Wrong::LastEndShort | Wrong::LastEndLong | Wrong::FarEnd => (),
    }
}

/// Makes ends wrong, where it is the ends that are.
pub fn wrong_ends(rng: &mut Rng, words: &mut Vec<u8>, ends: &mut [u32], kind: Wrong) {
    let k = ends.len();
    match kind {
        // Bytes that no end makes a word.
        Wrong::NoWord if rng.percent(50) => words.extend(b"word"),
        Wrong::Falls => {
            let j = rng.range(0, k - 2);
            match rng.range(0, 2) {
                // The two in each other's place; the last is then no longer the length.
                0 => ends.swap(j, j + 1),
                1 => ends[j] = ends[j + 1] + 1,
                // The others stay in order.
                _ => ends[j] = ends[k - 1] + rng.range(1, 9) as u32,
            }
        }
        Wrong::LastEndShort => {
            let more = rng.range(1, 3);
            words.resize(words.len() + more, b'a');
        }
        Wrong::LastEndLong => ends[k - 1] += rng.range(1, 3) as u32,
        Wrong::FarEnd => {
            let j = rng.range(0, k - 1);
            ends[j] = rng.pick(&[u32::MAX, 1 << 31, 1 << 16, ends[k - 1] + 100]);
        }
        _ => (),
    }
}
