//! The lists of a query's words.
//!
//! Q-5: "then the lists and counts for a query's words." 01: "Occurrences: all k
//! lists one after the other, with k ends". A word's list has the nodes at which
//! it is mentioned, increasing, each once. It is empty where the word is not in
//! the text.

use super::words::Mention;
use crate::both::agreed;

/// Each node asked whether the word is mentioned at it.
pub fn literal(n: usize, mentions: &[Mention], word: &[u8]) -> Vec<u32> {
    let stands = |v: &usize| {
        mentions
            .iter()
            .any(|mention| mention.node == *v && mention.word == word)
    };
    (0..n).filter(stands).map(|v| v as u32).collect()
}

/// The same: the nodes of its mentions, which are in order.
pub fn by_mentions(mentions: &[Mention], word: &[u8]) -> Vec<u32> {
    let of_word = mentions.iter().filter(|mention| mention.word == word);
    let mut nodes: Vec<u32> = of_word.map(|mention| mention.node as u32).collect();
    nodes.dedup();
    nodes
}

/// The list of each word, in the query's order.
pub fn lists(n: usize, mentions: &[Mention], query: &[Vec<u8>]) -> Vec<Vec<u32>> {
    let list = |word: &Vec<u8>| {
        agreed("list", n, by_mentions(mentions, word), || {
            literal(n, mentions, word)
        })
    };
    query.iter().map(list).collect()
}

/// Where each list ends, once they stand one after the other.
pub fn ends(lists: &[Vec<u32>]) -> Vec<u32> {
    let up_to = |j: usize| lists[..=j].iter().map(Vec::len).sum::<usize>();
    (0..lists.len()).map(|j| up_to(j) as u32).collect()
}
