//! The table of words.
//!
//! Q-5: "a fixed table of words over lent memory, placed by 32-bit FNV-1a of the
//! lower-case bytes, modulo the slots [...] in order of first appearance, with
//! the next free slot, cyclically, on a clash". "Two words with one hash stay two
//! words." A slot holds the place of its word's first appearance and 1 more; 0
//! marks a free one.

use super::fnv::fnv1a;
use super::words::Mention;
use crate::both::agreed_up_to;
use std::collections::BTreeSet;

/// The slot that a word is placed by, of so many. Where there is a word to place
/// there is a slot.
pub fn home(word: &[u8], slots: usize) -> usize {
    fnv1a(word) as usize % slots
}

/// The first mention of each word, in order.
pub fn distinct(mentions: &[Mention]) -> Vec<&Mention> {
    let mut known: BTreeSet<&[u8]> = BTreeSet::new();
    mentions
        .iter()
        .filter(|mention| known.insert(&mention.word))
        .collect()
}

/// The table as numbers.
fn numbers(table: &[Option<&Mention>]) -> Vec<u32> {
    let number = |slot: &Option<&Mention>| slot.map_or(0, |mention| mention.place as u32 + 1);
    table.iter().map(number).collect()
}

/// Mention by mention: a word that is in the table stays where it is, another
/// goes from slot to slot until one is free. None where there is none left.
pub fn literal(slots: usize, mentions: &[Mention]) -> Option<Vec<u32>> {
    let mut table: Vec<Option<&Mention>> = vec![None; slots];
    for mention in mentions {
        if table.iter().flatten().any(|other| other.word == mention.word) {
            continue;
        }
        if table.iter().flatten().count() == slots {
            return None;
        }
        let mut slot = home(&mention.word, slots);
        while table[slot].is_some() {
            slot = (slot + 1) % slots;
        }
        table[slot] = Some(mention);
    }
    Some(numbers(&table))
}

/// The same: the first mention of each word takes the lowest free slot from its
/// home on, or the lowest of all where there is none.
pub fn by_free_slots(slots: usize, mentions: &[Mention]) -> Option<Vec<u32>> {
    let mut table: Vec<Option<&Mention>> = vec![None; slots];
    let mut free: BTreeSet<usize> = (0..slots).collect();
    for mention in distinct(mentions) {
        let lowest = *free.iter().next()?;
        let next = free.range(home(&mention.word, slots)..).next();
        let slot = next.copied().unwrap_or(lowest);
        free.remove(&slot);
        table[slot] = Some(mention);
    }
    Some(numbers(&table))
}

/// Whether a table is as the rule says: each distinct word in one slot, no other
/// slot taken, and each word in the first slot from its home that was free at its
/// turn: those before it hold words that came earlier.
pub fn keeps_the_rule(table: &[u32], mentions: &[Mention]) -> bool {
    let words = distinct(mentions);
    // For each slot the turn of its word.
    let turn_at = |&number: &u32| words.iter().position(|word| word.place as u32 + 1 == number);
    let turns: Vec<Option<usize>> = table.iter().map(turn_at).collect();
    let taken = |turn: usize| turns.iter().filter(|&&other| other == Some(turn)).count();
    let no_other = table.iter().filter(|&&number| number != 0).count() == words.len();
    let all_once = (0..words.len()).all(|turn| taken(turn) == 1);
    let in_its_slot = |turn: usize| {
        let home = home(&words[turn].word, table.len());
        let way = (0..table.len()).map(|step| turns[(home + step) % table.len()]);
        let mut before = way.take_while(|&other| other != Some(turn));
        before.all(|other| other.map_or(false, |earlier| earlier < turn))
    };
    no_other && all_once && (0..words.len()).all(in_its_slot)
}

/// Up to this many slots and mentions the literal rendering runs too, and the
/// table is held against the rule.
pub const LITERAL_UP_TO: usize = 256;

/// The table of so many slots, or none where the words outnumber them.
pub fn table(slots: usize, mentions: &[Mention]) -> Option<Vec<u32>> {
    let size = slots.max(mentions.len());
    let table = agreed_up_to(
        LITERAL_UP_TO,
        "table",
        size,
        by_free_slots(slots, mentions),
        || literal(slots, mentions),
    );
    if let (Some(table), true) = (&table, size <= LITERAL_UP_TO) {
        assert!(keeps_the_rule(table, mentions), "{table:?} breaks the rule");
    }
    table
}
