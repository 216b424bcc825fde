//! A case in readable form.

use crate::build;
use crate::build::call::{Building, ROW_NAMES};
use crate::build::scan::scan;
use crate::build::words::Mention;
use crate::call::{refusal_name, Call, Reply, ACCEPTED};
use crate::casefile::Case;
use crate::judge::judge;
use crate::merge;
use crate::merge::call::{Entry, Merging};
use crate::reason;
use crate::reason::call::{reason_name, Reasoning};
use crate::xml;
use crate::xml::call::Reading;
use std::fmt::Write;

fn joined(numbers: &[u32]) -> String {
    let list: Vec<String> = numbers.iter().map(u32::to_string).collect();
    list.join(",")
}

fn row(text: &mut String, name: &str, numbers: &[u32]) {
    writeln!(text, "{name} ({}): {}", numbers.len(), joined(numbers)).unwrap();
}

fn reply_row(text: &mut String, reply: Reply) {
    writeln!(
        text,
        "reply: refusal {} ({})  place {}  total {}",
        reply.refusal,
        refusal_name(reply.refusal),
        reply.place,
        reply.total
    )
    .unwrap();
}

/// Everything lent, and what the call must give.
pub fn show(case: &Case) -> String {
    match case {
        Case::Search(call) => show_search(call),
        Case::Merging(call) => show_merging(call),
        Case::Reasoning(call) => show_reasoning(call),
        Case::Reading(call) => show_reading(call),
        Case::Building(call) => show_building(call),
    }
}

/// The occurrences, and each word's list as far as their lengths allow.
fn list_rows(text: &mut String, ends: &[u32], occurrences: &[u32]) {
    row(text, "ends", ends);
    row(text, "occurrences", occurrences);
    let mut start = 0;
    for (j, &end) in ends.iter().enumerate() {
        if let Some(list) = occurrences.get(start as usize..end as usize) {
            row(text, &format!("  list {j}"), list);
        }
        start = end;
    }
}

/// The counts, parted by word as far as their length allows.
fn count_rows(text: &mut String, n: usize, counts: &[u32]) {
    row(text, "counts", counts);
    if n > 0 {
        for (j, part) in counts.chunks(n).enumerate() {
            row(text, &format!("  counts {j}"), part);
        }
    }
}

fn show_search(call: &Call) -> String {
    let mut text = String::new();
    writeln!(
        text,
        "search {}  p {}  q {}  n {}",
        call.search.name(),
        call.p,
        call.q,
        call.n()
    )
    .unwrap();
    row(&mut text, "parents", &call.parents);
    row(&mut text, "tags", &call.tags);
    list_rows(&mut text, &call.ends, &call.occurrences);
    count_rows(&mut text, call.n(), &call.counts);
    row(&mut text, "work", &call.work);
    row(&mut text, "out", &call.out);
    row(&mut text, "own", &call.own);
    let after = judge(call);
    reply_row(&mut text, after.reply);
    row(&mut text, "work after", &after.work);
    row(&mut text, "out after", &after.out);
    row(&mut text, "own after", &after.own);
    text
}

/// A line for each entry of a stack, but one for a run of equal ones.
fn stack_rows(text: &mut String, name: &str, stack: &[Entry]) {
    writeln!(text, "{name} ({})", stack.len()).unwrap();
    let mut first = 0;
    while let Some(&Entry { node, own, covered }) = stack.get(first) {
        let alike = stack[first..].iter().take_while(|&&entry| entry == stack[first]);
        let last = first + alike.count() - 1;
        writeln!(
            text,
            "  {first} to {last}: node {node}  own {own:?}  covered {covered:?}"
        )
        .unwrap();
        first = last + 1;
    }
}

fn show_merging(call: &Merging) -> String {
    let mut text = String::new();
    let (name, n) = (call.merge.name(), call.parents.len());
    writeln!(text, "search {name}  p {}  q {}  n {n}", call.p, call.q).unwrap();
    row(&mut text, "parents", &call.parents);
    row(&mut text, "tags", &call.tags);
    list_rows(&mut text, &call.ends, &call.occurrences);
    stack_rows(&mut text, "stack", &call.stack);
    row(&mut text, "out", &call.out);
    row(&mut text, "own", &call.own);
    let after = merge::judge::judge(call);
    reply_row(&mut text, after.reply);
    stack_rows(&mut text, "stack after", &after.stack);
    row(&mut text, "out after", &after.out);
    row(&mut text, "own after", &after.own);
    text
}

fn show_reasoning(call: &Reasoning) -> String {
    let mut text = String::new();
    let n = call.parents.len();
    writeln!(
        text,
        "reason  p {}  q {}  n {n}  node {}",
        call.p, call.q, call.node
    )
    .unwrap();
    row(&mut text, "parents", &call.parents);
    row(&mut text, "tags", &call.tags);
    list_rows(&mut text, &call.ends, &call.occurrences);
    count_rows(&mut text, n, &call.counts);
    row(&mut text, "work", &call.work);
    let after = reason::judge::judge(call);
    reply_row(&mut text, after.reply);
    writeln!(
        text,
        "reason: {} ({})  word {}  occurrences {}",
        after.explanation.reason,
        reason_name(after.explanation.reason),
        after.explanation.word,
        joined(&after.explanation.occurrences)
    )
    .unwrap();
    row(&mut text, "work after", &after.work);
    text
}

/// A text with its places, sixteen bytes a line, as C would quote them.
fn text_rows(text: &mut String, lent: &[u8]) {
    for (line, bytes) in lent.chunks(16).enumerate() {
        writeln!(text, "{:9} {}", line * 16, bytes.escape_ascii()).unwrap();
    }
}

fn show_reading(call: &Reading) -> String {
    let mut text = String::new();
    writeln!(text, "read  text {} bytes", call.text.len()).unwrap();
    text_rows(&mut text, &call.text);
    row(&mut text, "parents", &call.parents);
    row(&mut text, "tags", &call.tags);
    row(&mut text, "firsts", &call.firsts);
    row(&mut text, "lasts", &call.lasts);
    row(&mut text, "work", &call.work);
    let after = xml::judge::judge(call);
    reply_row(&mut text, after.reply);
    row(&mut text, "parents after", &after.parents);
    row(&mut text, "tags after", &after.tags);
    row(&mut text, "firsts after", &after.firsts);
    row(&mut text, "lasts after", &after.lasts);
    row(&mut text, "work after", &after.work);
    text
}

/// The query's words, parted as far as their ends allow.
fn word_rows(text: &mut String, words: &[u8], word_ends: &[u32]) {
    writeln!(text, "words ({}): {}", words.len(), words.escape_ascii()).unwrap();
    row(text, "word ends", word_ends);
    let mut start = 0;
    for (j, &end) in word_ends.iter().enumerate() {
        if let Some(word) = words.get(start as usize..end as usize) {
            writeln!(text, "  word {j}: {}", word.escape_ascii()).unwrap();
        }
        start = end;
    }
}

/// The words of a table that an accepted call leaves.
fn slot_rows(text: &mut String, lent: &[u8], slots: &[u32]) {
    let mentions = scan(lent);
    for (slot, &number) in slots.iter().enumerate() {
        let held = mentions.iter().find(|mention| mention.place as u32 + 1 == number);
        if let Some(Mention { place, word, .. }) = held {
            writeln!(text, "  slot {slot}: place {place}, {}", word.escape_ascii()).unwrap();
        }
    }
}

fn show_building(call: &Building) -> String {
    let mut text = String::new();
    writeln!(text, "build  text {} bytes  k {}", call.text.len(), call.k()).unwrap();
    text_rows(&mut text, &call.text);
    word_rows(&mut text, &call.words, &call.word_ends);
    row(&mut text, "slots", &call.slots);
    let mut lent = call.untouched(0, 0, 0);
    for (name, slice) in ROW_NAMES.iter().zip(lent.rows()) {
        row(&mut text, name, slice);
    }
    let mut after = build::judge::judge(call);
    reply_row(&mut text, after.reply);
    row(&mut text, "slots after", &after.slots);
    if after.reply.refusal == ACCEPTED {
        slot_rows(&mut text, &call.text, &after.slots);
    }
    for (name, slice) in ROW_NAMES.iter().zip(after.rows()) {
        row(&mut text, &format!("{name} after"), slice);
    }
    text
}
