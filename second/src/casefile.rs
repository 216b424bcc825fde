//! The case file and the line that says what a case must give.
//!
//! A case is a row of little-endian numbers of 32 bits. Of a search: its magic
//! number, the search (0 check, 1 elca, 2 slca, 3 valid), p, q, the lengths of
//! parents, tags, ends, occurrences, counts, work, out and own, then their
//! contents in the same order. Of a search without counts: its magic number, the
//! search (0 elca, 1 slca), p, q, the lengths of parents, tags, ends,
//! occurrences, stack, out and own, then their contents, an entry of the stack
//! as its 17 numbers. Of a reason: its magic number, p, q, the node, the lengths
//! of parents, tags, ends, occurrences, counts and work, then their contents. Of
//! the reader: its magic number, the lengths of text, parents, tags, firsts,
//! lasts and work, then their contents, the text with up to three bytes of 0
//! behind it. Of the word dictionary: its magic number, the lengths of text,
//! words, word ends, slots, parents, tags, firsts, lasts, ends, occurrences,
//! counts and work, then their contents, text and words with up to three bytes of
//! 0 behind each. A file is cases one after the other.

use crate::build;
use crate::build::call::{Building, Built};
use crate::call::{After, Call, Reply, Search};
use crate::judge;
use crate::merge;
use crate::merge::call::{Entry, Merge, Merged, Merging, NUMBERS};
use crate::reason;
use crate::reason::call::{Reasoned, Reasoning};
use crate::xml;
use crate::xml::call::{Read as ReadAfter, Reading};
use crate::xml::seen::{characters, seen, Seen};
use std::io::{self, Read, Write};

pub const MAGIC: u32 = 0x5351_4C43;
pub const MERGING: u32 = 0x5351_4C4D;
pub const READING: u32 = 0x5351_4C52;
pub const REASONING: u32 = 0x5351_4C57;
pub const BUILDING: u32 = 0x5351_4C42;

/// A case of any kind.
#[derive(Clone, PartialEq, Eq, Debug)]
pub enum Case {
    Search(Call),
    Merging(Merging),
    Reasoning(Reasoning),
    Reading(Reading),
    Building(Building),
}

fn bytes(numbers: &[u32]) -> Vec<u8> {
    numbers.iter().flat_map(|number| number.to_le_bytes()).collect()
}

/// The zeros behind bytes.
fn padding(length: usize) -> usize {
    (4 - length % 4) % 4
}

/// Writes bytes, and zeros up to a multiple of 4.
fn write_padded(sink: &mut impl Write, bytes: &[u8]) -> io::Result<()> {
    sink.write_all(bytes)?;
    sink.write_all(&[0; 3][..padding(bytes.len())])
}

/// Writes what a case begins with, the lengths of its slices, and their contents.
fn write_slices(sink: &mut impl Write, begin: &[u32], slices: &[&Vec<u32>]) -> io::Result<()> {
    let mut head = begin.to_vec();
    head.extend(slices.iter().map(|slice| slice.len() as u32));
    sink.write_all(&bytes(&head))?;
    for slice in slices {
        sink.write_all(&bytes(slice))?;
    }
    Ok(())
}

fn write_search(sink: &mut impl Write, call: &Call) -> io::Result<()> {
    let slices = [
        &call.parents,
        &call.tags,
        &call.ends,
        &call.occurrences,
        &call.counts,
        &call.work,
        &call.out,
        &call.own,
    ];
    let search = Search::ALL.iter().position(|&s| s == call.search).unwrap();
    write_slices(sink, &[MAGIC, search as u32, call.p, call.q], &slices)
}

/// The numbers of a stack, entry by entry.
fn flat(stack: &[Entry]) -> Vec<u32> {
    stack.iter().flat_map(Entry::numbers).collect()
}

fn write_merging(sink: &mut impl Write, call: &Merging) -> io::Result<()> {
    let index = [&call.parents, &call.tags, &call.ends, &call.occurrences];
    let buffers = [&call.out, &call.own];
    let merge = Merge::ALL.iter().position(|&m| m == call.merge).unwrap();
    let mut head = vec![MERGING, merge as u32, call.p, call.q];
    head.extend(index.iter().map(|slice| slice.len() as u32));
    head.push(call.stack.len() as u32);
    head.extend(buffers.iter().map(|slice| slice.len() as u32));
    sink.write_all(&bytes(&head))?;
    for slice in index {
        sink.write_all(&bytes(slice))?;
    }
    sink.write_all(&bytes(&flat(&call.stack)))?;
    for slice in buffers {
        sink.write_all(&bytes(slice))?;
    }
    Ok(())
}

fn write_reasoning(sink: &mut impl Write, call: &Reasoning) -> io::Result<()> {
    let slices = [
        &call.parents,
        &call.tags,
        &call.ends,
        &call.occurrences,
        &call.counts,
        &call.work,
    ];
    write_slices(sink, &[REASONING, call.p, call.q, call.node], &slices)
}

fn write_reading(sink: &mut impl Write, call: &Reading) -> io::Result<()> {
    let slices = [&call.parents, &call.tags, &call.firsts, &call.lasts, &call.work];
    let mut head = vec![READING, call.text.len() as u32];
    head.extend(slices.iter().map(|slice| slice.len() as u32));
    sink.write_all(&bytes(&head))?;
    write_padded(sink, &call.text)?;
    for slice in slices {
        sink.write_all(&bytes(slice))?;
    }
    Ok(())
}

fn write_building(sink: &mut impl Write, call: &Building) -> io::Result<()> {
    let slices = [
        &call.word_ends,
        &call.slots,
        &call.parents,
        &call.tags,
        &call.firsts,
        &call.lasts,
        &call.ends,
        &call.occurrences,
        &call.counts,
        &call.work,
    ];
    let mut head = vec![BUILDING, call.text.len() as u32, call.words.len() as u32];
    head.extend(slices.iter().map(|slice| slice.len() as u32));
    sink.write_all(&bytes(&head))?;
    write_padded(sink, &call.text)?;
    write_padded(sink, &call.words)?;
    for slice in slices {
        sink.write_all(&bytes(slice))?;
    }
    Ok(())
}

/// Writes one case.
pub fn write(sink: &mut impl Write, case: &Case) -> io::Result<()> {
    match case {
        Case::Search(call) => write_search(sink, call),
        Case::Merging(call) => write_merging(sink, call),
        Case::Reasoning(call) => write_reasoning(sink, call),
        Case::Reading(call) => write_reading(sink, call),
        Case::Building(call) => write_building(sink, call),
    }
}

fn broken(what: &str) -> io::Error {
    io::Error::new(io::ErrorKind::InvalidData, what.to_string())
}

/// Reads so many bytes. A lying length costs no memory.
fn read_bytes(source: &mut impl Read, length: u64) -> io::Result<Vec<u8>> {
    let mut raw = Vec::new();
    source.take(length).read_to_end(&mut raw)?;
    if raw.len() as u64 != length {
        return Err(broken("the file ends inside a case"));
    }
    Ok(raw)
}

fn read_numbers(source: &mut impl Read, length: u32) -> io::Result<Vec<u32>> {
    Ok(read_bytes(source, u64::from(length) * 4)?
        .chunks_exact(4)
        .map(|four| u32::from_le_bytes([four[0], four[1], four[2], four[3]]))
        .collect())
}

/// Reads so many bytes, and the zeros behind them.
fn read_padded(source: &mut impl Read, length: u32) -> io::Result<Vec<u8>> {
    let raw = read_bytes(source, u64::from(length))?;
    read_bytes(source, padding(raw.len()) as u64)?;
    Ok(raw)
}

fn read_search(source: &mut impl Read) -> io::Result<Call> {
    let head = read_numbers(source, 11)?;
    let search = *Search::ALL
        .get(head[0] as usize)
        .ok_or_else(|| broken("a case names an unknown search"))?;
    let mut slice = |i: usize| read_numbers(source, head[3 + i]);
    Ok(Call {
        search,
        p: head[1],
        q: head[2],
        parents: slice(0)?,
        tags: slice(1)?,
        ends: slice(2)?,
        occurrences: slice(3)?,
        counts: slice(4)?,
        work: slice(5)?,
        out: slice(6)?,
        own: slice(7)?,
    })
}

fn read_stack(source: &mut impl Read, length: u32) -> io::Result<Vec<Entry>> {
    (0..length)
        .map(|_| {
            let numbers = read_numbers(source, NUMBERS as u32)?;
            Ok(Entry::of(numbers.as_slice().try_into().unwrap()))
        })
        .collect()
}

fn read_merging(source: &mut impl Read) -> io::Result<Merging> {
    let head = read_numbers(source, 10)?;
    let merge = *Merge::ALL
        .get(head[0] as usize)
        .ok_or_else(|| broken("a case names an unknown search"))?;
    Ok(Merging {
        merge,
        p: head[1],
        q: head[2],
        parents: read_numbers(source, head[3])?,
        tags: read_numbers(source, head[4])?,
        ends: read_numbers(source, head[5])?,
        occurrences: read_numbers(source, head[6])?,
        stack: read_stack(source, head[7])?,
        out: read_numbers(source, head[8])?,
        own: read_numbers(source, head[9])?,
    })
}

fn read_reasoning(source: &mut impl Read) -> io::Result<Reasoning> {
    let head = read_numbers(source, 9)?;
    let mut slice = |i: usize| read_numbers(source, head[3 + i]);
    Ok(Reasoning {
        p: head[0],
        q: head[1],
        node: head[2],
        parents: slice(0)?,
        tags: slice(1)?,
        ends: slice(2)?,
        occurrences: slice(3)?,
        counts: slice(4)?,
        work: slice(5)?,
    })
}

fn read_reading(source: &mut impl Read) -> io::Result<Reading> {
    let head = read_numbers(source, 6)?;
    let text = read_padded(source, head[0])?;
    let mut slice = |i: usize| read_numbers(source, head[i]);
    Ok(Reading {
        text,
        parents: slice(1)?,
        tags: slice(2)?,
        firsts: slice(3)?,
        lasts: slice(4)?,
        work: slice(5)?,
    })
}

fn read_building(source: &mut impl Read) -> io::Result<Building> {
    let head = read_numbers(source, 12)?;
    let text = read_padded(source, head[0])?;
    let words = read_padded(source, head[1])?;
    let mut slice = |i: usize| read_numbers(source, head[i]);
    Ok(Building {
        text,
        words,
        word_ends: slice(2)?,
        slots: slice(3)?,
        parents: slice(4)?,
        tags: slice(5)?,
        firsts: slice(6)?,
        lasts: slice(7)?,
        ends: slice(8)?,
        occurrences: slice(9)?,
        counts: slice(10)?,
        work: slice(11)?,
    })
}

/// Reads the next case, or nothing at the end of the file.
pub fn read(source: &mut impl Read) -> io::Result<Option<Case>> {
    let mut first = Vec::new();
    source.take(4).read_to_end(&mut first)?;
    if first.is_empty() {
        Ok(None)
    } else if first == MAGIC.to_le_bytes() {
        Ok(Some(Case::Search(read_search(source)?)))
    } else if first == MERGING.to_le_bytes() {
        Ok(Some(Case::Merging(read_merging(source)?)))
    } else if first == REASONING.to_le_bytes() {
        Ok(Some(Case::Reasoning(read_reasoning(source)?)))
    } else if first == READING.to_le_bytes() {
        Ok(Some(Case::Reading(read_reading(source)?)))
    } else if first == BUILDING.to_le_bytes() {
        Ok(Some(Case::Building(read_building(source)?)))
    } else {
        Err(broken("a case does not start with a magic number"))
    }
}

/// 64-bit FNV-1a.
pub fn fnv1a_bytes(bytes: &[u8]) -> u64 {
    let mut hash: u64 = 14_695_981_039_346_656_037;
    for &byte in bytes {
        hash = (hash ^ u64::from(byte)).wrapping_mul(1_099_511_628_211);
    }
    hash
}

/// The same over the numbers' little-endian bytes.
pub fn fnv1a(numbers: &[u32]) -> u64 {
    fnv1a_bytes(&bytes(numbers))
}

fn print(numbers: &[u32]) -> String {
    format!("{}:{:016x}", numbers.len(), fnv1a(numbers))
}

/// A stack's length in entries, and the hash of their numbers.
fn print_stack(stack: &[Entry]) -> String {
    format!("{}:{:016x}", stack.len(), fnv1a(&flat(stack)))
}

fn print_reply(reply: Reply) -> String {
    format!("{} {} {}", reply.refusal, reply.place, reply.total)
}

/// `INDEX SEARCH refusal place total W O S`, without the line end.
pub fn line(index: usize, search: Search, after: &After) -> String {
    format!(
        "{index} {} {} {} {} {}",
        search.name(),
        print_reply(after.reply),
        print(&after.work),
        print(&after.out),
        print(&after.own),
    )
}

/// `INDEX SEARCH refusal place total K O S`, without the line end.
pub fn merging_line(index: usize, merge: Merge, after: &Merged) -> String {
    format!(
        "{index} {} {} {} {} {}",
        merge.name(),
        print_reply(after.reply),
        print_stack(&after.stack),
        print(&after.out),
        print(&after.own),
    )
}

/// `INDEX reason refusal place total REASON WORD O W`, without the line end.
pub fn reasoning_line(index: usize, after: &Reasoned) -> String {
    let occurrences = after.explanation.occurrences.map(|u| u.to_string());
    format!(
        "{index} reason {} {} {} {} {}",
        print_reply(after.reply),
        after.explanation.reason,
        after.explanation.word,
        occurrences.join(","),
        print(&after.work),
    )
}

/// `INDEX read refusal place total P T F L W`, without the line end.
pub fn reading_line(index: usize, after: &ReadAfter) -> String {
    format!(
        "{index} read {} {} {} {} {} {}",
        print_reply(after.reply),
        print(&after.parents),
        print(&after.tags),
        print(&after.firsts),
        print(&after.lasts),
        print(&after.work),
    )
}

/// `INDEX build refusal place total SLOTS P T F L E O C W`, without the line end.
pub fn building_line(index: usize, after: &Built) -> String {
    format!(
        "{index} build {} {} {} {} {} {} {} {} {} {}",
        print_reply(after.reply),
        print(&after.slots),
        print(&after.parents),
        print(&after.tags),
        print(&after.firsts),
        print(&after.lasts),
        print(&after.ends),
        print(&after.occurrences),
        print(&after.counts),
        print(&after.work),
    )
}

/// The line of a case.
pub fn expected(index: usize, case: &Case) -> String {
    match case {
        Case::Search(call) => line(index, call.search, &judge::judge(call)),
        Case::Merging(call) => merging_line(index, call.merge, &merge::judge::judge(call)),
        Case::Reasoning(call) => reasoning_line(index, &reason::judge::judge(call)),
        Case::Reading(call) => reading_line(index, &xml::judge::judge(call)),
        Case::Building(call) => building_line(index, &build::judge::judge(call)),
    }
}

/// What a parser of XML must see in a text: `INDEX broken`, or `INDEX whole n`
/// and then for each node `NODE PARENT FIRST LAST element N` or `.. data D`, with
/// its name or its characters as their length and hash. None where XML and the
/// profile may differ.
pub fn seen_lines(index: usize, text: &[u8]) -> Option<String> {
    let nodes = match seen(text)? {
        Seen::Broken => return Some(format!("{index} broken\n")),
        Seen::Whole(nodes) => nodes,
    };
    let mut lines = format!("{index} whole {}\n", nodes.len());
    for (number, node) in nodes.iter().enumerate() {
        let (kind, bytes) = match &node.name {
            Some(name) => ("element", text[name.clone()].to_vec()),
            None => ("data", characters(text, node)),
        };
        lines += &format!(
            "{number} {} {} {} {kind} {}:{:016x}\n",
            node.parent,
            node.first,
            node.last,
            bytes.len(),
            fnv1a_bytes(&bytes)
        );
    }
    Some(lines)
}
