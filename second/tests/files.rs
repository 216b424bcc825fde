//! The case file, the expected line, the large set and the table inputs.

mod common;

use second::call::{Search, ACCEPTED, COUNT, LIST, ROOM, SIZE, TREE};
use second::casefile::{fnv1a, line, read, write, Case};
use second::gen::small::small;
use second::gen::{large, tables};
use second::judge::judge;
use second::table::run;
use std::collections::BTreeSet;

#[test]
fn cases_come_back_as_written() {
    let calls: Vec<_> = (0..500).map(|number| Case::Search(small(5, number).0)).collect();
    common::come_back(&calls);
}

#[test]
fn the_bytes_of_a_case() {
    let mut call = common::lawful(Search::Elca, &[0, 0], &[1, 0], &[&[1]], &[]);
    call.work.truncate(6);
    let mut file = Vec::new();
    write(&mut file, &Case::Search(call)).unwrap();
    let expected: Vec<u32> = vec![
        0x5351_4C43,
        1,
        1,
        0, // magic, search, p, q
        2,
        2,
        1,
        1,
        2,
        6,
        2,
        2, // lengths
        0,
        0, // parents
        1,
        0, // tags
        1, // ends
        1, // occurrences
        1,
        1, // counts
        7,
        7,
        7,
        7,
        7,
        7, // work
        7,
        7, // out
        7,
        7, // own
    ];
    let expected: Vec<u8> = expected.iter().flat_map(|number| number.to_le_bytes()).collect();
    assert_eq!(file, expected);
    assert_eq!(file[..4], *b"CLQS");
}

#[test]
fn broken_files_are_told() {
    let mut file = Vec::new();
    write(&mut file, &Case::Search(small(6, 0).0)).unwrap();
    for length in 1..file.len() {
        assert!(read(&mut &file[..length]).is_err());
    }
    let mut wrong = file.clone();
    wrong[0] ^= 1;
    assert!(read(&mut wrong.as_slice()).is_err());
    let mut wrong = file.clone();
    wrong[4] = 4;
    assert!(read(&mut wrong.as_slice()).is_err());
}

#[test]
fn the_line_of_a_case() {
    // Known values of 64-bit FNV-1a: of no bytes, and of the bytes "abcd".
    assert_eq!(fnv1a(&[]), 0xcbf2_9ce4_8422_2325);
    assert_eq!(fnv1a(&[0x6463_6261]), 0xfc17_9f83_ee07_24dd);
    let call = common::lawful(Search::Slca, &[0], &[1], &[&[0]], &[]);
    let after = judge(&call);
    assert_eq!(after.work, [0, 0, 0, 7, 7, 7]);
    assert_eq!(after.out, [0]);
    assert_eq!(
        line(12, call.search, &after),
        format!(
            "12 slca 0 0 1 6:{:016x} 1:{:016x} 1:{:016x}",
            fnv1a(&[0, 0, 0, 7, 7, 7]),
            fnv1a(&[0]),
            fnv1a(&[7])
        )
    );
}

#[test]
fn generators_repeat_themselves() {
    assert_eq!(small(7, 11), small(7, 11));
    assert_ne!(small(7, 11).0, small(8, 11).0);
    assert_eq!(tables::table_input(7, 11), tables::table_input(7, 11));
}

#[test]
fn the_large_set_meets_every_refusal() {
    let mut refusals = BTreeSet::new();
    let (mut numbers, mut asked, mut types_told) = (0, 0, 0);
    for number in 0..large::how_many() {
        let (call, damage) = large::large(1, number);
        numbers += 12 + call.parents.len() + call.tags.len() + call.ends.len() + call.occurrences.len();
        numbers += call.counts.len() + call.work.len() + call.out.len() + call.own.len();
        let reply = judge(&call).reply;
        println!(
            "{number} n {} {} p {} q {} {damage:?}: {reply:?}",
            call.n(),
            call.search.name(),
            call.p,
            call.q
        );
        refusals.insert(reply.refusal);
        let told = common::types_matter(&call);
        asked += usize::from(told.is_some());
        types_told += usize::from(told == Some(true));
        let too_large = call.n() > 65_536;
        assert_eq!(
            damage.is_none() && !too_large,
            [ACCEPTED, ROOM].contains(&reply.refusal)
        );
    }
    println!("{} bytes", numbers * 4);
    println!("{asked} accepted with NOT, of {types_told} 01's rule has another answer");
    assert_eq!(
        refusals,
        BTreeSet::from([ACCEPTED, SIZE, TREE, LIST, COUNT, ROOM])
    );
    assert!(numbers * 4 < 400_000_000);
    assert!(types_told >= 5);
}

#[test]
fn table_inputs_are_what_they_are_called() {
    let mut kinds = BTreeSet::new();
    let mut refusals = BTreeSet::new();
    let mut above_4096 = 0;
    for number in 0..2_000 {
        let (kind, input) = tables::table_input(9, number);
        kinds.insert(kind);
        let output = String::from_utf8(run(&input)).unwrap();
        above_4096 += usize::from(output.len() > 4_096);
        let lines: Vec<&str> = output.split("\r\n").collect();
        let valid = lines[lines.len() - 2];
        let refusal: u32 = valid.split(',').nth(1).unwrap().parse().unwrap();
        refusals.insert(refusal);
        match kind {
            "lawful"
            | "large answers"
            | "no last line end"
            | "256 nodes"
            | "256 nodes, no last line end"
            | "255 nodes"
            | "eight words" => assert_eq!(refusal, 0, "{kind}"),
            "refused" => assert!([0, 2, 4].contains(&refusal), "{kind} gave {refusal}"),
            "header only" => assert_eq!(refusal, 1),
            "16,384 bytes" | "16,384 bytes, no last line end" => assert_eq!(refusal, 4),
            "16,385 bytes"
            | "16,385 bytes, no last line end"
            | "16,385 bytes and a broken first line"
            | "far more bytes" => assert_eq!(valid, "input,6,0,"),
            "257 nodes" | "257 nodes, the last one garbage" | "256 nodes and an empty line" => {
                assert_eq!(valid, "input,6,258,")
            }
            "LF ends all lines" | "empty" | "CR LF only" | "byte-order mark" | "no positive word"
            | "no word" | "nine words" | "minus before plus" | "header missing" => {
                assert_eq!(valid, "input,6,1,", "{kind}")
            }
            "leading zero"
            | "six digits"
            | "quoted number"
            | "empty field"
            | "too few fields"
            | "too many fields"
            | "occurrence neither 0 nor 1"
            | "double last line end" => {
                assert_eq!(refusal, 6, "{kind}")
            }
            _ => (),
        }
    }
    assert_eq!(kinds.len(), tables::BROKEN.len() + 3);
    assert!(above_4096 >= 200, "{above_4096} outputs above 4,096 bytes");
    assert_eq!(refusals, BTreeSet::from([0, 1, 2, 4, 6]));
}
