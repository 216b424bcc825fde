//! The reader's case files, and what its generated texts meet.

mod common;

use common::come_back;
use second::call::{refusal_name, ACCEPTED, MARKUP, ROOM, SIZE, TREE};
use second::casefile::{expected, fnv1a, fnv1a_bytes, read, seen_lines, write, Case};
use second::gen::reading::small;
use second::gen::spoil::Spoil;
use second::gen::texts::Manner;
use second::gen::{large_texts, near};
use second::xml::call::Reading;
use second::xml::chars::REFERENCES;
use second::xml::judge::judge;
use second::xml::read::LITERAL_UP_TO;
use std::collections::BTreeMap;

#[test]
fn readings_come_back_as_written() {
    let calls: Vec<_> = (0..500).map(|number| Case::Reading(small(5, number).0)).collect();
    assert_eq!(come_back(&calls).len() % 4, 0);
}

fn tiny() -> Case {
    Case::Reading(Reading {
        text: b"<a>&lt;</a>\n ".to_vec(),
        parents: vec![7, 7],
        tags: vec![7, 7, 7],
        firsts: vec![7, 7],
        lasts: vec![7, 7],
        work: vec![7; 7],
    })
}

#[test]
fn the_bytes_of_a_reading() {
    let mut file = Vec::new();
    write(&mut file, &tiny()).unwrap();
    let numbers = |numbers: &[u32]| -> Vec<u8> { numbers.iter().flat_map(|n| n.to_le_bytes()).collect() };
    let wanted = [
        numbers(&[0x5351_4C52, 13, 2, 3, 2, 2, 7]),
        b"<a>&lt;</a>\n \0\0\0".to_vec(),
        numbers(&[7; 16]),
    ];
    assert_eq!(file, wanted.concat());
    assert_eq!(file[..4], *b"RLQS");
    for length in 1..file.len() {
        assert!(read(&mut &file[..length]).is_err());
    }
    file[0] = b'X';
    assert!(read(&mut file.as_slice()).is_err());
}

#[test]
fn the_line_of_a_reading() {
    let hash = fnv1a;
    assert_eq!(
        expected(12, &tiny()),
        format!(
            "12 read 0 0 2 2:{:016x} 3:{:016x} 2:{:016x} 2:{:016x} 7:{:016x}",
            hash(&[0, 0]),
            hash(&[1, 0, 7]),
            hash(&[0, 3]),
            hash(&[10, 6]),
            hash(&[0, 0, 0, 0, 0, 0, 7])
        )
    );
}

#[test]
fn what_a_parser_must_see() {
    let hash = fnv1a_bytes;
    let lines = |text: &[u8]| seen_lines(3, text);
    let data = |text: &str, last: usize, characters: &[u8]| {
        let wanted = format!(
            "3 whole 2\n0 0 0 {} element 1:{:016x}\n1 0 3 {last} data {}:{:016x}\n",
            text.len() - 1,
            hash(b"a"),
            characters.len(),
            hash(characters)
        );
        assert_eq!(lines(text.as_bytes()), Some(wanted), "{text}");
    };
    data("<a>x</a>", 3, b"x");
    data("<a>&lt;&amp;<!--c-->&quot;</a>", 25, b"<&\"");
    data("<a>\r\nx\r\r\n<!--c-->\n</a>", 17, b"\nx\n\n\n");
    data("<a>&gt;<!-- > - -->'</a>", 19, b">'");
    // No XML either.
    for text in [
        "",
        "<a",
        "<a></b>",
        "<a>]]></a>",
        "<a/><b/>",
        "<a>&nbsp;</a>",
        "x<a/>",
        "<a></a b>",
        "<a/>&lt;",
        "<a>\u{1}</a>",
    ] {
        assert_eq!(lines(text.as_bytes()), Some("3 broken\n".to_string()), "{text}");
    }
    // Left out by the profile, or beyond its limits.
    for text in [
        "<?x?><a/>",
        "<a><?x?></a>",
        "<!DOCTYPE a><a/>",
        "<a><![CDATA[x]]></a>",
        "<a>&#65;</a>",
        "<a b=''/>",
        "<a b",
        "<\u{e9}/>",
        "\u{feff}<a/>",
        "<a>\0",
    ] {
        assert_eq!(lines(text.as_bytes()), None, "{text}");
    }
    assert_eq!(lines("<a>".repeat(65).as_bytes()), None);
}

#[test]
fn generators_repeat_themselves() {
    assert_eq!(small(7, 11), small(7, 11));
    assert_ne!(small(7, 11).0, small(8, 11).0);
    assert_eq!(large_texts::large(7, 20), large_texts::large(7, 20));
}

#[test]
fn every_small_reading_can_be_made() {
    for seed in 100..120 {
        for number in 0..3_000 {
            small(seed, number);
        }
    }
}

/// What a text shows of the productions, by name.
fn shown(text: &[u8], add: &mut impl FnMut(&'static str)) {
    let found = |piece: &[u8]| text.windows(piece.len()).any(|window| window == piece);
    let white = |byte: u8| b" \t\r\n".contains(&byte);
    // Which tag or comment stands first and last.
    let first = text.iter().position(|&byte| byte == b'<');
    let roots: Vec<usize> = (0..text.len().saturating_sub(1))
        .filter(|&i| text[i] == b'<' && text[i + 1] != b'!')
        .collect();
    if text.first().map_or(false, |&byte| white(byte)) {
        add("white space before the root");
    }
    if text.last().map_or(false, |&byte| white(byte)) {
        add("white space after the root");
    }
    if first != roots.first().copied() {
        add("a comment before the root");
    }
    if text.ends_with(b"-->") {
        add("a comment after the root");
    }
    for &start in &roots {
        let tag = text[start..].split(|&byte| byte == b'>').next().unwrap();
        match (
            tag.starts_with(b"</"),
            tag.ends_with(b"/"),
            tag.iter().any(|&byte| white(byte)),
        ) {
            (true, _, false) => add("an end tag"),
            (true, _, true) => add("an end tag with white space"),
            (_, true, false) => add("an empty-element tag"),
            (_, true, true) => add("an empty-element tag with white space"),
            (_, _, false) => add("a start tag"),
            (_, _, true) => add("a start tag with white space"),
        }
        for byte in tag.iter().skip(2) {
            match byte {
                b'-' | b'.' => add("- or . in a name"),
                b'0'..=b'9' => add("a digit in a name"),
                b':' | b'_' => add(": or _ in a name"),
                _ => (),
            }
        }
    }
    let names = ["&amp;", "&lt;", "&gt;", "&apos;", "&quot;"];
    for (reference, name) in REFERENCES.iter().zip(names) {
        if found(reference) {
            add(name);
        }
    }
    let pieces: [(&[u8], &'static str); 14] = [
        (b"<!---->", "an empty comment"),
        (b"<!--->", "a comment that begins with ->"),
        (b"<!-->", "a comment that begins with >"),
        (b" - ", "a lone dash"),
        (b"\x7f", "the byte 127"),
        (b"\t", "a tab"),
        (b"\r", "CR"),
        (b"\r\n", "CR LF"),
        (b"]]", "]]"),
        (b"]]&", "]] and a reference"),
        (b"]]<!--", "]] and a comment"),
        (b"-->>", "> after a comment"),
        (b";>", "> after a reference"),
        (b"><!--", "a comment after a tag or a comment"),
    ];
    for (piece, name) in pieces {
        if found(piece) {
            add(name);
        }
    }
}

/// A count for each thing met.
type Counts = BTreeMap<String, usize>;

fn count(counts: &mut Counts, what: impl ToString) {
    *counts.entry(what.to_string()).or_insert(0) += 1;
}

fn hold(counts: &Counts, enough: usize) {
    for (what, times) in counts {
        println!("{what}: {times}");
        assert!(*times >= enough, "{what}: {times} times only");
    }
}

#[test]
fn small_readings_are_worth_running() {
    let how_many = 10_000;
    let (mut replies, mut manners, mut spoils, mut productions) =
        (Counts::new(), Counts::new(), Counts::new(), Counts::new());
    let mut accepted_manners = Counts::new();
    let (mut undamaged, mut tiny, mut short, mut within) = (0, 0, 0, 0);
    let mut accepted_though_spoilt = 0;
    for number in 0..how_many {
        let (call, manner, kinds) = small(1, number as u64);
        let reply = judge(&call).reply;
        count(&mut replies, refusal_name(reply.refusal));
        count(&mut manners, format!("{manner:?}"));
        kinds
            .iter()
            .for_each(|kind| count(&mut spoils, format!("{kind:?}")));
        undamaged += usize::from(kinds.is_empty());
        tiny += usize::from(call.text.len() <= LITERAL_UP_TO);
        let whole = [ACCEPTED, ROOM].contains(&reply.refusal);
        if reply.refusal == MARKUP {
            if reply.place as usize == call.text.len() {
                short += 1;
            } else {
                within += 1;
            }
        }
        accepted_though_spoilt += usize::from(whole && !kinds.is_empty());
        if whole {
            count(&mut accepted_manners, format!("{manner:?}"));
            let mut seen = vec![];
            shown(&call.text, &mut |what| seen.push(what));
            seen.sort_unstable();
            seen.dedup();
            seen.iter().for_each(|what| count(&mut productions, what));
        }
        // Undamaged texts are of the profile, but for those that may be anything.
        if kinds.is_empty() && ![Manner::Tiny, Manner::Brink, Manner::Deep].contains(&manner) {
            assert!(whole, "{number}");
        }
        if kinds.is_empty() && manner == Manner::Deep {
            assert!(whole || reply.refusal == TREE, "{number}");
        }
    }
    println!("undamaged {undamaged}, held against the literal rendering {tiny}");
    println!("MARKUP at the length {short}, before {within}; whole though spoilt {accepted_though_spoilt}");
    assert!((4_000..=6_000).contains(&undamaged));
    assert!(tiny >= 1_000 && short >= 300 && within >= 3_000 && accepted_though_spoilt >= 300);
    assert_eq!(replies.len(), 4, "{replies:?}");
    hold(&replies, 300);
    assert_eq!(manners.len(), Manner::ALL.len());
    hold(&manners, 300);
    hold(&accepted_manners, 15);
    assert_eq!(spoils.len(), Spoil::ALL.len());
    hold(&spoils, 150);
    assert_eq!(productions.len(), 32, "{productions:?}");
    hold(&productions, 50);
}

/// The shares of the places at which MARKUP comes: what stands before and at it.
#[test]
fn markup_comes_everywhere() {
    let mut places = Counts::new();
    for number in 0..10_000 {
        let (call, ..) = small(2, number);
        let reply = judge(&call).reply;
        if reply.refusal != MARKUP {
            continue;
        }
        let (before, rest) = call.text.split_at(reply.place as usize);
        let byte = match rest.first() {
            None => "the end",
            Some(0x80..=0xFF) => "a byte above 127",
            Some(0..=8 | 11 | 12 | 14..=31) => "a control byte",
            Some(b'<') => "<",
            Some(b'>') => ">",
            Some(b'&') => "&",
            Some(b'/') => "/",
            Some(b' ' | b'\t' | b'\r' | b'\n') => "white space",
            Some(_) => "another byte",
        };
        count(&mut places, format!("at {byte}"));
        for (end, name) in [
            ("<", "after <"),
            ("</", "after </"),
            ("<!", "after <!"),
            ("<!-", "after <!-"),
            ("--", "after two dashes"),
            ("]]", "after ]]"),
            ("&", "after &"),
            ("/", "after /"),
            (">", "after >"),
            ("&am", "within a reference"),
        ] {
            if before.ends_with(end.as_bytes()) {
                count(&mut places, name);
            }
        }
        if before.is_empty() {
            count(&mut places, "at the first byte");
        }
    }
    assert_eq!(places.len(), 20, "{places:?}");
    hold(&places, 10);
}

#[test]
fn near_texts_meet_accepted_and_markup() {
    let mut replies = Counts::new();
    let mut literal = 0;
    for text in near::texts() {
        literal += usize::from(text.len() <= LITERAL_UP_TO);
        let call = Reading {
            text,
            parents: vec![7; 9],
            tags: vec![7; 9],
            firsts: vec![7; 9],
            lasts: vec![7; 9],
            work: vec![7; 27],
        };
        count(&mut replies, refusal_name(judge(&call).reply.refusal));
    }
    println!("{replies:?}, {literal} held against the literal rendering");
    assert_eq!(replies.len(), 2);
    assert!(literal >= 30_000);
    hold(&replies, 3_000);
}

#[test]
fn the_large_readings_meet_every_reply() {
    let mut replies = BTreeMap::new();
    let mut bytes = 0;
    for number in 0..large_texts::how_many() {
        let (call, kind) = large_texts::large(1, number);
        let reply = judge(&call).reply;
        println!("{number} {kind:?} {} bytes: {reply:?}", call.text.len());
        bytes += call.text.len() + 4 * (4 * call.parents.len() + call.work.len());
        *replies.entry(reply.refusal).or_insert(0) += 1;
    }
    println!("{bytes} bytes, {replies:?}");
    assert!(bytes < 400_000_000);
    assert_eq!(
        replies.keys().copied().collect::<Vec<u32>>(),
        [ACCEPTED, SIZE, TREE, ROOM, MARKUP]
    );
    assert!(replies[&ACCEPTED] >= 20 && replies[&TREE] >= 8 && replies[&MARKUP] >= 10);
}
