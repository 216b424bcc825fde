//! The renderings of the word dictionary agree, and what it builds keeps the laws
//! that 02 names, on thousands of texts.

mod common;

use second::build::call::{Building, Built};
use second::build::fnv::{by_products, by_sums};
use second::build::judge::judge;
use second::build::query::size_broken;
use second::build::scan::scan;
use second::build::table::{self, by_free_slots, distinct, home, keeps_the_rule};
use second::build::words::{self, characters, literal, Mention};
use second::build::{lists, table as tables};
use second::call::{Call, Search, ACCEPTED, LIST, ROOM};
use second::check::check;
use second::gen::builds::small;
use second::gen::large_builds;
use second::gen::rng::Rng;
use second::gen::wordy::{short, wordy, Manner};
use second::xml::derive::derive;
use second::xml::node::{Node, Outcome, LIMITS};
use second::xml::seen;

fn nodes(text: &[u8]) -> Option<Vec<Node>> {
    match derive(text, LIMITS) {
        Outcome::Whole(nodes) => Some(nodes),
        _ => None,
    }
}

/// Compares by nodes and by bytes. None where the text is none of the profile,
/// else how many mentions there are.
fn compare(text: &[u8]) -> Option<usize> {
    let nodes = nodes(text)?;
    let by_bytes = scan(text);
    assert_eq!(by_bytes, literal(text, &nodes), "{}", text.escape_ascii());
    Some(by_bytes.len())
}

/// Every row of so many of the pieces within an element.
fn rows(pieces: &[&str], length: usize, row: &mut Vec<u8>, each: &mut impl FnMut(&[u8])) {
    if length == 0 {
        return each(&[b"<a-b>", row.as_slice(), b"</a-b>"].concat());
    }
    for piece in pieces {
        row.extend(piece.bytes());
        rows(pieces, length - 1, row, each);
        row.truncate(row.len() - piece.len());
    }
}

#[test]
fn every_short_row_of_pieces() {
    let pieces = [
        "x", "Y0", " ", "-", "<!--c-->", "<!---->", "&lt;", "<b/>", "<_c.d>", "</_c.d>", "]", "\n",
    ];
    let (mut whole, mut mentions) = (0, 0);
    for length in 0..=4 {
        rows(&pieces, length, &mut vec![], &mut |text| {
            if let Some(found) = compare(text) {
                whole += 1;
                mentions += found;
            }
        });
    }
    println!("{whole} texts, {mentions} mentions");
    assert!(whole >= 10_000 && mentions >= 30_000);
}

#[test]
fn by_nodes_and_by_bytes() {
    let (mut whole, mut beyond) = (0, 0);
    for number in 0..10_000 {
        let text = small(2, number).building.text;
        whole += usize::from(compare(&text).is_some());
        // Large enough that the judge alone would not compare the two.
        beyond += usize::from(text.len() > words::LITERAL_UP_TO);
    }
    println!("{whole} texts, {beyond} beyond the judge's own comparison");
    assert!(whole >= 8_000 && beyond >= 300);
}

/// The characters that words are looked for in are those that a parser of XML
/// sees, but for the line ends, which stay as they stand.
#[test]
fn the_characters_are_those_of_a_parser() {
    let in_lines = |row: Vec<u8>| -> Vec<u8> {
        let is_end = |byte: &u8| b"\r\n".contains(byte);
        row.into_iter().filter(|byte| !is_end(byte)).collect()
    };
    let mut data = 0;
    for number in 0..3_000 {
        let text = small(4, number).building.text;
        for node in nodes(&text).unwrap_or_default() {
            if node.name.is_none() {
                let row = characters(&text, &node).iter().map(|&(_, byte)| byte).collect();
                assert_eq!(in_lines(row), in_lines(seen::characters(&text, &node)));
                data += 1;
            }
        }
    }
    assert!(data >= 5_000, "{data} nodes of data");
}

#[test]
fn hashes_by_products_and_by_sums() {
    for number in 0..3_000 {
        let rng = &mut Rng::new(1, number);
        let length = rng.range(0, 300);
        let bytes: Vec<u8> = (0..length).map(|_| rng.draw() as u8).collect();
        assert_eq!(by_products(&bytes), by_sums(&bytes));
    }
}

/// Mentions of words, one after the other, of which some stand twice.
fn mentioned(words: &[Vec<u8>]) -> Vec<Mention> {
    words
        .iter()
        .enumerate()
        .map(|(place, word)| Mention {
            node: place / 3,
            place,
            word: word.clone(),
        })
        .collect()
}

#[test]
fn tables_in_every_way() {
    let (mut full, mut outnumbered, mut wrapped) = (0, 0, 0);
    for number in 0..5_000 {
        let rng = &mut Rng::new(2, number);
        let how_many = rng.range(0, 40);
        let words: Vec<Vec<u8>> = (0..how_many).map(|_| short(rng, 1, 2)).collect();
        let mentions = mentioned(&words);
        let few = distinct(&mentions).len();
        let slots = rng.pick(&[few, few, few + 1, few + 7, few.saturating_sub(1), 2 * few, 300]);
        let table = by_free_slots(slots, &mentions);
        assert_eq!(table, table::literal(slots, &mentions));
        assert_eq!(table, tables::table(slots, &mentions));
        assert_eq!(table.is_none(), few > slots);
        outnumbered += usize::from(table.is_none());
        if let Some(table) = table {
            assert!(keeps_the_rule(&table, &mentions));
            full += usize::from(slots > 0 && slots == few);
            let around = |mention: &&Mention| {
                let at = |&number: &u32| number as usize == mention.place + 1;
                home(&mention.word, slots) > table.iter().position(at).unwrap()
            };
            wrapped += usize::from(distinct(&mentions).iter().any(around));
        }
    }
    println!("{full} full, {outnumbered} outnumbered, {wrapped} that go on from slot 0");
    assert!(full >= 1_000 && outnumbered >= 400 && wrapped >= 500);
}

/// Calls with every row of so many numbers below a bound.
fn every(length: usize, bound: u32, row: &mut Vec<u32>, each: &mut impl FnMut(&[u32])) {
    if length == 0 {
        return each(row);
    }
    for number in 0..bound {
        row.push(number);
        every(length - 1, bound, row, each);
        row.pop();
    }
}

#[test]
fn the_rule_leaves_one_table() {
    for number in 0..40 {
        let rng = &mut Rng::new(3, number);
        let how_many = rng.range(0, 4);
        let words: Vec<Vec<u8>> = (0..how_many).map(|_| short(rng, 1, 2)).collect();
        let mentions = mentioned(&words);
        let slots = rng.range(distinct(&mentions).len(), 5);
        let mut kept = vec![];
        every(slots, how_many as u32 + 2, &mut vec![], &mut |table| {
            if keeps_the_rule(table, &mentions) {
                kept.push(table.to_vec());
            }
        });
        assert_eq!(
            Some(kept),
            by_free_slots(slots, &mentions).map(|table| vec![table])
        );
    }
}

#[test]
fn lists_by_nodes_and_by_mentions() {
    let mut beyond = 0;
    for number in 0..400 {
        let rng = &mut Rng::new(5, number);
        let text = wordy(rng, Manner::Dense).text;
        // What may stand around a root may stand within one.
        let text = [b"<r>".to_vec(), text.repeat(10), b"</r>".to_vec()].concat();
        let n = nodes(&text).expect("a text of the profile").len();
        beyond += usize::from(n > second::both::LITERAL_UP_TO);
        let mentions = scan(&text);
        for mention in mentions.iter().step_by(3) {
            let word = &mention.word;
            assert_eq!(
                lists::by_mentions(&mentions, word),
                lists::literal(n, &mentions, word)
            );
        }
    }
    println!("{beyond} texts beyond the judge's own comparison");
    assert!(beyond >= 50);
}

/// SIZE by the ends, and not word by word.
fn size_by_ends(call: &Building) -> bool {
    let ends = &call.word_ends;
    let rise = ends.windows(2).all(|pair| pair[0] < pair[1]) && ends.first() > Some(&0);
    call.text.len() > 16_777_216
        || ends.is_empty()
        || ends.len() > 8
        || !rise
        || ends.last() != Some(&(call.words.len() as u32))
        || !call.words.iter().all(|byte| byte.is_ascii_alphanumeric())
}

#[test]
fn size_word_by_word_and_by_ends() {
    for number in 0..10_000 {
        let call = small(6, number).building;
        assert_eq!(size_broken(&call), size_by_ends(&call), "case {number}");
    }
    let mut call = small(6, 0).building;
    for words in [&b""[..], b"a", b"a-b", b"abc", b"ab c"] {
        call.words = words.to_vec();
        for length in 0..=4 {
            every(length, 6, &mut vec![], &mut |ends| {
                call.word_ends = ends.to_vec();
                assert_eq!(size_broken(&call), size_by_ends(&call), "{words:?} {ends:?}");
            });
        }
    }
}

/// The index check on what is built, with p positive words.
fn checked(after: &Built, k: usize, p: usize) -> Result<(), u32> {
    let n = after.reply.total as usize;
    let occurrences = after.ends[k - 1] as usize;
    let call = Call {
        search: Search::Check,
        p: p as u32,
        q: (k - p) as u32,
        parents: after.parents[..n].to_vec(),
        tags: after.tags[..n].to_vec(),
        ends: after.ends[..k].to_vec(),
        occurrences: after.occurrences[..occurrences].to_vec(),
        counts: after.counts[..k * n].to_vec(),
        work: vec![7; (k + 2) * n],
        out: vec![],
        own: vec![],
    };
    check(&call).map(|_| ()).map_err(|reply| reply.refusal)
}

#[test]
fn what_is_built_is_accepted_by_the_index_check() {
    let mut accepted = 0;
    for number in 0..6_000 {
        let call = small(7, number).building;
        let mut after = judge(&call);
        if after.reply.refusal == ACCEPTED {
            accepted += 1;
            for p in 1..=call.k() {
                assert_eq!(checked(&after, call.k(), p), Ok(()), "case {number}");
            }
            // The check is one that can refuse.
            let first = after.occurrences.first().copied();
            if let (Some(_), true) = (first, after.ends[0] > 0) {
                after.occurrences[0] = after.reply.total;
                assert_eq!(checked(&after, call.k(), 1), Err(LIST));
            }
        }
    }
    println!("{accepted} accepted");
    assert!(accepted >= 2_000);
    for number in 0..large_builds::how_many() {
        let (call, kind) = large_builds::large(3, number);
        let after = judge(&call);
        if after.reply.refusal == ACCEPTED {
            for p in [1, call.k()] {
                assert_eq!(checked(&after, call.k(), p), Ok(()), "{kind:?}");
            }
        }
    }
}

/// With room for everything: twice the slots, and long slices.
fn roomy(text: &[u8], words: &[u8], word_ends: &[u32]) -> Building {
    let n = nodes(text).map_or(0, |nodes| nodes.len());
    let row = vec![7; n];
    Building {
        text: text.to_vec(),
        words: words.to_vec(),
        word_ends: word_ends.to_vec(),
        slots: vec![7; 2 * distinct(&scan(text)).len()],
        parents: row.clone(),
        tags: row.clone(),
        firsts: row.clone(),
        lasts: row,
        ends: vec![7; 8],
        occurrences: vec![7; 8 * n],
        counts: vec![7; 8 * n],
        work: vec![7; 3 * n],
    }
}

/// The accepted and the roomless of some small cases, with room for everything.
fn undamaged(seed: u64, how_many: usize) -> impl Iterator<Item = Building> {
    (0..)
        .map(move |number| small(seed, number).building)
        .filter(|call| [ACCEPTED, ROOM].contains(&judge(call).reply.refusal))
        .map(|call| roomy(&call.text, &call.words, &call.word_ends))
        .take(how_many)
}

#[test]
fn every_word_is_found_from_its_home() {
    for call in undamaged(8, 2_000) {
        let after = judge(&call);
        let mentions = scan(&call.text);
        let words = distinct(&mentions);
        let slots = after.slots.len();
        let taken = after.slots.iter().filter(|&&number| number > 0).count();
        assert_eq!(taken, words.len());
        for word in words {
            let way = (0..slots).map(|step| after.slots[(home(&word.word, slots) + step) % slots]);
            let mut before_free = way.take_while(|&number| number > 0);
            assert!(before_free.any(|number| number as usize == word.place + 1));
        }
    }
}

#[test]
fn the_count_at_the_root_is_the_length_of_the_list() {
    for call in undamaged(9, 2_000) {
        let after = judge(&call);
        let n = after.reply.total as usize;
        let mut start = 0;
        for j in 0..call.k() {
            assert_eq!(after.counts[j * n], after.ends[j] - start);
            start = after.ends[j];
        }
    }
}

/// What does not depend on places: the slots that are taken, the tree, the lists
/// and the counts.
fn placeless(after: &Built) -> impl PartialEq + std::fmt::Debug {
    let taken: Vec<bool> = after.slots.iter().map(|&number| number > 0).collect();
    let Built {
        parents,
        tags,
        ends,
        occurrences,
        counts,
        ..
    } = after.clone();
    (after.reply, taken, parents, tags, ends, occurrences, counts)
}

fn without_comments(text: &[u8]) -> Vec<u8> {
    let mut left = vec![];
    let mut rest = text;
    while let Some(&byte) = rest.first() {
        let length = match rest.starts_with(b"<!--") {
            true => rest[4..].windows(3).position(|end| end == b"-->").unwrap() + 7,
            false => 1,
        };
        if length == 1 {
            left.push(byte);
        }
        rest = &rest[length..];
    }
    left
}

/// Comments dropped, all references the same, and the query in the other case:
/// the same words at the same nodes.
#[test]
fn what_makes_no_difference() {
    let (mut comments, mut references) = (0, 0);
    for call in undamaged(10, 3_000) {
        let after = placeless(&judge(&call));
        let plain = without_comments(&call.text);
        comments += usize::from(plain != call.text);
        // A comment may part brackets from what would close them.
        if nodes(&plain).is_some() {
            assert_eq!(
                placeless(&judge(&roomy(&plain, &call.words, &call.word_ends))),
                after
            );
        }
        let text = String::from_utf8(call.text.clone()).unwrap();
        let mut other = text.clone();
        for reference in ["&gt;", "&amp;", "&apos;", "&quot;"] {
            other = other.replace(reference, "&lt;");
        }
        references += usize::from(other != text);
        let other = roomy(other.as_bytes(), &call.words, &call.word_ends);
        assert_eq!(placeless(&judge(&other)), after);
        for words in [call.words.to_ascii_lowercase(), call.words.to_ascii_uppercase()] {
            let asked = Building {
                words,
                ..call.clone()
            };
            assert_eq!(judge(&asked), judge(&call));
        }
    }
    println!("{comments} texts with comments, {references} with references");
    assert!(comments >= 1_000 && references >= 500);
}
