//! The case files of the word dictionary, and what the generated cases meet.

mod common;

use common::{add, come_back, hold, room, Tally};
use second::build::call::{Building, ROWS, ROW_NAMES};
use second::build::fnv::fnv1a;
use second::build::judge::judge;
use second::build::lists::by_mentions;
use second::build::query::{query, size_broken};
use second::build::scan::scan;
use second::build::table::{distinct, home};
use second::build::words::Mention;
use second::call::{refusal_name, ACCEPTED, MARKUP, ROOM, SIZE, TREE};
use second::casefile::{expected, fnv1a as hash, read, write, Case};
use second::gen::builds::{known, small, Asked};
use second::gen::large_builds;
use second::show::show;
use second::xml::chars::REFERENCES;
use second::xml::derive::derive;
use second::xml::node::{Node, Outcome, LIMITS};
use std::collections::{BTreeMap, BTreeSet};

#[test]
fn cases_come_back_as_written() {
    let cases: Vec<_> = (0..500)
        .map(|number| Case::Building(small(5, number).building))
        .collect();
    assert_eq!(come_back(&cases).len() % 4, 0);
}

/// A text of 13 bytes, two words of 5, two nodes and three distinct words.
fn tiny() -> Building {
    Building {
        text: b"<a>b C&lt;</a".iter().chain(b">").copied().collect(),
        words: b"Bxyz9".to_vec(),
        word_ends: vec![1, 5],
        slots: vec![20, 21, 22, 23],
        parents: vec![30, 31],
        tags: vec![32, 33],
        firsts: vec![34, 35],
        lasts: vec![36, 37, 38],
        ends: vec![40, 41, 42],
        occurrences: vec![43, 44],
        counts: vec![50, 51, 52, 53, 54],
        work: vec![60, 61, 62, 63, 64, 65, 66],
    }
}

#[test]
fn the_bytes_of_a_case() {
    let mut file = Vec::new();
    write(&mut file, &Case::Building(tiny())).unwrap();
    let numbers = |numbers: &[u32]| -> Vec<u8> { numbers.iter().flat_map(|n| n.to_le_bytes()).collect() };
    let wanted = [
        numbers(&[0x5351_4C42, 14, 5, 2, 4, 2, 2, 2, 3, 3, 2, 5, 7]),
        b"<a>b C&lt;</a>\0\0".to_vec(),
        b"Bxyz9\0\0\0".to_vec(),
        numbers(&[1, 5]),
        numbers(&[20, 21, 22, 23]),
        numbers(&[30, 31, 32, 33, 34, 35, 36, 37, 38]),
        numbers(&[40, 41, 42, 43, 44]),
        numbers(&[50, 51, 52, 53, 54]),
        numbers(&[60, 61, 62, 63, 64, 65, 66]),
    ];
    assert_eq!(file, wanted.concat());
    assert_eq!(file[..4], *b"BLQS");
    for length in 1..file.len() {
        assert!(read(&mut &file[..length]).is_err());
    }
}

#[test]
fn the_line_of_a_case() {
    let part = |numbers: &[u32]| format!("{}:{:016x}", numbers.len(), hash(numbers));
    let line = |reply: &str, slices: &[&[u32]]| {
        let parts: Vec<String> = slices.iter().map(|slice| part(slice)).collect();
        format!("3 build {reply} {}", parts.join(" "))
    };
    // Of 4 slots, a has home 0, b 1, c 2.
    let built: [&[u32]; 9] = [
        &[2, 4, 6, 0],
        &[0, 0],
        &[1, 0],
        &[0, 3],
        &[13, 9, 38],
        &[1, 1, 42],
        &[1, 44],
        &[1, 1, 0, 0, 54],
        &[0, 0, 0, 0, 0, 0, 66],
    ];
    assert_eq!(expected(3, &Case::Building(tiny())), line("0 0 2", &built));
    let lent: [&[u32]; 8] = [
        &[30, 31],
        &[32, 33],
        &[34, 35],
        &[36, 37, 38],
        &[40, 41, 42],
        &[43, 44],
        &[50, 51, 52, 53, 54],
        &[60, 61, 62, 63, 64, 65, 66],
    ];
    let with = |slots: &[u32], reply: &str| {
        let slices: Vec<&[u32]> = [slots].into_iter().chain(lent).collect();
        line(reply, &slices)
    };
    let mut short = tiny();
    short.slots.truncate(2);
    assert_eq!(expected(3, &Case::Building(short)), with(&[0, 0], "5 0 0"));
    let mut broken = tiny();
    broken.text.pop();
    let slots = [20, 21, 22, 23];
    assert_eq!(expected(3, &Case::Building(broken)), with(&slots, "7 13 0"));
    let mut wrong = tiny();
    wrong.word_ends.pop();
    let slots = [20, 21, 22, 23];
    assert_eq!(expected(3, &Case::Building(wrong)), with(&slots, "1 0 0"));
}

#[test]
fn a_case_in_readable_form() {
    let text = show(&Case::Building(tiny()));
    for row in [
        "build  text 14 bytes  k 2\n",
        "        0 <a>b C&lt;</a>\n",
        "words (5): Bxyz9\n",
        "word ends (2): 1,5\n",
        "  word 1: xyz9\n",
        "reply: refusal 0 (accepted)  place 0  total 2\n",
        "slots after (4): 2,4,6,0\n",
        "  slot 2: place 5, c\n",
        "occurrences after (2): 1,44\n",
        "counts after (5): 1,1,0,0,54\n",
    ] {
        assert!(text.contains(row), "{row:?} is not in {text:?}");
    }
}

#[test]
fn generators_repeat_themselves() {
    assert_eq!(small(7, 11), small(7, 11));
    assert_ne!(small(7, 11), small(8, 11));
    assert_eq!(large_builds::large(7, 8), large_builds::large(7, 8));
}

#[test]
fn every_small_case_can_be_made() {
    for seed in 100..120 {
        for number in 0..3_000 {
            small(seed, number);
        }
    }
}

type Traits = Vec<(&'static str, bool)>;

/// A text of the profile, looked at for its words.
struct Look<'a> {
    text: &'a [u8],
    nodes: Vec<Node>,
    mentions: Vec<Mention>,
}

impl Look<'_> {
    /// A mention as it stands, from its first letter to its last.
    fn as_it_stands(&self, mention: &Mention) -> &[u8] {
        let mut left = mention.word.len();
        let mut at = mention.place;
        loop {
            if self.text[at..].starts_with(b"<!--") {
                at += self.text[at + 4..]
                    .windows(3)
                    .position(|end| end == b"-->")
                    .unwrap()
                    + 7;
            } else {
                (left, at) = (left - 1, at + 1);
                if left == 0 {
                    return &self.text[mention.place..at];
                }
            }
        }
    }

    fn mention(&self, rule: impl Fn(&Mention) -> bool) -> bool {
        self.mentions.iter().any(rule)
    }

    fn name(&self, rule: impl Fn(&[u8]) -> bool) -> bool {
        let names = self.nodes.iter().filter_map(|node| node.name.clone());
        names.map(|name| &self.text[name]).any(rule)
    }

    fn is_name(&self, mention: &Mention) -> bool {
        self.nodes[mention.node].name.is_some()
    }

    fn text_traits(&self) -> Traits {
        let has = |part: &[u8], piece: &[u8]| part.windows(piece.len()).any(|window| window == piece);
        let letter = |byte: u8| byte.is_ascii_alphanumeric();
        let between = |joint: u8| {
            move |name: &[u8]| {
                name.windows(3)
                    .any(|three| letter(three[0]) && three[1] == joint && letter(three[2]))
            }
        };
        let spelled = |mention: &Mention| self.as_it_stands(mention);
        let comments = |mention: &Mention| spelled(mention).windows(4).filter(|w| *w == b"<!--").count();
        vec![
            ("a comment in a word", self.mention(|m| comments(m) > 0)),
            (
                "comments in a row in a word",
                self.mention(|m| has(spelled(m), b"--><!--")),
            ),
            ("three comments in a word", self.mention(|m| comments(m) >= 3)),
            (
                "a reference between two words",
                self.mention(|m| {
                    let behind = m.place + spelled(m).len();
                    let next = |o: &Mention| {
                        let between = self.text.get(behind..o.place).unwrap_or(&[]);
                        REFERENCES.contains(&between)
                    };
                    self.mention(next)
                }),
            ),
            (
                "capitals",
                self.mention(|m| self.text[m.place].is_ascii_uppercase()),
            ),
            (
                "a word in two cases",
                self.mention(|m| {
                    let other = |o: &Mention| o.word == m.word && spelled(o) != spelled(m);
                    self.mention(other) && comments(m) == 0
                }),
            ),
            (
                "letters and digits in a word",
                self.mention(|m| {
                    let digits = m.word.iter().filter(|byte| byte.is_ascii_digit()).count();
                    digits > 0 && digits < m.word.len()
                }),
            ),
            (
                "a word of digits",
                self.mention(|m| m.word.iter().all(u8::is_ascii_digit)),
            ),
            ("a name with - between letters", self.name(between(b'-'))),
            ("a name with . between letters", self.name(between(b'.'))),
            ("a name with : between letters", self.name(between(b':'))),
            ("a name with _ between letters", self.name(between(b'_'))),
            (
                "a name that begins with _ or :",
                self.name(|name| b"_:".contains(&name[0])),
            ),
            (
                "a name without a word",
                self.name(|name| !name.iter().any(|&byte| letter(byte))),
            ),
            ("no word at all", self.mentions.is_empty()),
            (
                "data without a word",
                (0..self.nodes.len()).any(|v| self.nodes[v].name.is_none() && !self.mention(|m| m.node == v)),
            ),
            (
                "a word in a name and in data",
                self.mention(|m| self.is_name(m) && self.mention(|o| !self.is_name(o) && o.word == m.word)),
            ),
            (
                "a word twice in a node",
                self.mention(|m| self.mention(|o| o.node == m.node && o.place > m.place && o.word == m.word)),
            ),
            ("64 levels", self.nodes.iter().any(|node| node.level == 64)),
        ]
    }

    fn hash_traits(&self) -> Traits {
        let mut by_hash: BTreeMap<u32, BTreeSet<&[u8]>> = BTreeMap::new();
        for mention in &self.mentions {
            by_hash
                .entry(fnv1a(&mention.word))
                .or_default()
                .insert(&mention.word);
        }
        let clashes: Vec<_> = by_hash.into_values().filter(|words| words.len() > 1).collect();
        let begins = |words: &BTreeSet<&[u8]>| {
            let mut words = words.iter();
            let first = words.next().unwrap();
            words.any(|word| word.starts_with(first))
        };
        vec![
            ("two words with one hash", !clashes.is_empty()),
            (
                "three words with one hash",
                clashes.iter().any(|words| words.len() > 2),
            ),
            (
                "a word with the hash of its beginning",
                clashes.iter().any(begins),
            ),
            (
                "a word that begins another",
                self.mention(|m| self.mention(|o| o.word != m.word && o.word.starts_with(&m.word))),
            ),
        ]
    }

    fn query_traits(&self, call: &Building) -> Traits {
        let asked = query(call);
        let stands = |word: &[u8]| self.mention(|m| m.word == word);
        let absent = |rule: &dyn Fn(&[u8]) -> bool| asked.iter().any(|word| !stands(word) && rule(word));
        let raw = |j: usize| {
            let start = if j == 0 { 0 } else { call.word_ends[j - 1] };
            &call.words[start as usize..call.word_ends[j] as usize]
        };
        let again = |j: usize| (0..j).any(|i| asked[i] == asked[j]);
        let again_otherwise = |j: usize| (0..j).any(|i| asked[i] == asked[j] && raw(i) != raw(j));
        let k = asked.len();
        let in_capitals = |j: usize| raw(j) != asked[j];
        vec![
            (
                "asked with capitals",
                (0..k).any(|j| stands(&asked[j]) && in_capitals(j)),
            ),
            ("asked twice", (0..k).any(again)),
            ("asked twice, in another case", (0..k).any(again_otherwise)),
            ("asked for what is absent", absent(&|_| true)),
            (
                "asked for a beginning",
                absent(&|word| self.mention(|m| m.word.starts_with(word))),
            ),
            (
                "asked for more than a word",
                absent(&|word| self.mention(|m| word.starts_with(&m.word))),
            ),
            (
                "asked for another word with the hash",
                absent(&|word| self.mention(|m| fnv1a(&m.word) == fnv1a(word))),
            ),
            (
                "asked for a reference's name that is there",
                absent(&|word| {
                    let reference = [b"&", word, b";"].concat();
                    self.text
                        .windows(reference.len())
                        .any(|window| window == reference)
                }),
            ),
            (
                "asked for nothing that is there",
                asked.iter().all(|word| !stands(word)),
            ),
            (
                "asked for all that is there",
                asked.iter().all(|word| stands(word)),
            ),
        ]
    }

    fn table_traits(&self, slots: &[u32]) -> Traits {
        let words = distinct(&self.mentions);
        let long = slots.len();
        let slot = |m: &Mention| {
            slots
                .iter()
                .position(|&number| number as usize == m.place + 1)
                .unwrap()
        };
        let way = |m: &Mention| (slot(m) + long - home(&m.word, long)) % long;
        let some = |rule: &dyn Fn(&Mention) -> bool| words.iter().any(|m| rule(m));
        vec![
            ("the table is full", long > 0 && words.len() == long),
            ("a slot is left", words.len() + 1 == long),
            ("twice as many slots", long > 0 && 2 * words.len() == long),
            ("no slot", long == 0),
            ("one slot", long == 1),
            ("fewer slots than nodes", long < self.nodes.len()),
            ("fewer slots than mentions", long < self.mentions.len()),
            ("a word beside its home", some(&|m| way(m) > 0)),
            ("a word four slots on, or more", some(&|m| way(m) >= 4)),
            (
                "a word goes on from slot 0",
                some(&|m| slot(m) < home(&m.word, long)),
            ),
        ]
    }
}

/// What is met.
#[derive(Default)]
struct Met {
    refusals: Tally<&'static str>,
    manners: Tally<String>,
    wrong: Tally<String>,
    spoilt: Tally<String>,
    words: Tally<usize>,
    first: Tally<(&'static str, &'static str)>,
    rooms: Tally<(&'static str, &'static str)>,
    only: Tally<&'static str>,
    slots: Tally<&'static str>,
    traits: Tally<&'static str>,
}

/// What each slice needs, in the order of the call.
fn needed(look: &Look, call: &Building) -> [usize; ROWS] {
    let (n, k) = (look.nodes.len(), call.k());
    let list = |word: &Vec<u8>| by_mentions(&look.mentions, word).len();
    let occurrences = query(call).iter().map(list).sum();
    [n, n, n, n, k, occurrences, k * n, 3 * n]
}

impl Met {
    fn add(&mut self, asked: &Asked) {
        let call = &asked.building;
        let reply = judge(call).reply;
        let refusal = refusal_name(reply.refusal);
        add(&mut self.refusals, refusal);
        add(&mut self.manners, format!("{:?}", asked.manner));
        let spoilt = asked.spoilt.map(|kind| format!("{kind:?}"));
        spoilt.into_iter().for_each(|kind| add(&mut self.spoilt, kind));
        let wrong = asked.wrong.map(|kind| format!("{kind:?}"));
        // A wrong query is wrong.
        assert_eq!(wrong.is_some(), size_broken(call));
        wrong.into_iter().for_each(|kind| add(&mut self.wrong, kind));
        match derive(&call.text, LIMITS) {
            Outcome::Whole(nodes) if reply.refusal != SIZE => {
                let look = Look {
                    text: &call.text,
                    nodes,
                    mentions: scan(&call.text),
                };
                self.add_whole(&look, call);
            }
            Outcome::Whole(_) => (),
            Outcome::Markup(_) if reply.refusal == SIZE => add(&mut self.first, ("SIZE", "MARKUP")),
            Outcome::Beyond(_) if reply.refusal == SIZE => add(&mut self.first, ("SIZE", "TREE")),
            // What is too short for one node, or for those before the one beyond.
            Outcome::Markup(_) if call.work.len() < 3 || call.ends.len() < call.k() => {
                add(&mut self.first, ("MARKUP", "ROOM"))
            }
            Outcome::Beyond(node) if call.parents.len() < node => add(&mut self.first, ("TREE", "ROOM")),
            _ => (),
        }
    }

    fn add_whole(&mut self, look: &Look, call: &Building) {
        let mut after = judge(call);
        let needed = needed(look, call);
        let words = distinct(&look.mentions).len();
        add(&mut self.slots, room(call.slots.len(), words));
        let lengths: Vec<usize> = after.rows().iter().map(|row| row.len()).collect();
        for which in 0..ROWS {
            add(
                &mut self.rooms,
                (ROW_NAMES[which], room(lengths[which], needed[which])),
            );
        }
        let short: Vec<&str> = (0..ROWS)
            .filter(|&which| lengths[which] < needed[which])
            .map(|which| ROW_NAMES[which])
            .chain((call.slots.len() < words).then_some("slots"))
            .collect();
        assert_eq!(short.is_empty(), after.reply.refusal == ACCEPTED);
        if let [only] = short[..] {
            add(&mut self.only, only);
        }
        let mut traits = look.text_traits();
        traits.extend(look.hash_traits());
        traits.extend(look.query_traits(call));
        if after.reply.refusal == ACCEPTED {
            add(&mut self.words, call.k());
            traits.extend(look.table_traits(&after.slots));
        }
        for (what, _) in traits.into_iter().filter(|&(_, met)| met) {
            add(&mut self.traits, what);
        }
    }
}

#[test]
fn small_cases_are_worth_running() {
    let mut met = Met::default();
    (0..10_000).for_each(|number| met.add(&small(1, number)));
    hold("refusals", &met.refusals, 5, 200);
    hold("manners", &met.manners, 18, 50);
    hold("spoilt", &met.spoilt, 22, 30);
    hold("wrong queries", &met.wrong, 12, 80);
    hold("accepted, by words", &met.words, 8, 250);
    hold("refused before another", &met.first, 4, 40);
    hold("slices", &met.rooms, 4 * ROWS, 60);
    hold("ROOM for one slice alone", &met.only, ROWS + 1, 90);
    hold("slots", &met.slots, 4, 300);
    hold("traits", &met.traits, 19 + 4 + 10 + 10, 50);
}

#[test]
fn the_large_set_meets_every_reply() {
    let mut refusals = Tally::new();
    let mut bytes = 0;
    let mut most = [0; 3];
    for number in 0..large_builds::how_many() {
        let (call, kind) = large_builds::large(1, number);
        let mut file = Vec::new();
        let reply = judge(&call).reply;
        println!(
            "{number} {kind:?} k {} slots {}: {reply:?}",
            call.k(),
            call.slots.len()
        );
        add(&mut refusals, refusal_name(reply.refusal));
        if reply.refusal == ACCEPTED {
            let words = known(&call.text).map_or(0, |(_, mentions)| distinct(&mentions).len());
            let met = [call.text.len(), reply.total as usize, words];
            most = [0, 1, 2].map(|i| most[i].max(met[i]));
        }
        write(&mut file, &Case::Building(call)).unwrap();
        bytes += file.len();
    }
    println!("{bytes} bytes; at most, accepted: {most:?} bytes, nodes, words");
    hold("refusals", &refusals, 5, 3);
    assert!(bytes < 150_000_000);
    assert_eq!(most[..2], [16_777_216, 65_536]);
    assert!(most[2] >= 300_000);
    for refusal in [ACCEPTED, SIZE, TREE, ROOM, MARKUP] {
        assert!(refusals.contains_key(refusal_name(refusal)));
    }
}
