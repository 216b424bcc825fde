//! The case files of a node's reason, and what the generated cases meet.

mod common;

use common::{add, come_back, hold, is_own, room, Tally};
use second::call::{refusal_name, Index, Search, ACCEPTED, NODE};
use second::casefile::{expected, fnv1a, read, write, Case};
use second::check::check;
use second::elca::elca;
use second::full::full;
use second::gen::damage::Damage;
use second::gen::merges::some_tree;
use second::gen::placed::{middle, place, Want};
use second::gen::reasons::{small, Asked, Manner};
use second::gen::rng::Rng;
use second::gen::{large_reasons, merges, small as searches};
use second::reason::call::{
    reason_name, Explanation, Reason, Reasoned, Reasoning, LISTED, NOT_FULL, NOT_LISTED,
};
use second::reason::judge::judge;
use second::reason::why::climbing;
use second::show::show;
use second::tree::{level, under};
use std::collections::BTreeSet;

#[test]
fn each_case_of_elca_is_asked_about() {
    for number in 0..2_000 {
        let (call, damage) = searches::small(3, number);
        let asked = small(3, number);
        let twin = call.search == Search::Elca;
        assert_eq!(asked.manner == Manner::Twin, twin);
        if twin {
            assert_eq!(asked.reasoning, Reasoning::of(&call, asked.reasoning.node));
            assert_eq!(asked.damage, damage);
        }
    }
}

#[test]
fn generators_repeat_themselves() {
    assert_eq!(small(7, 11), small(7, 11));
    assert_ne!(small(7, 11), small(8, 11));
    assert_eq!(large_reasons::large(7, 1), large_reasons::large(7, 1));
}

#[test]
fn cases_come_back_as_written() {
    let cases: Vec<_> = (0..500)
        .map(|number| Case::Reasoning(small(5, number).reasoning))
        .collect();
    come_back(&cases);
}

fn tiny() -> Reasoning {
    Reasoning {
        p: 2,
        q: 0,
        node: 1,
        parents: vec![0, 0],
        tags: vec![1, 0],
        ends: vec![1, 3],
        occurrences: vec![1, 0, 1],
        counts: vec![1, 1, 2, 1],
        work: vec![30, 31, 32, 33, 34, 35, 36, 37, 38],
    }
}

#[test]
fn the_bytes_of_a_case() {
    let mut file = Vec::new();
    write(&mut file, &Case::Reasoning(tiny())).unwrap();
    let wanted: Vec<u32> = [
        vec![0x5351_4C57, 2, 0, 1],
        vec![2, 2, 2, 3, 4, 9],
        vec![0, 0, 1, 0, 1, 3, 1, 0, 1, 1, 1, 2, 1],
        (30..39).collect(),
    ]
    .concat();
    let wanted: Vec<u8> = wanted.iter().flat_map(|number| number.to_le_bytes()).collect();
    assert_eq!(file, wanted);
    assert_eq!(file[..4], *b"WLQS");
    for length in 1..file.len() {
        assert!(read(&mut &file[..length]).is_err());
    }
}

/// The line of the tiny case with a change.
fn tiny_line(change: impl Fn(&mut Reasoning)) -> String {
    let mut call = tiny();
    change(&mut call);
    expected(3, &Case::Reasoning(call))
}

#[test]
fn the_line_of_a_case() {
    let cleared = format!("9:{:016x}", fnv1a(&[0, 0, 0, 0, 0, 0, 0, 0, 38]));
    let zeros = "0,0,0,0,0,0,0,0";
    assert_eq!(
        tiny_line(|_| ()),
        format!("3 reason 0 0 0 3 0 1,1,0,0,0,0,0,0 {cleared}")
    );
    assert_eq!(
        tiny_line(|call| call.node = 0),
        format!("3 reason 0 0 0 2 0 {zeros} {cleared}")
    );
    assert_eq!(
        tiny_line(|call| call.node = 2),
        format!("3 reason 10 0 0 0 0 {zeros} {cleared}")
    );
    assert_eq!(
        tiny_line(|call| call.counts[3] = 0),
        format!("3 reason 4 3 0 0 0 {zeros} {cleared}")
    );
    let stays: Vec<u32> = (30..39).collect();
    assert_eq!(
        tiny_line(|call| call.q = 1),
        format!("3 reason 1 0 0 0 0 {zeros} 9:{:016x}", fnv1a(&stays))
    );
    // The second word is at the root alone: it is missing under node 1.
    assert_eq!(
        tiny_line(
            |call| (call.ends, call.occurrences, call.counts) = (vec![1, 2], vec![1, 0], vec![1, 1, 1, 0])
        ),
        format!("3 reason 0 0 0 1 1 {zeros} {cleared}")
    );
}

#[test]
fn a_case_in_readable_form() {
    let text = show(&Case::Reasoning(tiny()));
    for row in [
        "reason  p 2  q 0  n 2  node 1\n",
        "  list 1 (2): 0,1\n",
        "  counts 1 (2): 2,1\n",
        "reply: refusal 0 (accepted)  place 0  total 0\n",
        "reason: 3 (listed)  word 0  occurrences 1,1,0,0,0,0,0,0\n",
        "work after (9): 0,0,0,0,0,0,0,0,38\n",
    ] {
        assert!(text.contains(row), "{row:?} is not in {text:?}");
    }
}

/// An accepted case, looked at from its node.
struct Look<'a> {
    index: &'a Index<'a>,
    v: usize,
    full: Vec<bool>,
    given: Explanation,
}

type Traits = Vec<(&'static str, bool)>;

impl Look<'_> {
    fn is_under(&self, u: u32) -> bool {
        under(self.index.parents, self.v, u as usize)
    }

    fn is_own(&self, u: u32) -> bool {
        self.full[self.v] && is_own(self.index, &self.full, self.v, u)
    }

    fn missing(&self, j: usize) -> bool {
        !self.index.words[j].iter().any(|&u| self.is_under(u))
    }

    fn covered(&self, j: usize) -> bool {
        !self.index.words[j].iter().any(|&u| self.is_own(u))
    }

    /// Whether some word passes a rule for its number and list.
    fn word(&self, rule: impl Fn(usize, &[u32]) -> bool) -> bool {
        (0..self.index.p).any(|j| rule(j, self.index.words[j]))
    }

    /// Whether some occurrence of some word passes a rule.
    fn occurrence(&self, rule: impl Fn(u32) -> bool) -> bool {
        self.word(|_, list| list.iter().any(|&u| rule(u)))
    }

    fn index_traits(&self) -> Traits {
        let Index { parents, words, .. } = self.index;
        let listed = elca(self.index).0;
        let full_children: Vec<usize> = (1..parents.len())
            .filter(|&c| parents[c] as usize == self.v && self.full[c])
            .collect();
        let not_listed = |&c: &usize| !listed.contains(&(c as u32));
        vec![
            ("an empty list", self.word(|_, list| list.is_empty())),
            ("a word twice", self.word(|j, list| words[..j].contains(&list))),
            ("several full children", full_children.len() > 1),
            (
                "a full child that is not listed",
                full_children.iter().any(not_listed),
            ),
            ("an occurrence at it", self.occurrence(|u| u as usize == self.v)),
        ]
    }

    fn listed_traits(&self) -> Traits {
        let v = self.v as u32;
        let level = |u: u32| level(self.index.parents, u as usize);
        let named = &self.given.occurrences[..self.index.p];
        let own = |list: &[u32]| -> Vec<u32> { list.iter().copied().filter(|&u| self.is_own(u)).collect() };
        let between = |list: &[u32]| {
            let (first, last) = (own(list)[0], *own(list).last().unwrap());
            list.iter().any(|&u| first < u && u < last && !self.is_own(u))
        };
        vec![
            ("an occurrence before it", self.occurrence(|u| u < v)),
            (
                "an occurrence behind it",
                self.occurrence(|u| u > v && !self.is_under(u)),
            ),
            ("an own one at it", named.contains(&v)),
            (
                "an own one two levels below it, or more",
                named.iter().any(|&u| level(u) >= level(v) + 2),
            ),
            (
                "a covered one before the own one",
                self.word(|j, list| list.iter().any(|&u| self.is_under(u) && u < named[j])),
            ),
            (
                "a covered one between own ones",
                self.word(|_, list| between(list)),
            ),
            ("several own ones", self.word(|_, list| own(list).len() > 1)),
        ]
    }

    /// How the word that is named stands to others that lack the same.
    fn lack_traits(&self, lacks: impl Fn(usize) -> bool) -> Traits {
        let word = self.given.word as usize;
        vec![
            ("a later word lacks it too", (word + 1..self.index.p).any(&lacks)),
            (
                "a later word does not",
                (word + 1..self.index.p).any(|j| !lacks(j)),
            ),
        ]
    }

    /// What is special about the case, with its reason.
    fn traits(&self) -> BTreeSet<(&'static str, &'static str)> {
        let own_traits = match self.given.reason {
            NOT_FULL => self.lack_traits(|j| self.missing(j)),
            NOT_LISTED => self.lack_traits(|j| self.covered(j)),
            _ => self.listed_traits(),
        };
        let reason = reason_name(self.given.reason);
        let all = self
            .index_traits()
            .into_iter()
            .map(|(what, met)| ("any", what, met))
            .chain(own_traits.into_iter().map(|(what, met)| (reason, what, met)));
        all.filter(|&(.., met)| met)
            .map(|(reason, what, _)| (reason, what))
            .collect()
    }
}

/// How a node stands to n.
fn stands(node: u32, n: u32) -> &'static str {
    match node {
        _ if node == n => "n",
        _ if node > n => match node - n {
            1 => "n + 1",
            _ => "beyond",
        },
        0 => "0",
        _ if node + 1 == n => "n - 1",
        _ => "below",
    }
}

/// What the first 10,000 small cases of a seed meet.
#[derive(Default)]
struct Met {
    manners: Tally<Manner>,
    refusals: Tally<&'static str>,
    /// The refusals that come before NODE where the node is n or more.
    first: Tally<&'static str>,
    /// The nodes on an index that is not refused.
    nodes: Tally<&'static str>,
    rooms: Tally<&'static str>,
    /// The reasons, with the word.
    reasons: Tally<(&'static str, u32)>,
    /// The listed nodes, by p.
    listed: Tally<u32>,
    traits: Tally<(&'static str, &'static str)>,
    damage: BTreeSet<String>,
}

impl Met {
    fn add(&mut self, asked: &Asked) {
        let call = &asked.reasoning;
        let n = call.parents.len() as u32;
        let after = judge(call);
        let refusal = refusal_name(after.reply.refusal);
        add(&mut self.manners, asked.manner);
        add(&mut self.refusals, refusal);
        let needed = (call.ends.len() + 2) * call.parents.len();
        add(&mut self.rooms, room(call.work.len(), needed));
        self.damage
            .extend(asked.damage.iter().map(|kind| format!("{kind:?}")));
        match after.reply.refusal {
            ACCEPTED | NODE => add(&mut self.nodes, stands(call.node, n)),
            _ if call.node >= n => add(&mut self.first, refusal),
            _ => (),
        }
        if after.reply.refusal == ACCEPTED {
            self.add_reason(asked, after.explanation);
        }
    }

    fn add_reason(&mut self, asked: &Asked, given: Explanation) {
        let call = asked.reasoning.elca();
        let index = &check(&call).unwrap_or_else(|_| unreachable!("it is accepted"));
        add(&mut self.reasons, (reason_name(given.reason), given.word));
        if given.reason == LISTED {
            add(&mut self.listed, call.p);
        }
        let look = Look {
            index,
            v: asked.reasoning.node as usize,
            full: full(index),
            given,
        };
        look.traits()
            .into_iter()
            .for_each(|met| add(&mut self.traits, met));
    }
}

#[test]
fn small_cases_are_worth_running() {
    let mut met = Met::default();
    (0..10_000).for_each(|number| met.add(&small(1, number)));
    hold("manners", &met.manners, 12, 50);
    hold("refusals", &met.refusals, 6, 300);
    hold("refused before NODE", &met.first, 4, 150);
    hold("nodes", &met.nodes, 6, 150);
    hold("work", &met.rooms, 4, 100);
    // Eight words, and the listed.
    hold("reasons and words", &met.reasons, 8 + 8 + 1, 50);
    hold("listed, by p", &met.listed, 8, 100);
    hold("traits", &met.traits, 5 + 7 + 2 + 2, 200);
    // What is damaged is a call of ELCA.
    let never = [Damage::KNine];
    for kind in Damage::ALL.iter().filter(|kind| !never.contains(kind)) {
        assert!(met.damage.contains(&format!("{kind:?}")), "{kind:?} is not met");
    }
}

/// The reason of a node that p words were placed around.
fn placed(number: u64, want: Want) -> Reason {
    let rng = &mut Rng::new(1, number);
    let tree = some_tree(rng, merges::Manner::Rare);
    let v = middle(rng, &tree);
    let p = rng.range(1, 8);
    let words = place(rng, &tree, v, p, want);
    let index = Index {
        parents: &tree.parents,
        tags: &tree.tags,
        words: words.iter().map(Vec::as_slice).collect(),
        p,
    };
    climbing(&index, v)
}

#[test]
fn words_placed_around_a_node_mostly_give_what_is_wanted() {
    for (want, reason) in [
        (Want::NotFull, NOT_FULL),
        (Want::NotListed, NOT_LISTED),
        (Want::Listed, LISTED),
    ] {
        let got = (0..2_000)
            .filter(|&number| Explanation::of(&placed(number, want)).reason == reason)
            .count();
        println!("{want:?}: {got} of 2000");
        assert!(got >= 1_200);
    }
}

#[test]
fn the_large_set_meets_every_reply() {
    let mut refusals = Tally::new();
    let mut reasons = Tally::new();
    let mut nodes = Tally::new();
    let mut numbers = 0;
    for number in 0..large_reasons::how_many() {
        let (call, damage) = large_reasons::large(1, number);
        let n = call.parents.len();
        numbers += 10 + n + call.tags.len() + call.ends.len() + call.occurrences.len();
        numbers += call.counts.len() + call.work.len();
        let Reasoned {
            reply, explanation, ..
        } = judge(&call);
        println!(
            "{number} n {n} p {} node {} {damage:?}: {reply:?} {explanation:?}",
            call.p, call.node
        );
        add(&mut refusals, refusal_name(reply.refusal));
        if reply.refusal == ACCEPTED {
            add(&mut reasons, reason_name(explanation.reason));
        }
        if n == 65_536 && [ACCEPTED, NODE].contains(&reply.refusal) {
            add(&mut nodes, stands(call.node, n as u32));
        }
        assert_eq!(
            [ACCEPTED, NODE].contains(&reply.refusal),
            damage.is_none() && n <= 65_536
        );
    }
    println!("{} bytes", numbers * 4);
    hold("refusals", &refusals, 6, 1);
    hold("reasons", &reasons, 3, 4);
    hold("nodes of 65,536", &nodes, 6, 1);
    assert!(numbers * 4 < 62_000_000);
}
