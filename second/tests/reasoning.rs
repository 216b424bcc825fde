//! A node's reason by name: 01's schedule, the edges, and each reply with what
//! it leaves in work.

#[macro_use]
mod common;

use common::{chain, lawful, A, PARENTS, TAGS, U, Z};
use second::call::{Reply, Search, ACCEPTED, COUNT, LIST, NODE, SIZE, TREE, WORDS};
use second::reason::call::{Explanation, Reasoned, Reasoning, LISTED, NOT_FULL, NOT_LISTED};
use second::reason::judge::judge;

/// An undamaged call with 7 in every entry of work, three more than are needed.
fn reasoning(parents: &[u32], words: &[&[u32]], node: u32) -> Reasoning {
    let tags = vec![1; parents.len()];
    Reasoning::of(&lawful(Search::Elca, parents, &tags, words, &[]), node)
}

fn scheduled(words: &[&[u32]], node: u32) -> Reasoning {
    Reasoning::of(&lawful(Search::Elca, &PARENTS, &TAGS, words, &[]), node)
}

/// Judges, and holds work against what every reply but SIZE leaves in it, and a
/// refusal against giving a reason.
fn judged(call: &Reasoning) -> Reasoned {
    let after = judge(call);
    let cleared = match after.reply.refusal {
        SIZE => 0,
        _ => (call.p as usize + 2) * call.parents.len(),
    };
    assert!(after.work[..cleared].iter().all(|&entry| entry == 0));
    assert_eq!(after.work[cleared..], call.work[cleared..]);
    if after.reply.refusal != ACCEPTED {
        assert_eq!(after.explanation, Explanation::NONE);
    }
    after
}

fn reply(refusal: u32, place: u32) -> Reply {
    Reply {
        refusal,
        place,
        total: 0,
    }
}

fn refused(call: &Reasoning, refusal: u32, place: u32) {
    assert_eq!(judged(call).reply, reply(refusal, place));
}

fn explained(call: &Reasoning, reason: u32, word: u32, occurrences: [u32; WORDS]) {
    let after = judged(call);
    assert_eq!(after.reply, reply(ACCEPTED, 0));
    let explanation = Explanation {
        reason,
        word,
        occurrences,
    };
    assert_eq!(after.explanation, explanation, "node {}", call.node);
}

fn not_full(call: &Reasoning, word: u32) {
    explained(call, NOT_FULL, word, [0; WORDS]);
}

fn not_listed(call: &Reasoning, word: u32) {
    explained(call, NOT_LISTED, word, [0; WORDS]);
}

fn listed(call: &Reasoning, occurrences: &[u32]) {
    assert_eq!(call.p as usize, occurrences.len());
    let mut all = [0; WORDS];
    all[..occurrences.len()].copy_from_slice(occurrences);
    explained(call, LISTED, 0, all);
}

#[test]
fn two_words_on_the_schedule() {
    let call = |node| scheduled(&[A, Z], node);
    not_listed(&call(1), 1);
    not_full(&call(7), 1);
    listed(&call(0), &[17, 15]);
    listed(&call(2), &[4, 6]);
    for node in [3, 4, 8, 9, 16, 17] {
        not_full(&call(node), 1);
    }
    for node in [5, 6, 10, 11, 12, 13, 14, 15] {
        not_full(&call(node), 0);
    }
}

#[test]
fn the_words_in_the_other_order() {
    let call = |node| scheduled(&[Z, A], node);
    not_listed(&call(1), 0);
    not_full(&call(7), 0);
    not_full(&call(10), 0);
    not_full(&call(12), 1);
    listed(&call(0), &[15, 17]);
    listed(&call(2), &[6, 4]);
}

#[test]
fn one_word_on_the_schedule() {
    for node in 0..18 {
        let call = scheduled(&[A], node);
        match node {
            4 | 9 | 17 => listed(&call, &[node]),
            0..=3 | 7 | 8 | 16 => not_listed(&call, 0),
            _ => not_full(&call, 0),
        }
        let call = scheduled(&[U], node);
        match node {
            1 | 2 => listed(&call, &[node]),
            0 => not_listed(&call, 0),
            _ => not_full(&call, 0),
        }
    }
}

#[test]
fn the_same_word_twice() {
    for node in A {
        listed(&scheduled(&[A, A], *node), &[*node, *node]);
    }
    not_listed(&scheduled(&[A, A], 3), 0);
    not_full(&scheduled(&[A, A], 5), 0);
    listed(&scheduled(&[A, Z, A, Z], 0), &[17, 15, 17, 15]);
    not_listed(&scheduled(&[A, A, Z, Z], 1), 2);
}

#[test]
fn an_empty_list_is_missing_under_every_node() {
    for node in 0..18 {
        not_full(&scheduled(&[&[], A], node), 0);
        not_full(&scheduled(&[&[]], node), 0);
        let call = scheduled(&[A, &[], Z], node);
        match node {
            0..=4 | 7..=9 | 16 | 17 => not_full(&call, 1),
            _ => not_full(&call, 0),
        }
    }
}

#[test]
fn one_node() {
    let here: &[u32] = &[0];
    let call = |words: &[&[u32]], node| reasoning(&[0], words, node);
    listed(&call(&[here], 0), &[0]);
    listed(&call(&[here; 8], 0), &[0; 8]);
    not_full(&call(&[&[]], 0), 0);
    for word in 0..8 {
        let mut words = [here; 8];
        words[word] = &[];
        not_full(&call(&words, 0), word as u32);
    }
    refused(&call(&[here], 1), NODE, 0);
    refused(&call(&[&[]], 1), NODE, 0);
    // Nine words, with counts and work for all of them.
    refused(&call(&[here; 9], 0), SIZE, 0);
}

#[test]
fn the_node_is_below_n() {
    for words in [&[A, Z][..], &[A, &[]], &[A]] {
        assert_eq!(judged(&scheduled(words, 17)).reply, reply(ACCEPTED, 0));
        for node in [18, 19, 36, 65_535, 65_536, 1 << 31, u32::MAX - 17, u32::MAX] {
            refused(&scheduled(words, node), NODE, 0);
        }
    }
}

#[test]
fn sizes_of_the_tree() {
    let flat = |n: usize, node| reasoning(&vec![0; n], &[&[0, 65_535], &[7, 65_535]], node);
    listed(&flat(65_536, 0), &[0, 7]);
    listed(&flat(65_536, 65_535), &[65_535, 65_535]);
    not_full(&flat(65_536, 7), 0);
    refused(&flat(65_536, 65_536), NODE, 0);
    for node in [0, 65_536, 65_537] {
        refused(&flat(65_537, node), SIZE, 0);
    }
}

#[test]
fn levels() {
    let call = |words: &[&[u32]], node| reasoning(&chain(64), words, node);
    listed(&call(&[&[63], &[0]], 0), &[63, 0]);
    not_full(&call(&[&[63], &[0]], 1), 1);
    listed(&call(&[&[63], &[61, 63]], 63), &[63, 63]);
    not_listed(&call(&[&[63], &[61, 63]], 61), 0);
    not_listed(&call(&[&[61, 63], &[63]], 61), 1);
    not_listed(&call(&[&[61, 63], &[63]], 0), 0);
    refused(&reasoning(&chain(65), &[&[63]], 0), TREE, 64);
    refused(&reasoning(&chain(65), &[&[63]], 65), TREE, 64);
}

#[test]
fn own_occurrences() {
    // Leaves 1 to 5 under the root. Where both words are at 2, it is full.
    let flat = |words: &[&[u32]], node| reasoning(&[0; 6], words, node);
    listed(&flat(&[&[1, 2, 4], &[2, 3, 5]], 0), &[1, 3]);
    listed(&flat(&[&[2, 4], &[2, 3]], 0), &[4, 3]);
    listed(&flat(&[&[2, 4], &[2, 3]], 2), &[2, 2]);
    listed(&flat(&[&[0, 2, 4], &[2, 3]], 0), &[0, 3]);
    not_listed(&flat(&[&[2, 4], &[2]], 0), 1);
    not_listed(&flat(&[&[2], &[2, 5]], 0), 0);
    not_listed(&flat(&[&[2], &[2]], 0), 0);
    listed(&flat(&[&[0, 2], &[0, 2]], 0), &[0, 0]);
    // Several full children: 1, 3 and 5.
    listed(&flat(&[&[1, 3, 4, 5], &[1, 2, 3, 5]], 0), &[4, 2]);
    not_listed(&flat(&[&[1, 3, 4, 5], &[1, 3, 5]], 0), 1);
    // 0 ( 1 ( 2 ( 3 4 ) ) 5 ): deep below a child that is not full.
    let parents = [0, 0, 1, 2, 2, 0];
    listed(&reasoning(&parents, &[&[4], &[5]], 0), &[4, 5]);
    listed(&reasoning(&parents, &[&[3], &[4]], 2), &[3, 4]);
    not_listed(&reasoning(&parents, &[&[3], &[4]], 1), 0);
}

#[test]
fn full_nodes_that_are_not_listed_cover_too() {
    // 0 ( 1 ( 2 ( 3 4 ) 5 ) 6 7 ): 2 is listed, 1 is full and not listed, and
    // what is under it is not the root's own, though 5 is no listed node's.
    let parents = [0, 0, 1, 2, 2, 1, 0, 0];
    let words: &[&[u32]] = &[&[3, 5, 6], &[4, 7]];
    listed(&reasoning(&parents, words, 2), &[3, 4]);
    not_listed(&reasoning(&parents, words, 1), 1);
    listed(&reasoning(&parents, words, 0), &[6, 7]);
    not_listed(&reasoning(&parents, &[&[3, 5], &[4, 7]], 0), 0);
}

#[test]
fn the_first_word_is_named() {
    // Eight words at leaf 2, and at leaf 1 all but some: 0 is covered by 2.
    let both: &[u32] = &[1, 2];
    for first in 0..8 {
        for last in first..8 {
            let mut words = [both; 8];
            (words[first], words[last]) = (&[2], &[2]);
            not_listed(&reasoning(&[0; 3], &words, 0), first as u32);
            not_full(&reasoning(&[0; 3], &words, 1), first as u32);
            listed(&reasoning(&[0; 3], &words, 2), &[2; 8]);
        }
    }
}

#[test]
fn entries_past_the_words_are_zero() {
    for p in 1..=8 {
        let words: Vec<&[u32]> = vec![&[1, 3]; p];
        listed(&reasoning(&[0; 4], &words, 3), &vec![3; p]);
    }
}

#[test]
fn reasons_for_size() {
    let others: Vec<fn(&mut Reasoning)> = vec![
        |call| call.work.truncate(4 * 18 - 1),
        |call| call.work.clear(),
        |call| call.p = 0,
        |call| call.p = 1,
        |call| call.p = 3,
        |call| (call.p, call.q) = (1, 1),
        |call| call.q = 1,
        |call| call.q = u32::MAX,
        |call| (call.p, call.q) = (3, u32::MAX),
        |call| (call.parents, call.tags, call.counts) = (vec![], vec![], vec![]),
    ];
    let lengths = other_lengths!(Reasoning: parents, tags, ends, counts);
    for reason in others.into_iter().chain(lengths) {
        for node in [0, 17, 18, u32::MAX] {
            let mut call = scheduled(&[A, Z], node);
            reason(&mut call);
            // SIZE comes before every other refusal.
            for entry in call.parents.iter_mut().chain(&mut call.occurrences) {
                *entry = u32::MAX;
            }
            refused(&call, SIZE, 0);
        }
    }
}

#[test]
fn a_negative_word_is_size() {
    let call = lawful(Search::Elca, &PARENTS, &TAGS, &[A], &[Z]);
    refused(&Reasoning::of(&call, 0), SIZE, 0);
}

#[test]
fn work_just_long_enough() {
    let mut call = scheduled(&[A, Z], 0);
    call.work.truncate(4 * 18);
    listed(&call, &[17, 15]);
    call.work.pop();
    refused(&call, SIZE, 0);
}

#[test]
fn the_index_is_refused_before_the_node() {
    let right = scheduled(&[A, Z], 0);
    for node in [0, 17, 18, 19, u32::MAX] {
        let mut call = right.clone();
        call.node = node;
        call.counts[20] += 1;
        refused(&call, COUNT, 20);
        call.counts[1] = 1;
        refused(&call, COUNT, 1);
        call.occurrences[4] = 18;
        refused(&call, LIST, 1);
        call.parents[5] = 4;
        refused(&call, TREE, 5);
        call.work.truncate(71);
        refused(&call, SIZE, 0);
    }
}

#[test]
fn what_is_lent_in_work_does_not_matter() {
    for node in [0, 1, 2, 7] {
        let mut call = scheduled(&[A, Z], node);
        let right = judged(&call);
        for filling in [0, 1, 2, 17, 18, u32::MAX] {
            call.work = vec![filling; 75];
            let after = judged(&call);
            assert_eq!((after.reply, after.explanation), (right.reply, right.explanation));
        }
    }
}
