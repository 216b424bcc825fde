//! The searches without counts by name: 01's cases, the edges, and each reply
//! with what it leaves in the stack.

#[macro_use]
mod common;

use common::{chain, lawful, A, PARENTS, TAGS, U, Z};
use second::call::{Reply, ACCEPTED, COUNT, LIST, ROOM, SIZE, TREE};
use second::gen::merges::twin;
use second::judge;
use second::merge::call::{Entry, Merge, Merged, Merging, NUMBERS};
use second::merge::judge::judge;

fn dirty(length: usize) -> Vec<Entry> {
    vec![Entry::of(&[7; NUMBERS]); length]
}

/// An undamaged call with a stack of 66 entries, long buffers, and 7 in every
/// entry.
fn merging(merge: Merge, parents: &[u32], tags: &[u32], words: &[&[u32]]) -> Merging {
    twin(&lawful(merge.search(), parents, tags, words, &[]), dirty(66))
}

fn scheduled(merge: Merge, words: &[&[u32]]) -> Merging {
    merging(merge, &PARENTS, &TAGS, words)
}

/// Judges, and holds the stack against what every reply but SIZE leaves, and
/// what is said of it elsewhere.
fn judged(call: &Merging) -> Merged {
    let after = judge(call);
    let kept = if after.reply.refusal == SIZE { 0 } else { 64 };
    assert!(after.stack[..kept].iter().all(|&entry| entry == Entry::ZERO));
    assert_eq!(after.stack[kept..], call.stack[kept..]);
    if after.reply.refusal != ACCEPTED {
        assert_eq!((&after.out, &after.own), (&call.out, &call.own));
    }
    after
}

fn accepted(call: &Merging, nodes: &[u32], own: &[u32]) {
    let after = judged(call);
    let total = nodes.len() as u32;
    assert_eq!(after.reply, reply(ACCEPTED, 0, total));
    assert_eq!(after.out[..nodes.len()], *nodes);
    assert_eq!(after.out[nodes.len()..], call.out[nodes.len()..]);
    assert_eq!(after.own[..own.len()], *own);
    assert_eq!(after.own[own.len()..], call.own[own.len()..]);
}

fn reply(refusal: u32, place: u32, total: u32) -> Reply {
    Reply {
        refusal,
        place,
        total,
    }
}

/// Of a call that is refused at a place.
fn refused(call: &Merging, refusal: u32, place: u32) {
    assert_eq!(judged(call).reply, reply(refusal, place, 0));
}

#[test]
fn the_cases_of_01() {
    use Merge::*;
    accepted(&scheduled(Slca, &[A, Z]), &[2], &[]);
    accepted(&scheduled(Elca, &[A, Z]), &[0, 2], &[1, 1, 1, 1]);
    accepted(&scheduled(Elca, &[A]), A, &[1, 1, 1]);
    accepted(&scheduled(Slca, &[A]), A, &[]);
    accepted(&scheduled(Elca, &[U]), &[1, 2], &[1, 1]);
    accepted(&scheduled(Slca, &[U]), &[2], &[]);
    accepted(&scheduled(Elca, &[A, A]), A, &[1; 6]);
    accepted(&scheduled(Slca, &[A, A]), A, &[]);
}

#[test]
fn case_10_is_accepted() {
    for merge in Merge::ALL {
        let mut call = lawful(merge.search(), &PARENTS, &TAGS, &[A], &[]);
        call.counts[1] = 1;
        assert_eq!(judge::judge(&call).reply.refusal, COUNT);
        let own: &[u32] = if merge == Merge::Elca { &[1, 1, 1] } else { &[] };
        accepted(&twin(&call, dirty(64)), A, own);
    }
}

#[test]
fn case_11() {
    let mut call = scheduled(Merge::Elca, &[A, Z]);
    for (out, own) in [(1, 4), (0, 4), (2, 3), (2, 2), (2, 0), (1, 3), (0, 0), (18, 3)] {
        (call.out, call.own) = (vec![7; out], vec![7; own]);
        assert_eq!(judged(&call).reply, reply(ROOM, 0, 2));
    }
    for (out, own) in [(2, 4), (3, 4), (2, 5), (18, 36)] {
        (call.out, call.own) = (vec![7; out], vec![7; own]);
        accepted(&call, &[0, 2], &[1, 1, 1, 1]);
    }
    // SLCA takes no own.
    let mut call = scheduled(Merge::Slca, &[A]);
    for out in 0..3 {
        call.out = vec![7; out];
        assert_eq!(judged(&call).reply, reply(ROOM, 0, 3));
    }
    (call.out, call.own) = (vec![7; 3], vec![]);
    accepted(&call, A, &[]);
}

#[test]
fn case_12() {
    for merge in Merge::ALL {
        for words in [&[A, &[]], &[&[], A], &[&[], &[]]] {
            let mut call = scheduled(merge, words);
            accepted(&call, &[], &[]);
            (call.out, call.own) = (vec![], vec![]);
            accepted(&call, &[], &[]);
        }
    }
}

/// A spine down to level 64, and from its end up a leaf beside each node but
/// the root.
fn comb() -> Vec<u32> {
    let mut parents = chain(64);
    parents.extend((0..63).rev());
    parents
}

#[test]
fn levels() {
    for merge in Merge::ALL {
        let all: Vec<u32> = (0..64).collect();
        let own: &[u32] = if merge == Merge::Elca { &[1; 64] } else { &[] };
        let nodes: &[u32] = if merge == Merge::Elca { &all } else { &[63] };
        accepted(&merging(merge, &chain(64), &[1; 64], &[&all]), nodes, own);
        refused(&merging(merge, &chain(65), &[1; 65], &[&all]), TREE, 64);
    }
}

#[test]
fn every_level_open_at_once() {
    // Two words at every leaf, and one of them at the spine's end: each node of
    // the spine but the last has one leaf of its own.
    let parents = comb();
    let leaves: Vec<u32> = (64..127).collect();
    let ends: Vec<u32> = (63..127).collect();
    let call = merging(Merge::Elca, &parents, &[1; 127], &[&leaves, &ends]);
    accepted(&call, &leaves, &[1; 126]);
    // One word at the leaves, the other at the end: all of the spine but its
    // end is full, its lowest node has an own count of each, the others of none.
    let call = merging(Merge::Elca, &parents, &[1; 127], &[&leaves, &[63]]);
    accepted(&call, &[62], &[1, 1]);
    let call = merging(Merge::Slca, &parents, &[1; 127], &[&leaves, &[63]]);
    accepted(&call, &[62], &[]);
    // Both at the end and at each leaf in turn: each node of the spine holds
    // one word more than the nodes below it.
    let (even, odd): (Vec<u32>, Vec<u32>) = ends.iter().partition(|&v| v % 2 == 0);
    let call = merging(Merge::Elca, &parents, &[1; 127], &[&even, &odd]);
    accepted(&call, &[62], &[1, 1]);
}

#[test]
fn sizes_of_the_tree() {
    for merge in Merge::ALL {
        let flat = |n: usize| merging(merge, &vec![0; n], &vec![1; n], &[&[0, 65_535]]);
        let own: &[u32] = if merge == Merge::Elca { &[1, 1] } else { &[] };
        let nodes: &[u32] = if merge == Merge::Elca {
            &[0, 65_535]
        } else {
            &[65_535]
        };
        accepted(&flat(65_536), nodes, own);
        refused(&flat(65_537), SIZE, 0);
        let own: &[u32] = if merge == Merge::Elca { &[1] } else { &[] };
        accepted(&merging(merge, &[0], &[9], &[&[0]]), &[0], own);
    }
}

#[test]
fn sizes_of_the_stack() {
    for merge in Merge::ALL {
        let mut call = scheduled(merge, &[A, Z]);
        for length in [0, 1, 8, 32, 62, 63] {
            call.stack = dirty(length);
            refused(&call, SIZE, 0);
        }
        for length in [64, 65, 128, 1000] {
            call.stack = dirty(length);
            assert_eq!(judged(&call).reply.refusal, ACCEPTED);
        }
    }
}

#[test]
fn other_reasons_for_size() {
    let others: Vec<fn(&mut Merging)> = vec![
        |call| call.p = 0,
        |call| call.p = 1,
        |call| call.p = 3,
        |call| (call.p, call.q) = (1, 1),
        |call| call.q = 1,
        |call| call.q = u32::MAX,
        |call| (call.p, call.q) = (3, u32::MAX),
        |call| (call.p, call.ends) = (9, vec![5; 9]),
        |call| (call.p, call.q, call.ends) = (8, 1, vec![5; 9]),
        |call| (call.p, call.ends) = (0, vec![]),
        |call| (call.parents, call.tags) = (vec![], vec![]),
    ];
    for merge in Merge::ALL {
        let lengths = other_lengths!(Merging: parents, tags, ends);
        for reason in others.iter().chain(&lengths) {
            let mut call = scheduled(merge, &[A, Z]);
            reason(&mut call);
            // SIZE comes before every other refusal.
            for entry in call.parents.iter_mut().chain(&mut call.occurrences) {
                *entry = u32::MAX;
            }
            refused(&call, SIZE, 0);
        }
    }
}

#[test]
fn refusals_leave_a_zero_stack() {
    for merge in Merge::ALL {
        let right = scheduled(merge, &[A, Z]);
        let mut call = right.clone();
        call.parents[5] = 4;
        refused(&call, TREE, 5);
        // TREE comes before LIST, and LIST before ROOM.
        call.occurrences[1] = 4;
        call.out.clear();
        refused(&call, TREE, 5);
        call.parents[5] = 2;
        refused(&call, LIST, 0);
        call.occurrences[1] = 9;
        call.occurrences[4] = 18;
        refused(&call, LIST, 1);
        call.occurrences[4] = 15;
        call.ends[1] = 4;
        refused(&call, LIST, 1);
        call.ends[1] = 5;
        let total = if merge == Merge::Elca { 2 } else { 1 };
        assert_eq!(judged(&call).reply, reply(ROOM, 0, total));
        call.out = right.out.clone();
        assert_eq!(judged(&call).reply, reply(ACCEPTED, 0, total));
    }
}

#[test]
fn what_is_lent_in_the_stack_does_not_matter() {
    let mut call = scheduled(Merge::Elca, &[A, Z]);
    let right = judged(&call);
    for filling in [0, 1, 2, 17, 18, u32::MAX] {
        call.stack = vec![Entry::of(&[filling; NUMBERS]); 64];
        let after = judged(&call);
        assert_eq!(
            (after.reply, after.out, after.own),
            (right.reply, right.out.clone(), right.own.clone())
        );
    }
}

#[test]
fn the_same_node_in_several_lists() {
    // 0 ( 1 ( 2 3 ) 4 ): all words at 1, and some of them below it.
    let parents = [0, 0, 1, 1, 0];
    let call = |merge, words: &[&[u32]]| merging(merge, &parents, &[1; 5], words);
    accepted(&call(Merge::Elca, &[&[1], &[1], &[1]]), &[1], &[1, 1, 1]);
    accepted(&call(Merge::Elca, &[&[1, 2], &[1]]), &[1], &[2, 1]);
    accepted(&call(Merge::Elca, &[&[1, 2], &[1, 2]]), &[1, 2], &[1, 1, 1, 1]);
    accepted(&call(Merge::Slca, &[&[1, 2], &[1, 2]]), &[2], &[]);
    accepted(&call(Merge::Elca, &[&[0, 1, 2], &[1, 2, 4]]), &[0, 1, 2], &[1; 6]);
    // 1 is full and not listed, so its occurrence is nobody's above it.
    accepted(&call(Merge::Elca, &[&[1, 2, 3], &[2, 3, 4]]), &[2, 3], &[1; 4]);
}
