//! The searches without counts: both engines agree on every generated case; the
//! case files; and what the generated cases meet.

mod common;

use common::{come_back, room};
use second::call::{refusal_name, Call, Search, ACCEPTED, COUNT, LIST, ROOM, SIZE, TREE};
use second::casefile::{expected, fnv1a, read, write, Case};
use second::count::counts;
use second::gen::damage::Damage;
use second::gen::merges::{small, unfelt, Manner, Pair};
use second::gen::{large_merges, small as searches};
use second::judge;
use second::list::lists;
use second::merge::call::{Entry, Merge, Merging, NUMBERS};
use second::merge::judge::judge;
use std::collections::{BTreeMap, BTreeSet};

/// The same call with right counts and work, where the index has counts.
fn recounted(call: &Call) -> Call {
    let (n, k) = (call.n(), call.ends.len());
    let mut call = call.clone();
    call.work = vec![7; (k + 2) * n];
    call.counts = vec![0; k * n];
    if ![SIZE, TREE, LIST].contains(&judge::judge(&call).reply.refusal) {
        call.counts = counts(&call.parents, &lists(&call.ends, &call.occurrences));
    }
    call
}

/// What the first engine gives with the counts that are lent, and whether the
/// second gives the same. Where the stack is long enough, it gives what the
/// first gives with right counts.
fn both(pair: &Pair) -> (u32, bool) {
    let (first, second) = (judge::judge(&pair.call), judge(&pair.merging));
    if pair.merging.stack.len() < 64 {
        assert_eq!(second.reply.refusal, SIZE);
    } else {
        let right = judge::judge(&recounted(&pair.call));
        assert_eq!(
            (second.reply, &second.out, &second.own),
            (right.reply, &right.out, &right.own)
        );
        if first.reply.refusal == ACCEPTED {
            assert_eq!(
                (first.reply, &first.out, &first.own),
                (right.reply, &right.out, &right.own)
            );
        }
        if !pair.damage.is_empty() && pair.damage.iter().all(|&kind| unfelt(kind)) {
            assert!([ACCEPTED, ROOM].contains(&second.reply.refusal));
        }
    }
    (first.reply.refusal, second.reply == first.reply)
}

#[test]
fn both_engines_agree() {
    let mut told = BTreeMap::new();
    for seed in 1..=2 {
        for number in 0..10_000 {
            let (refusal, same) = both(&small(seed, number));
            *told.entry((refusal_name(refusal), same)).or_insert(0) += 1;
        }
    }
    println!("what the first gives, and whether the second gives the same: {told:?}");
    assert!(told[&("accepted", true)] >= 5_000);
    // Wrong counts, or counts and work of wrong lengths, and no refusal.
    assert!(told[&("COUNT", false)] >= 500);
    assert!(told[&("SIZE", false)] >= 100);
    assert!(!told.contains_key(&("COUNT", true)));
}

#[test]
fn both_engines_agree_on_large_cases() {
    let mut told = BTreeMap::new();
    for number in 0..large_merges::how_many() {
        let (refusal, same) = both(&large_merges::large(1, number));
        *told.entry((refusal_name(refusal), same)).or_insert(0) += 1;
    }
    println!("what the first gives, and whether the second gives the same: {told:?}");
    assert!(told[&("accepted", true)] >= 20 && told[&("COUNT", false)] >= 3);
}

#[test]
fn each_case_of_elca_and_slca_has_its_twin() {
    for number in 0..2_000 {
        let (call, damage) = searches::small(3, number);
        let pair = small(3, number);
        let twin = matches!(call.search, Search::Elca | Search::Slca);
        assert_eq!(pair.manner == Manner::Twin, twin);
        assert_eq!(pair.call.search, pair.merging.merge.search());
        if twin {
            assert_eq!((&pair.call, &pair.damage), (&call, &damage));
            assert_eq!(
                (&pair.merging.occurrences, &pair.merging.out),
                (&call.occurrences, &call.out)
            );
        }
    }
}

#[test]
fn cases_come_back_as_written() {
    let cases: Vec<_> = (0..500)
        .map(|number| Case::Merging(small(5, number).merging))
        .collect();
    come_back(&cases);
}

fn tiny() -> Merging {
    let entry: Vec<u32> = (20..37).collect();
    Merging {
        merge: Merge::Slca,
        p: 1,
        q: 0,
        parents: vec![0, 0],
        tags: vec![1, 0],
        ends: vec![1],
        occurrences: vec![1],
        stack: vec![Entry::of(entry[..].try_into().unwrap()), Entry::ZERO],
        out: vec![7],
        own: vec![8, 9],
    }
}

#[test]
fn the_bytes_of_a_case() {
    let mut file = Vec::new();
    write(&mut file, &Case::Merging(tiny())).unwrap();
    let wanted = [
        vec![0x5351_4C4D, 1, 1, 0],
        vec![2, 2, 1, 1, 2, 1, 2],
        vec![0, 0, 1, 0, 1, 1],
        (20..37).collect(),
        vec![0; NUMBERS],
        vec![7, 8, 9],
    ];
    let wanted: Vec<u8> = wanted
        .concat()
        .iter()
        .flat_map(|n: &u32| n.to_le_bytes())
        .collect();
    assert_eq!(file, wanted);
    assert_eq!(file[..4], *b"MLQS");
    for length in 1..file.len() {
        assert!(read(&mut &file[..length]).is_err());
    }
    file[4] = 2;
    assert!(read(&mut file.as_slice()).is_err());
}

#[test]
fn the_line_of_a_case() {
    let entry = tiny().stack[0];
    assert_eq!((entry.node, entry.own[0], entry.covered[7]), (20, 21, 36));
    // Too short a stack is SIZE, and stays.
    let mut call = tiny();
    let lent: Vec<u32> = (20..37).chain([0; NUMBERS]).collect();
    assert_eq!(
        expected(3, &Case::Merging(call.clone())),
        format!(
            "3 merge_slca 1 0 0 2:{:016x} 1:{:016x} 2:{:016x}",
            fnv1a(&lent),
            fnv1a(&[7]),
            fnv1a(&[8, 9])
        )
    );
    call.merge = Merge::Elca;
    call.stack = vec![entry; 65];
    let left: Vec<u32> = [0; 64 * NUMBERS].into_iter().chain(20..37).collect();
    assert_eq!(
        expected(4, &Case::Merging(call)),
        format!(
            "4 merge_elca 0 0 1 65:{:016x} 1:{:016x} 2:{:016x}",
            fnv1a(&left),
            fnv1a(&[1]),
            fnv1a(&[1, 9])
        )
    );
}

#[test]
fn small_cases_are_worth_running() {
    let how_many = 10_000;
    let mut manners = BTreeMap::new();
    let mut refusals = BTreeMap::new();
    let mut stacks = BTreeMap::new();
    let mut rooms = BTreeMap::new();
    let mut kinds = BTreeSet::new();
    let mut words = BTreeSet::new();
    let mut accepted_despite = 0;
    for number in 0..how_many {
        let pair = small(1, number);
        let Pair { call, merging, .. } = &pair;
        let reply = judge(merging).reply;
        let met = manners.entry(pair.manner).or_insert([0; 3]);
        met[0] += 1;
        met[1] += usize::from(reply.refusal == ACCEPTED);
        met[2] += usize::from(reply.refusal == ACCEPTED && reply.total > 0);
        *refusals
            .entry((merging.merge.name(), refusal_name(reply.refusal)))
            .or_insert(0) += 1;
        *stacks.entry(merging.stack.len().min(129)).or_insert(0) += 1;
        kinds.extend(pair.damage.iter().map(|kind| format!("{kind:?}")));
        words.insert(merging.p.min(9));
        accepted_despite +=
            usize::from(reply.refusal == ACCEPTED && judge::judge(call).reply.refusal == COUNT);
        if [ACCEPTED, ROOM].contains(&reply.refusal) && reply.total > 0 {
            let m = reply.total as usize;
            *rooms.entry(("out", room(merging.out.len(), m))).or_insert(0) += 1;
            if merging.merge == Merge::Elca {
                let needed = m * merging.p as usize;
                *rooms.entry(("own", room(merging.own.len(), needed))).or_insert(0) += 1;
            }
        }
    }
    println!("manner: cases, accepted, with answers: {manners:?}");
    println!("{refusals:?}");
    println!("entries of the stack: {stacks:?}");
    println!("{rooms:?}");
    println!("accepted where the first gives COUNT: {accepted_despite}");
    assert!(manners.len() == 9 && manners.values().all(|met| met[1] >= 100));
    assert!(manners
        .iter()
        .all(|(&manner, met)| manner == Manner::Empty || 2 * met[2] >= met[1]));
    assert!(refusals.len() == 10 && refusals.values().all(|&cases| cases >= 50));
    for length in [0, 1, 63, 64, 65, 128] {
        assert!(stacks[&length] >= 50, "{length} entries");
    }
    assert!(rooms.len() == 8 && rooms.values().all(|&cases| cases >= 50));
    assert!(words.len() == 10);
    assert!(accepted_despite >= 200);
    let never = [Damage::KNine];
    for kind in Damage::ALL.iter().filter(|kind| !never.contains(kind)) {
        assert!(kinds.contains(&format!("{kind:?}")), "{kind:?} is not met");
    }
}

#[test]
fn the_large_set_meets_every_refusal() {
    let mut refusals = BTreeMap::new();
    let mut numbers = 0;
    for number in 0..large_merges::how_many() {
        let Pair {
            merging,
            manner,
            damage,
            ..
        } = large_merges::large(1, number);
        numbers += 11 + 2 * merging.parents.len() + merging.ends.len() + merging.occurrences.len();
        numbers += NUMBERS * merging.stack.len() + merging.out.len() + merging.own.len();
        let reply = judge(&merging).reply;
        println!(
            "{number} n {} {} p {} stack {} {manner:?} {damage:?}: {reply:?}",
            merging.parents.len(),
            merging.merge.name(),
            merging.p,
            merging.stack.len()
        );
        *refusals.entry(reply.refusal).or_insert(0) += 1;
        if damage.iter().all(|&kind| unfelt(kind)) {
            let small = merging.parents.len() <= 65_536 && merging.stack.len() >= 64;
            assert_eq!([ACCEPTED, ROOM].contains(&reply.refusal), small);
        }
    }
    println!("{} bytes; {refusals:?}", numbers * 4);
    let met: Vec<u32> = refusals.keys().copied().collect();
    assert_eq!(met, [ACCEPTED, SIZE, TREE, LIST, ROOM]);
    assert!(numbers * 4 < 100_000_000);
}
