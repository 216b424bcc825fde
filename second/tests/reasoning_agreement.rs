//! The literal and the climbing rendering of a node's reason agree, and exactly
//! one reason is true of each node, on thousands of random cases.

mod common;

use common::{index, is_own};
use second::both::LITERAL_UP_TO;
use second::call::{Call, Index};
use second::elca::{elca, own_counts};
use second::full::full;
use second::gen::reasons::small;
use second::reason::call::Reason;
use second::reason::why::{climbing, literal};
use std::collections::BTreeSet;

/// The calls of ELCA on the undamaged indexes of some small cases.
fn undamaged(seed: u64, how_many: usize) -> impl Iterator<Item = Call> {
    (0..)
        .map(move |number| small(seed, number))
        .filter(|asked| asked.damage.is_empty())
        .map(|asked| asked.reasoning.elca())
        .take(how_many)
}

#[test]
fn literal_and_climbing_agree() {
    let mut beyond = 0;
    for call in undamaged(2, 3_000) {
        let index = index(&call);
        // Large enough that the judge alone would not compare the two.
        beyond += usize::from(call.n() > LITERAL_UP_TO);
        // Every node of a small tree, some of a large one.
        for v in (0..call.n()).step_by(1 + call.n() / 50) {
            assert_eq!(climbing(&index, v), literal(&index, v));
        }
    }
    println!("{beyond} trees beyond the judge's own comparison");
    assert!(beyond >= 100);
}

/// Whether a reason is true of a node, by the counts at it and by its own counts.
fn is_true(call: &Call, own: &[u32], v: usize, reason: &Reason) -> bool {
    let (n, p) = (call.n(), call.p as usize);
    let missing = |j: usize| call.counts[j * n + v] == 0;
    let covered = |j: usize| own[v * p + j] == 0;
    let is_full = !(0..p).any(missing);
    match *reason {
        Reason::NotFull { word } => missing(word) && !(0..word).any(missing),
        Reason::NotListed { word } => is_full && covered(word) && !(0..word).any(covered),
        Reason::Listed { .. } => is_full && !(0..p).any(covered),
    }
}

/// The only reason that is true of a node, without its occurrences.
fn only_reason(call: &Call, own: &[u32], v: usize) -> Reason {
    let all = (0..call.p as usize)
        .flat_map(|word| [Reason::NotFull { word }, Reason::NotListed { word }])
        .chain([Reason::Listed { occurrences: vec![] }]);
    let mut held: Vec<Reason> = all.filter(|reason| is_true(call, own, v, reason)).collect();
    assert_eq!(held.len(), 1, "node {v}: {held:?}");
    held.remove(0)
}

#[test]
fn exactly_one_reason_is_true_of_each_node() {
    let mut reasons = BTreeSet::new();
    for call in undamaged(3, 3_000) {
        let index = index(&call);
        let own = own_counts(&index, &full(&index));
        let listed = elca(&index).0;
        for v in 0..call.n() {
            let mut only = only_reason(&call, &own, v);
            reasons.insert(format!("{only:?}"));
            let given = climbing(&index, v);
            if let (Reason::Listed { occurrences }, Reason::Listed { occurrences: given }) =
                (&mut only, &given)
            {
                assert!(lowest_own(&index, v, given));
                *occurrences = given.clone();
            }
            assert_eq!(given, only, "node {v}");
            let said = matches!(given, Reason::Listed { .. });
            assert_eq!(said, listed.contains(&(v as u32)), "node {v}");
        }
    }
    // Two for each of eight words, and that of the listed.
    assert_eq!(reasons.len(), 8 + 8 + 1);
}

/// Whether these are for each word an own occurrence of v, and none before it is.
fn lowest_own(index: &Index, v: usize, occurrences: &[u32]) -> bool {
    let full = full(index);
    let own = |u: &&u32| is_own(index, &full, v, **u);
    occurrences.len() == index.p
        && (0..index.p).all(|j| index.words[j].iter().find(own) == Some(&occurrences[j]))
}
