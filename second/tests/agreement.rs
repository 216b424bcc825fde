//! The literal and the climbing renderings agree, and the laws that 01 names
//! hold, on thousands of random cases.

mod common;

use common::{index, types_matter};
use second::call::{Call, Search, COUNT, LIST, SIZE, TREE};
use second::gen::damage::Damage;
use second::gen::small::small;
use second::gen::tables::table_input;
use second::judge::judge;
use second::table;
use second::tree::{level, tree_fault, under};
use second::{class, count, elca, full, slca, valid};

/// Undamaged small cases.
fn undamaged(seed: u64, how_many: usize) -> impl Iterator<Item = Call> {
    (0..)
        .map(move |number| small(seed, number))
        .filter(|(_, damage)| damage.is_empty())
        .map(|(call, _)| call)
        .take(how_many)
}

#[test]
fn literal_and_climbing_agree() {
    let mut beyond = 0;
    for call in undamaged(1, 6_000) {
        let index = index(&call);
        // Large enough that the judge alone would not compare the two.
        beyond += usize::from(call.n() > second::both::LITERAL_UP_TO);
        let (parents, tags) = (index.parents, index.tags);
        assert_eq!(
            count::climbing(parents, &index.words),
            count::literal(parents, &index.words)
        );
        let full = full::climbing(&index);
        assert_eq!(full, full::literal(&index));
        assert_eq!(
            elca::own_climbing(&index, &full),
            elca::own_literal(&index, &full)
        );
        let slcas = slca::climbing(&index, &full);
        assert_eq!(slcas, slca::literal(&index, &full));
        let classes = class::gathered(parents, tags);
        assert_eq!(classes, class::literal(parents, tags));
        let negators = valid::negators_climbing(&index, &classes);
        assert_eq!(negators, valid::negators_literal(&index, &classes));
        let valids = valid::climbing(&index, &slcas, &negators);
        assert_eq!(valids, valid::literal(&index, &slcas, &negators));
    }
    assert!(beyond >= 100, "{beyond} trees beyond the judge's own comparison");
}

#[test]
fn laws_hold() {
    for call in undamaged(2, 4_000) {
        let index = index(&call);
        let (n, p) = (index.n(), index.p);
        let full = full::full(&index);
        let own = elca::own_counts(&index, &full);
        let (elcas, _) = elca::elca(&index);
        let slcas = slca::slca(&index);
        for (j, list) in index.positive().iter().enumerate() {
            // "A word's own counts add up to its list length if the root is full."
            let sum: u32 = (0..n).map(|v| own[v * p + j]).sum();
            assert_eq!(sum as usize, if full[0] { list.len() } else { 0 });
            // "The count at v less the counts at v's full children."
            for v in (0..n).filter(|&v| full[v]) {
                let at_children: u32 = (1..n)
                    .filter(|&c| index.parents[c] as usize == v && full[c])
                    .map(|c| call.counts[j * n + c])
                    .sum();
                assert_eq!(own[v * p + j], call.counts[j * n + v] - at_children);
            }
        }
        // "If the root is not full, no node is."
        assert!(full[0] || full.iter().all(|&full| !full));
        assert!(slcas.iter().all(|v| elcas.contains(v)));
        // "For one word, ELCA lists that word's whole list."
        if p == 1 {
            assert_eq!(elcas, index.words[0]);
        }
        // "With q = 0 the valid SLCAs are the SLCAs."
        let valids = valid::valid(&index);
        assert!(valids.iter().all(|v| slcas.contains(v)));
        if call.q == 0 {
            assert_eq!(valids, slcas);
        }
    }
}

/// The tree rules in other words: the parent of each node is lower, the nodes
/// under each node follow it without a gap, levels end at 64, no parent is
/// text, the root is its own entry and not text.
fn lawful_prefix(parents: &[u32], tags: &[u32]) -> bool {
    let n = parents.len();
    if parents[0] != 0 || (1..n).any(|i| parents[i] as usize >= i) {
        return false;
    }
    let preorder = (0..n).all(|v| {
        let below: Vec<usize> = (0..n).filter(|&u| under(parents, v, u)).collect();
        below.iter().enumerate().all(|(place, &u)| u == v + place)
    });
    preorder
        && tags[0] != 0
        && (1..n).all(|i| tags[parents[i] as usize] != 0)
        && (0..n).all(|v| level(parents, v) <= 64)
}

#[test]
fn tree_rule_is_preorder() {
    let mut faults = 0;
    for number in 0..4_000 {
        let (call, _) = small(3, number);
        let n = call.n();
        if n == 0 || n > 90 || call.tags.len() != n {
            continue;
        }
        let fault = (1..=n).find(|&length| !lawful_prefix(&call.parents[..length], &call.tags[..length]));
        assert_eq!(
            tree_fault(&call.parents, &call.tags),
            fault.map(|length| length - 1)
        );
        faults += usize::from(fault.is_some());
    }
    assert!(faults > 300, "{faults} broken trees only");
}

/// The share of a hundred.
fn share(part: usize, whole: usize) -> usize {
    100 * part / whole
}

#[test]
fn small_cases_are_worth_running() {
    let mut total = [0; 4];
    let mut filled = [0; 4];
    let (mut with_not, mut not_matters, mut some_left) = (0, 0, 0);
    let mut refusals = [0; 6];
    let mut undamaged = 0;
    let mut kinds = std::collections::BTreeMap::new();
    let how_many = 10_000;
    for number in 0..how_many {
        let (call, damage) = small(4, number as u64);
        let reply = judge(&call).reply;
        refusals[reply.refusal as usize] += 1;
        for kind in &damage {
            *kinds.entry(format!("{kind:?}")).or_insert(0) += 1;
        }
        if let [kind] = damage[..] {
            let may = expected_refusals(kind);
            assert!(
                may.contains(&reply.refusal) || may.is_empty(),
                "{kind:?} gave {}",
                reply.refusal
            );
        }
        if !damage.is_empty() {
            continue;
        }
        undamaged += 1;
        let search = Search::ALL
            .iter()
            .position(|&search| search == call.search)
            .unwrap();
        total[search] += 1;
        filled[search] += usize::from(reply.total > 0);
        if call.search == Search::Valid && call.q > 0 {
            let slcas = slca::slca(&index(&call)).len();
            let valids = reply.total as usize;
            with_not += 1;
            not_matters += usize::from(valids < slcas);
            some_left += usize::from(0 < valids && valids < slcas);
        }
    }
    println!("undamaged {undamaged}, refusals {refusals:?}");
    println!("totals {total:?}, filled {filled:?}");
    println!("with NOT {with_not}, NOT matters {not_matters}, some left {some_left}");
    println!("kinds {kinds:?}");
    assert!((40..=60).contains(&share(undamaged, how_many)));
    assert!(refusals.iter().all(|&times| times > 100));
    assert!((1..4).all(|search| share(filled[search], total[search]) >= 60));
    assert!(share(not_matters, with_not) >= 30);
    assert!(share(some_left, with_not) >= 10);
    assert!(Damage::ALL
        .iter()
        .all(|kind| kinds.contains_key(&format!("{kind:?}"))));
}

/// Of how many in a hundred accepted calls with a negative word 01's own rule
/// for entities gives another answer.
fn types_share(calls: impl Iterator<Item = Call>) -> usize {
    let told: Vec<bool> = calls.filter_map(|call| types_matter(&call)).collect();
    let other = told.iter().filter(|&&other| other).count();
    println!(
        "{} accepted with NOT, of {other} 01's rule has another answer",
        told.len()
    );
    share(other, told.len())
}

#[test]
fn small_cases_tell_types_from_siblings() {
    assert!(types_share((0..10_000).map(|number| small(1, number).0)) >= 7);
}

#[test]
fn tables_tell_types_from_siblings() {
    let inputs = (0..2_000).map(|number| table_input(1, number).1);
    let calls = inputs.filter_map(|input| table::calls(&input).ok());
    assert!(types_share(calls.map(|[_, _, valid]| valid)) >= 9);
}

#[test]
fn every_damage_meets_the_search_with_not() {
    // With no negative word, and with some.
    let mut met = [vec![], vec![]];
    for number in 0..20_000 {
        let (call, damage) = small(11, number);
        if call.search == Search::Valid {
            met[usize::from(call.q > 0)].extend(damage);
        }
    }
    for &kind in Damage::ALL {
        // A negative word is damage only where none may be; a ninth word, and
        // what makes q huge or wrapped, leave q above 0.
        let never = [
            kind == Damage::NegativeWord || matches!(kind, Damage::KNine | Damage::QHuge | Damage::Wrapped),
            kind == Damage::NegativeWord || matches!(kind, Damage::PNine),
        ];
        for with_not in [0, 1] {
            assert!(
                never[with_not] || met[with_not].contains(&kind),
                "{kind:?} is not met, {with_not}"
            );
        }
    }
}

/// The refusals that one damage may give; none named where it may give any.
fn expected_refusals(kind: Damage) -> Vec<u32> {
    use Damage::*;
    match kind {
        RootEntry | ParentItself | ParentAbove | ParentOffTheClimb | Level65 | TextRoot | TextParent
        | ChildOfText => {
            vec![TREE]
        }
        EndBelow | EndAbove | LastEndShort | LastEndLong | EqualNeighbours | Decrease | EntryN
        | EntryHuge | OccurrencesLength => vec![LIST],
        EndMoved => vec![LIST, COUNT],
        CountSomewhere | CountFirst | CountLast | CountTwice | ExtraCounted => vec![COUNT],
        OtherTree | LastSeason | MovedCounted | Turned => vec![],
        ParentsLength | TagsLength | EndsLength | CountsLength | WorkShort | WorkMuchShort | PZero
        | PNine | KNine | PHuge | QHuge | Wrapped | NegativeWord | NoNode => vec![SIZE],
    }
}
