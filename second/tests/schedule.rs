//! 01, "A small schedule to work by": cases 1 to 12, of which 02, Q-1, changes
//! two: "In 01's case 7 the negators become 2 and 13; in case 9 the answer
//! becomes 1,12."

mod common;

use common::{index, lawful, A, PARENTS, T, TAGS, U, X, Z};
use second::call::{After, Call, Reply, Search, ACCEPTED, COUNT, ROOM};
use second::elca::own_counts;
use second::full::full;
use second::judge::judge;
use second::valid::negators;

fn call(search: Search, positive: &[&[u32]], negative: &[&[u32]]) -> Call {
    lawful(search, &PARENTS, &TAGS, positive, negative)
}

/// Judges, and holds work, out and own against what acceptance must leave.
fn accepted(call: &Call, nodes: &[u32], own: &[u32]) {
    let After {
        reply,
        work,
        out,
        own: own_after,
    } = judge(call);
    assert_eq!(
        reply,
        Reply {
            refusal: ACCEPTED,
            place: 0,
            total: nodes.len() as u32
        }
    );
    let used = (call.k() as usize + 2) * call.n();
    assert!(work[..used].iter().all(|&entry| entry == 0));
    assert_eq!(work[used..], call.work[used..]);
    assert_eq!(out[..nodes.len()], *nodes);
    assert_eq!(out[nodes.len()..], call.out[nodes.len()..]);
    assert_eq!(own_after[..own.len()], *own);
    assert_eq!(own_after[own.len()..], call.own[own.len()..]);
}

fn negators_of(call: &Call) -> Vec<usize> {
    let negators = negators(&index(call));
    (0..call.n()).filter(|&v| negators[v]).collect()
}

#[test]
fn case_1() {
    accepted(&call(Search::Slca, &[A, Z], &[]), &[2], &[]);
}

#[test]
fn case_2() {
    let call = call(Search::Elca, &[A, Z], &[]);
    accepted(&call, &[0, 2], &[1, 1, 1, 1]);
    let index = index(&call);
    let full = full(&index);
    assert!(full[1]);
    assert_eq!(own_counts(&index, &full)[2..4], [1, 0]);
}

#[test]
fn case_3() {
    accepted(&call(Search::Elca, &[A], &[]), A, &[1, 1, 1]);
    accepted(&call(Search::Slca, &[A], &[]), A, &[]);
}

#[test]
fn case_4() {
    accepted(&call(Search::Elca, &[U], &[]), &[1, 2], &[1, 1]);
    accepted(&call(Search::Slca, &[U], &[]), &[2], &[]);
}

#[test]
fn case_5() {
    accepted(&call(Search::Elca, &[A, A], &[]), A, &[1; 6]);
}

#[test]
fn case_6() {
    let call = call(Search::Valid, &[A], &[X]);
    assert_eq!(negators_of(&call), [7]);
    accepted(&call, &[4, 17], &[]);
}

#[test]
fn case_7() {
    let call = call(Search::Valid, &[A], &[Z]);
    assert_eq!(negators_of(&call), [2, 13]);
    accepted(&call, &[9, 17], &[]);
}

#[test]
fn case_8() {
    let call = call(Search::Valid, &[Z], &[A]);
    assert_eq!(negators_of(&call), [0, 2, 7]);
    accepted(&call, &[], &[]);
}

#[test]
fn case_9() {
    let call = call(Search::Valid, &[T], &[Z]);
    assert_eq!(negators_of(&call), [2, 13]);
    accepted(&call, &[1, 12], &[]);
}

#[test]
fn case_10() {
    for search in Search::ALL {
        let mut call = call(search, &[A], &[]);
        assert_eq!(call.counts[1], 2);
        call.counts[1] = 1;
        let after = judge(&call);
        assert_eq!(
            after.reply,
            Reply {
                refusal: COUNT,
                place: 1,
                total: 0
            }
        );
        assert_eq!(after.work[..3 * 18], [0; 3 * 18]);
        assert_eq!(after.work[3 * 18..], [7; 3]);
        assert_eq!((after.out, after.own), (call.out, call.own));
    }
}

#[test]
fn case_11() {
    let mut call = call(Search::Elca, &[A, Z], &[]);
    call.out.truncate(1);
    let after = judge(&call);
    assert_eq!(
        after.reply,
        Reply {
            refusal: ROOM,
            place: 0,
            total: 2
        }
    );
    assert_eq!(after.work[..4 * 18], [0; 4 * 18]);
    assert_eq!(after.work[4 * 18..], [7; 3]);
    assert_eq!(after.out, [7]);
    assert_eq!(after.own, call.own);
    call.out = vec![7; 2];
    call.own = vec![7; 3];
    let after = judge(&call);
    assert_eq!(
        after.reply,
        Reply {
            refusal: ROOM,
            place: 0,
            total: 2
        }
    );
    assert_eq!((after.out, after.own), (vec![7; 2], vec![7; 3]));
    call.own = vec![7; 4];
    accepted(&call, &[0, 2], &[1, 1, 1, 1]);
}

#[test]
fn case_12() {
    for search in Search::ALL {
        let mut call = call(search, &[A, &[]], &[]);
        accepted(&call, &[], &[]);
        call.out.clear();
        call.own.clear();
        accepted(&call, &[], &[]);
    }
}
