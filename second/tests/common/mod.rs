//! What several tests share; not all use all of it.

#![allow(dead_code)]

use second::call::{After, Call, Index, Search, ACCEPTED};
use second::casefile::{read, write, Case};
use second::class::Class;
use second::count::counts;
use second::judge::judge;
use second::list::lists;
use second::slca::slca;
use second::tree::{climb, under};
use second::valid;
use std::collections::BTreeMap;
use std::fmt::Debug;

// 01, "A small schedule to work by".
pub const PARENTS: [u32; 18] = [0, 0, 1, 2, 3, 2, 5, 1, 7, 8, 7, 10, 0, 12, 13, 14, 0, 16];
pub const TAGS: [u32; 18] = [1, 2, 3, 4, 0, 5, 0, 3, 4, 0, 6, 0, 2, 3, 5, 0, 7, 0];
pub const A: &[u32] = &[4, 9, 17];
pub const Z: &[u32] = &[6, 15];
pub const X: &[u32] = &[11];
pub const T: &[u32] = &[1, 12];
pub const U: &[u32] = &[1, 2];

/// A chain of n nodes, each the child of the one before.
pub fn chain(n: u32) -> Vec<u32> {
    (0..n).map(|i| i.saturating_sub(1)).collect()
}

/// How a buffer stands to what is needed: too short by one, by more, just long
/// enough, longer.
pub fn room(lent: usize, needed: usize) -> &'static str {
    match lent {
        _ if lent + 1 == needed => "one short",
        _ if lent < needed => "shorter",
        _ if lent == needed => "exact",
        _ => "longer",
    }
}

/// How often each thing is met.
pub type Tally<K> = BTreeMap<K, usize>;

pub fn add<K: Ord>(tally: &mut Tally<K>, what: K) {
    *tally.entry(what).or_default() += 1;
}

/// Prints a tally, and holds it to have so many things, each met so often.
pub fn hold<K: Debug>(what: &str, tally: &Tally<K>, things: usize, least: usize) {
    println!("{what}: {tally:?}");
    assert_eq!(tally.len(), things, "{what}");
    for (thing, &times) in tally {
        assert!(times >= least, "{what}: {thing:?} is met {times} times only");
    }
}

/// Cases written to a file and read again: they come back as they were. Gives
/// the file.
pub fn come_back(cases: &[Case]) -> Vec<u8> {
    let mut file = Vec::new();
    for case in cases {
        write(&mut file, case).unwrap();
    }
    let mut rest = file.as_slice();
    let mut back = Vec::new();
    while let Some(case) = read(&mut rest).unwrap() {
        back.push(case);
    }
    assert_eq!(cases, back);
    file
}

/// What makes a slice an entry shorter, and what makes it an entry longer, for
/// each of these slices of a call.
#[allow(unused_macros)]
macro_rules! other_lengths {
    ($call:ty: $($slice:ident),*) => {
        [$(
            (|call: &mut $call| {
                call.$slice.pop();
            }) as fn(&mut $call),
            (|call: &mut $call| call.$slice.push(0)) as fn(&mut $call),
        )*]
    };
}

/// An undamaged call with right counts, long buffers and 7 in every entry.
pub fn lawful(
    search: Search,
    parents: &[u32],
    tags: &[u32],
    positive: &[&[u32]],
    negative: &[&[u32]],
) -> Call {
    let words: Vec<&[u32]> = positive.iter().chain(negative).copied().collect();
    let (n, k) = (parents.len(), words.len());
    let mut end = 0;
    let ends = words
        .iter()
        .map(|list| {
            end += list.len() as u32;
            end
        })
        .collect();
    Call {
        search,
        p: positive.len() as u32,
        q: negative.len() as u32,
        parents: parents.to_vec(),
        tags: tags.to_vec(),
        ends,
        occurrences: words.concat(),
        counts: counts(parents, &words),
        work: vec![7; (k + 2) * n + 3],
        out: vec![7; n],
        own: vec![7; positive.len() * n],
    }
}

/// The index of an undamaged call, whether or not the search takes it.
pub fn index(call: &Call) -> Index<'_> {
    Index {
        parents: &call.parents,
        tags: &call.tags,
        words: lists(&call.ends, &call.occurrences),
        p: call.p as usize,
    }
}

/// Whether u is under v, and no node from u up to the child of v is full.
pub fn is_own(index: &Index, full: &[bool], v: usize, u: u32) -> bool {
    let mut below = climb(index.parents, u as usize).take_while(|&above| above != v);
    under(index.parents, v, u as usize) && below.all(|above| !full[above])
}

/// For each node whether it has a sibling with its tag: 01's own rule for
/// entities.
pub fn twins(index: &Index) -> Vec<bool> {
    let place = |v: usize| (index.parents[v], index.tags[v]);
    let mut alike = BTreeMap::new();
    for v in 1..index.n() {
        *alike.entry(place(v)).or_insert(0) += 1;
    }
    (0..index.n()).map(|v| v != 0 && alike[&place(v)] >= 2).collect()
}

/// Valid SLCA where the entities are the nodes that pass a rule, and are
/// neither text nor attribute.
pub fn valid_by(index: &Index, rule: impl Fn(usize) -> bool) -> Vec<u32> {
    let mut classes = second::class::classes(index.parents, index.tags);
    for (v, class) in classes.iter_mut().enumerate() {
        if [Class::Entity, Class::Dummy].contains(class) {
            *class = if rule(v) { Class::Entity } else { Class::Dummy };
        }
    }
    let negators = valid::negators_climbing(index, &classes);
    valid::climbing(index, &slca(index), &negators)
}

/// Of a call of the search with NOT that has a negative word and is accepted:
/// whether 01's own rule for entities gives another answer.
pub fn types_matter(call: &Call) -> Option<bool> {
    if call.search != Search::Valid || call.q == 0 {
        return None;
    }
    let After { reply, out, .. } = judge(call);
    (reply.refusal == ACCEPTED).then(|| {
        let index = index(call);
        let twins = twins(&index);
        valid_by(&index, |v| twins[v]) != out[..reply.total as usize]
    })
}
