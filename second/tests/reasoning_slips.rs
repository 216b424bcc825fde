//! Wrong programs that look right: the small cases must tell each from 02, Q-4.
//!
//! They are one program, with a slip or without. It takes full nodes from the
//! lent counts, own counts as 01's difference, "the count at v less the counts
//! at v's full children", and the nodes under one as the numbers from it to the
//! last. Without a slip it shares none of these steps with the judge, and must
//! agree with the judge on every case.

#[macro_use]
#[path = "common/slips.rs"]
mod common;

use second::call::{Reply, ACCEPTED, COUNT, LIST, NODE, SIZE, TREE, WORDS};
use second::count;
use second::gen::large_reasons;
use second::gen::reasons::small;
use second::list::{list_fault, lists};
use second::reason::call::{Explanation, Reasoned, Reasoning, LISTED, NOT_FULL, NOT_LISTED};
use second::reason::judge::judge;
use second::tree::{level, tree_fault};
use std::ops::Range;

const CASES: u64 = 6_000;
const ENOUGH: usize = 50;

/// The refusal of a positive word with an empty list, which this call never
/// gives.
const UNKNOWN: u32 = 8;

slips! {
    // Which reason, and which word.
    LastMissingWord,
    LastCoveredWord,
    OwnCountsBeforeFull,
    OneWordMakesFull,
    FirstWordMakesFull,
    OnlySmallestListed,
    EighthWordNotAsked,
    EmptyListNotAsked,
    CasesFromZero,
    WordsFromOne,
    WordAlwaysZero,
    WordWhereListed,
    // What is under the node.
    NodeItselfNotUnderIt,
    AnywhereMakesFull,
    BehindTheNodeMakesFull,
    LastNodeLeftOut,
    // What is the node's own.
    EveryFullNodeListed,
    AllChildrenTakenOff,
    FirstFullChildTakenOff,
    LastFullChildTakenOff,
    FullDescendantsTakenOff,
    OnlyListedTakenOff,
    RootItsOwnChild,
    NodeItselfNotItsOwn,
    // Which occurrence.
    Highest,
    NearestToTheNode,
    AnyUnderTheNode,
    UnderAFullChild,
    FirstOfItsList,
    FirstBehindTheNode,
    OnlyItselfAsked,
    OnlyItsParentAsked,
    LowestOfAnyWord,
    InIncreasingOrder,
    WordTwiceGivenOnce,
    NodeGivenOnce,
    PlaceInItsList,
    PlaceInTheOccurrences,
    ChildAboveIt,
    // What stands beside it.
    LastRepeatedPastP,
    NodePastP,
    OccurrencesWhereNotListed,
    OccurrencesWhereNotFull,
    ReasonUnderARefusal,
    TotalWhereListed,
    PlaceOfTheWord,
    // Refusals.
    NodeBeforeSize,
    NodeBeforeTree,
    NodeBeforeList,
    NodeBeforeCount,
    LastNodeRefused,
    NodeNTaken,
    NodeOfSixteenBits,
    NodeNotRefused,
    NodeWithItsPlace,
    NodeWithATotal,
    NegativeWordTaken,
    EmptyListRefused,
    CountsNotChecked,
    WorkOneShortTaken,
    WorkOneMoreAsked,
    // The content of work.
    MarksAsLent,
    WorkStays,
    FirstEntryDirty,
    LastEntryDirty,
    LastRowDirty,
    NextEntryCleared,
    AllCleared,
    SizeClears,
    DirtyUnderTree,
    DirtyUnderList,
    DirtyUnderCount,
    DirtyUnderNode,
    DirtyWhereNotFull,
    DirtyWhereNotListed,
    DirtyWhereListed,
}

use Slip::*;

/// The program on an index that passed the check, for a node below n.
struct Model<'a> {
    call: &'a Reasoning,
    slip: Option<Slip>,
    n: usize,
    /// The positive words' lists.
    words: Vec<&'a [u32]>,
}

impl Model<'_> {
    fn is(&self, slip: Slip) -> bool {
        self.slip == Some(slip)
    }

    fn count(&self, j: usize, v: usize) -> u32 {
        self.call.counts[j * self.n + v]
    }

    fn parent(&self, v: usize) -> usize {
        self.call.parents[v] as usize
    }

    /// The nodes under v.
    fn below(&self, v: usize) -> Range<usize> {
        let end = (v + 1..self.n).find(|&u| self.parent(u) < v);
        v..end.unwrap_or(self.n)
    }

    /// Whether word j occurs under v.
    fn occurs(&self, j: usize, v: usize) -> bool {
        let list = self.words[j];
        match self.slip {
            Some(NodeItselfNotUnderIt) => self.count(j, v) > u32::from(list.contains(&(v as u32))),
            Some(AnywhereMakesFull) => !list.is_empty(),
            Some(BehindTheNodeMakesFull) => list.iter().any(|&u| u as usize >= v),
            _ => self.count(j, v) > 0,
        }
    }

    /// The words that are asked for.
    fn asked(&self) -> impl Iterator<Item = usize> + '_ {
        (0..self.words.len()).filter(|&j| match self.slip {
            Some(EighthWordNotAsked) => j < 7,
            Some(EmptyListNotAsked) => !self.words[j].is_empty(),
            _ => true,
        })
    }

    /// The words that are missing under v.
    fn missing(&self, v: usize) -> Vec<usize> {
        self.asked().filter(|&j| !self.occurs(j, v)).collect()
    }

    fn full(&self, v: usize) -> bool {
        let missing = self.missing(v);
        match self.slip {
            Some(OneWordMakesFull) => missing.len() < self.words.len(),
            Some(FirstWordMakesFull) => missing.first() != Some(&0),
            _ => missing.is_empty(),
        }
    }

    fn full_children(&self, v: usize) -> Vec<usize> {
        let from = if self.is(RootItsOwnChild) { v } else { v + 1 };
        let is_full = |&c: &usize| match self.slip {
            Some(MarksAsLent) => self.call.work[c] > 0,
            Some(AllChildrenTakenOff) => true,
            _ => self.full(c),
        };
        let children = (from..self.n).filter(|&c| self.parent(c) == v);
        children.filter(is_full).collect()
    }

    /// Whether v is listed, whatever the slip.
    fn listed(&self, v: usize) -> bool {
        let right = Model {
            slip: None,
            words: self.words.clone(),
            ..*self
        };
        right.full(v) && right.covered(v).is_empty()
    }

    /// The listed nodes below v, but those below another of them.
    fn topmost_listed(&self, v: usize) -> Vec<usize> {
        let mut topmost: Vec<usize> = vec![];
        for w in self.below(v).skip(1) {
            let deeper = topmost
                .last()
                .map_or(false, |&above| self.below(above).contains(&w));
            if !deeper && self.listed(w) {
                topmost.push(w);
            }
        }
        topmost
    }

    /// The nodes below v whose counts are taken off.
    fn taken_off(&self, v: usize) -> Vec<usize> {
        let full = self.full_children(v);
        match self.slip {
            Some(EveryFullNodeListed) => vec![],
            Some(FirstFullChildTakenOff) => full.into_iter().take(1).collect(),
            Some(LastFullChildTakenOff) => full.into_iter().rev().take(1).collect(),
            Some(FullDescendantsTakenOff) => self.below(v).skip(1).filter(|&w| self.full(w)).collect(),
            Some(OnlyListedTakenOff) => self.topmost_listed(v),
            _ => full,
        }
    }

    fn own_count(&self, j: usize, v: usize, taken_off: &[usize]) -> i64 {
        let count = |w: usize| i64::from(self.count(j, w));
        let not_its_own = self.is(NodeItselfNotItsOwn) && self.words[j].contains(&(v as u32));
        count(v) - taken_off.iter().map(|&w| count(w)).sum::<i64>() - i64::from(not_its_own)
    }

    /// The words of which v has no own occurrence.
    fn covered(&self, v: usize) -> Vec<usize> {
        let taken_off = self.taken_off(v);
        self.asked()
            .filter(|&j| self.own_count(j, v, &taken_off) <= 0)
            .collect()
    }

    /// The case of the reason, and its word.
    fn case(&self, v: usize) -> (u32, usize) {
        let (missing, covered) = (self.missing(v), self.covered(v));
        let missing = match self.slip {
            Some(LastMissingWord) => missing.last(),
            _ => missing.first(),
        };
        let covered = match self.slip {
            Some(LastCoveredWord) => covered.last(),
            _ => covered.first(),
        };
        match (missing, covered) {
            (Some(_), Some(&word)) if self.is(OwnCountsBeforeFull) => (NOT_LISTED, word),
            (Some(&word), _) if !self.full(v) => (NOT_FULL, word),
            (_, Some(&word)) => (NOT_LISTED, word),
            _ if self.is(OnlySmallestListed) && !self.full_children(v).is_empty() => (NOT_LISTED, 0),
            _ => (LISTED, 0),
        }
    }

    fn is_own(&self, v: usize, taken_off: &[usize], u: usize) -> bool {
        match self.slip {
            Some(AnyUnderTheNode) => true,
            Some(NodeItselfNotItsOwn) if u == v => false,
            Some(OnlyItselfAsked) => u == v || !self.full(u),
            Some(OnlyItsParentAsked) => u == v || self.parent(u) == v || !self.full(self.parent(u)),
            _ => !taken_off.iter().any(|&w| self.below(w).contains(&u)),
        }
    }

    /// The occurrence of word j that is found for v, after those that are given
    /// for the words before it.
    fn own(&self, j: usize, v: usize, given: &[u32]) -> Option<usize> {
        let Range { start, mut end } = self.below(v);
        if self.is(LastNodeLeftOut) && end > start + 1 {
            end -= 1;
        }
        let taken_off = self.taken_off(v);
        let mut list = self.words[j].iter().map(|&u| u as usize);
        let under = list.clone().filter(|u| (start..end).contains(u));
        let (own, covered): (Vec<_>, Vec<_>) = under.partition(|&u| self.is_own(v, &taken_off, u));
        let lowest = own.first().copied();
        let mut own = own.into_iter();
        match self.slip {
            Some(Highest) => own.last(),
            Some(NearestToTheNode) => own.min_by_key(|&u| level(&self.call.parents, u)),
            Some(NodeGivenOnce) => own.find(|&u| !given.contains(&(u as u32))),
            Some(UnderAFullChild) => covered.first().copied().or(lowest),
            Some(FirstOfItsList) => list.next(),
            Some(FirstBehindTheNode) => list.find(|&u| u > v).or(lowest),
            _ => lowest,
        }
    }

    /// What is given for an occurrence of word j.
    fn given(&self, j: usize, v: usize, u: usize) -> u32 {
        let place = self.words[j].iter().position(|&w| w as usize == u);
        let start = self.words[..j].iter().map(|list| list.len()).sum::<usize>();
        let given = match self.slip {
            Some(PlaceInItsList) => place.unwrap(),
            Some(PlaceInTheOccurrences) => start + place.unwrap(),
            Some(ChildAboveIt) => std::iter::successors(Some(u), |&w| Some(self.parent(w)))
                .find(|&w| w <= v || self.parent(w) == v)
                .unwrap(),
            Some(WordTwiceGivenOnce) if self.words[..j].contains(&self.words[j]) => 0,
            _ => u,
        };
        given as u32
    }

    /// The occurrences of a listed node.
    fn occurrences(&self, v: usize) -> [u32; WORDS] {
        let p = self.words.len();
        let mut all = [0; WORDS];
        for j in 0..p {
            let own = self.own(j, v, &all[..j]);
            all[j] = own.map_or(0, |u| self.given(j, v, u));
        }
        let (named, past) = all.split_at_mut(p);
        match self.slip {
            Some(InIncreasingOrder) => named.sort_unstable(),
            Some(LowestOfAnyWord) => named.fill(named.iter().copied().min().unwrap()),
            Some(LastRepeatedPastP) => past.fill(named[p - 1]),
            Some(NodePastP) => past.fill(v as u32),
            _ => (),
        }
        all
    }

    /// The reason in numbers.
    fn explain(&self, v: usize) -> Explanation {
        let (case, word) = self.case(v);
        let given = match case {
            NOT_FULL => self.is(OccurrencesWhereNotFull),
            NOT_LISTED => self.is(OccurrencesWhereNotListed),
            _ => true,
        };
        Explanation {
            reason: case - u32::from(self.is(CasesFromZero)),
            word: match self.slip {
                Some(WordAlwaysZero) => 0,
                Some(WordsFromOne) if case != LISTED => word as u32 + 1,
                Some(WordWhereListed) if case == LISTED => self.call.p,
                _ => word as u32,
            },
            occurrences: match given {
                true => self.occurrences(v),
                false => [0; WORDS],
            },
        }
    }
}

/// A reason given where there is none.
const GUESS: Explanation = Explanation {
    reason: NOT_FULL,
    ..Explanation::NONE
};

/// The number of entries of work that must be there and that end as 0.
fn used(call: &Reasoning) -> usize {
    (call.p as usize + call.q as usize + 2) * call.parents.len()
}

fn sizes_fit(call: &Reasoning, slip: Option<Slip>) -> bool {
    let (n, p, q) = (call.parents.len(), call.p as usize, call.q as usize);
    let least = match slip {
        Some(WorkOneShortTaken) => used(call).saturating_sub(1),
        Some(WorkOneMoreAsked) => used(call) + 1,
        _ => used(call),
    };
    let most = if slip == Some(NegativeWordTaken) { 8 } else { p };
    (1..=65_536).contains(&n)
        && (1..=8).contains(&p)
        && p + q <= most
        && call.tags.len() == n
        && call.ends.len() == p + q
        && call.counts.len() == (p + q) * n
        && call.work.len() >= least
}

/// The node that is asked for, or none where it is refused.
fn node(call: &Reasoning, slip: Option<Slip>) -> Option<usize> {
    let n = call.parents.len();
    let v = match slip {
        Some(NodeOfSixteenBits) => call.node as usize % 65_536,
        _ => call.node as usize,
    };
    let refused = match slip {
        Some(LastNodeRefused) => v + 1 >= n,
        Some(NodeNTaken) => v > n,
        Some(NodeNotRefused) => false,
        _ => v >= n,
    };
    (!refused).then_some(v)
}

/// The place of a refusal, where it applies and none of a lower number does.
fn place(call: &Reasoning, slip: Option<Slip>, refusal: u32) -> Option<usize> {
    match refusal {
        SIZE => (!sizes_fit(call, slip)).then_some(0),
        TREE => tree_fault(&call.parents, &call.tags),
        LIST => list_fault(call.parents.len(), &call.ends, &call.occurrences),
        COUNT if slip == Some(CountsNotChecked) => None,
        COUNT => {
            let right = count::climbing(&call.parents, &lists(&call.ends, &call.occurrences));
            (0..right.len()).find(|&entry| right[entry] != call.counts[entry])
        }
        UNKNOWN => lists(&call.ends, &call.occurrences)
            .iter()
            .position(|list| list.is_empty()),
        _ => node(call, slip).is_none().then_some(0),
    }
}

/// The first refusal that applies.
fn fault(call: &Reasoning, slip: Option<Slip>) -> Option<Reply> {
    let order: &[u32] = match slip {
        Some(NodeBeforeSize) => &[NODE, SIZE, TREE, LIST, COUNT],
        Some(NodeBeforeTree) => &[SIZE, NODE, TREE, LIST, COUNT],
        Some(NodeBeforeList) => &[SIZE, TREE, NODE, LIST, COUNT],
        Some(NodeBeforeCount) => &[SIZE, TREE, LIST, NODE, COUNT],
        Some(EmptyListRefused) => &[SIZE, TREE, LIST, COUNT, UNKNOWN, NODE],
        _ => &[SIZE, TREE, LIST, COUNT, NODE],
    };
    order.iter().find_map(|&refusal| {
        let place = place(call, slip, refusal)? as u32;
        Some(Reply {
            refusal,
            place: match slip {
                Some(NodeWithItsPlace) if refusal == NODE => call.node,
                _ => place,
            },
            total: match slip {
                Some(NodeWithATotal) if refusal == NODE => call.parents.len() as u32,
                _ => 0,
            },
        })
    })
}

/// The reply to an accepted call, and the reason; none where the slip leads
/// outside of what is lent.
fn accept(call: &Reasoning, slip: Option<Slip>) -> Option<(Reply, Explanation)> {
    let v = node(call, slip).expect("it is accepted");
    let n = call.parents.len();
    let words = lists(&call.ends, &call.occurrences)[..call.p as usize].to_vec();
    let explanation = match slip {
        _ if v < n => Model { call, slip, n, words }.explain(v),
        Some(NodeNotRefused) => GUESS,
        _ => return None,
    };
    let reply = Reply {
        refusal: ACCEPTED,
        place: if slip == Some(PlaceOfTheWord) {
            explanation.word
        } else {
            0
        },
        total: u32::from(slip == Some(TotalWhereListed) && explanation.reason == LISTED),
    };
    Some((reply, explanation))
}

/// The entries of work that end as 0.
fn cleared(call: &Reasoning, slip: Option<Slip>, refusal: u32, reason: u32) -> Range<usize> {
    let (used, all) = (used(call), call.work.len());
    match (slip, refusal, reason) {
        (Some(SizeClears), SIZE, _) => 0..all,
        (Some(WorkStays), ..) | (_, SIZE, _) => 0..0,
        (Some(DirtyUnderTree), TREE, _) | (Some(DirtyUnderList), LIST, _) => 0..0,
        (Some(DirtyUnderCount), COUNT, _) | (Some(DirtyUnderNode), NODE, _) => 0..0,
        (Some(DirtyWhereNotFull), _, NOT_FULL) | (Some(DirtyWhereNotListed), _, NOT_LISTED) => 0..0,
        (Some(DirtyWhereListed), _, LISTED) => 0..0,
        (Some(FirstEntryDirty), ..) => 1..used,
        (Some(LastEntryDirty), ..) => 0..used - 1,
        (Some(LastRowDirty), ..) => 0..used - call.parents.len(),
        (Some(NextEntryCleared), ..) => 0..all.min(used + 1),
        (Some(AllCleared), ..) => 0..all,
        _ => 0..all.min(used),
    }
}

/// What the program makes of a call; none where the slip leads outside of what
/// is lent.
fn reasons(call: &Reasoning, slip: Option<Slip>) -> Option<Reasoned> {
    let (reply, explanation) = match fault(call, slip) {
        None => accept(call, slip)?,
        Some(reply) if slip == Some(ReasonUnderARefusal) => (reply, GUESS),
        Some(reply) => (reply, Explanation::NONE),
    };
    let mut work = call.work.clone();
    work[cleared(call, slip, reply.refusal, explanation.reason)].fill(0);
    Some(Reasoned {
        reply,
        explanation,
        work,
    })
}

#[test]
fn the_program_without_a_slip_agrees() {
    for number in 0..20_000 {
        let call = small(3, number).reasoning;
        assert_eq!(reasons(&call, None).unwrap(), judge(&call), "case {number}");
    }
    for number in 0..large_reasons::how_many() {
        let (call, _) = large_reasons::large(1, number);
        assert_eq!(reasons(&call, None).unwrap(), judge(&call), "large case {number}");
    }
}

#[test]
fn slips_are_told_apart() {
    let mut told: Vec<(Slip, usize)> = ALL.iter().map(|&slip| (slip, 0)).collect();
    for number in 0..CASES {
        let call = small(1, number).reasoning;
        let right = Some(judge(&call));
        for (slip, cases) in &mut told {
            *cases += usize::from(reasons(&call, Some(*slip)) != right);
        }
    }
    told.iter()
        .for_each(|(slip, cases)| println!("{slip:?}: {cases}"));
    for (slip, cases) in told {
        assert!(cases >= ENOUGH, "{slip:?}: told apart by {cases} cases only");
    }
}
