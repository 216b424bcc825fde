//! Wrong engines that look right: the generated cases must tell each from 02,
//!
//!
//! They are one merge over the lent stack, from the last occurrence to the
//! first, with a slip or without. Without one its search shares no step with
//! the judge's, and it must agree with the judge on every case.

#[macro_use]
#[path = "common/slips.rs"]
mod common;

use second::call::{Reply, ACCEPTED, LIST, ROOM, SIZE, TREE, WORDS};
use second::gen::large_merges;
use second::gen::merges::small;
use second::list::list_fault;
use second::merge::call::{Entry, Merge, Merged, Merging};
use second::merge::judge::judge;
use second::tree::{level, tree_fault};
use std::ops::Range;

const CASES: u64 = 6_000;
const ENOUGH: usize = 50;

slips! {
    // What is listed, and in which order.
    PopOrder,
    OwnWordByWord,
    HeldForOwn,
    RootNotListed,
    ElcaForSlca,
    EveryFullForSlca,
    SlcaNotFull,
    // What a closed node leaves to the one above it.
    FullChildNotTakenOff,
    CoveredAddedToOwn,
    OnlyListedTakenOff,
    FullByOwnCountsAlone,
    ClosedIntoTheEntryBelow,
    CountsKeptOnTheWayUp,
    // What comes next.
    TopClosedBeforeItsOccurrence,
    ClimbPastTheNextOccurrence,
    TwoEntriesForOneNode,
    SharedNodeCountedOnce,
    WordTwiceCountedOnce,
    OverWhereOneListIs,
    // The stack's content.
    RootAsLent,
    SecondPassOnTheFirst,
    CoveredAsLent,
    LastEntryDirty,
    FirstEntryDirty,
    NodesDirty,
    OwnDirty,
    CoveredDirty,
    OtherWordsDirty,
    OnlyUsedOnesCleared,
    ClearedBeforehand,
    DirtyUnderTree,
    DirtyUnderList,
    DirtyUnderRoom,
    Entry65Touched,
    AllCleared,
    SizeClears,
    // Refusals.
    SixtyThreeEnough,
    SixtyFiveNeeded,
    NegativeWordTaken,
    ListNotChecked,
    ListBeforeTree,
    OwnNotAsked,
    OwnAskedForSlca,
    RoomGivesWhatFits,
    RoomWritesWhatFits,
}

use Slip::*;

/// A slip may lead outside of what is lent, or round for ever.
#[derive(PartialEq, Eq, Debug)]
struct BreaksOff;

type Run<T> = Result<T, BreaksOff>;

type Counts = [u32; WORDS];

fn sums(a: Counts, b: Counts) -> Counts {
    std::array::from_fn(|j| a[j].wrapping_add(b[j]))
}

struct Model<'a> {
    call: &'a Merging,
    slip: Option<Slip>,
    /// What is left of each word's list.
    lists: Vec<Range<usize>>,
    stack: Vec<Entry>,
    top: usize,
    /// One more than the node that comes next, or 0.
    reach: u32,
    /// All answers, once they are counted.
    total: usize,
    /// The answers counted so far, or left to write.
    left: usize,
    fill: bool,
    out: Vec<u32>,
    own: Vec<u32>,
    /// The most entries that were in use.
    height: usize,
}

impl Model<'_> {
    fn is(&self, slip: Slip) -> bool {
        self.slip == Some(slip)
    }

    fn each_some(&self, counts: Counts) -> bool {
        counts[..self.lists.len()].iter().all(|&count| count > 0)
    }

    fn parent(&self, v: u32) -> Run<u32> {
        self.call.parents.get(v as usize).copied().ok_or(BreaksOff)
    }

    /// The whole lists are left.
    fn set_lists(&mut self) -> Run<()> {
        let Merging {
            p, ends, occurrences, ..
        } = self.call;
        let mut start = 0;
        self.lists.clear();
        for &end in &ends[..*p as usize] {
            let list = start..end as usize;
            let entries = occurrences.get(list.clone()).ok_or(BreaksOff)?;
            let twice = self
                .lists
                .iter()
                .any(|other| occurrences[other.clone()] == *entries);
            if !(twice && self.is(WordTwiceCountedOnce)) {
                self.lists.push(list);
            }
            start = end as usize;
        }
        Ok(())
    }

    fn head(&self, j: usize) -> u32 {
        match self.lists[j].clone().last() {
            Some(place) => self.call.occurrences[place].wrapping_add(1),
            None => 0,
        }
    }

    fn next_reach(&self) -> u32 {
        let heads = (0..self.lists.len()).map(|j| self.head(j));
        match self.is(OverWhereOneListIs) && heads.clone().any(|head| head == 0) {
            true => 0,
            false => heads.max().unwrap(),
        }
    }

    /// Takes the next node off the lists: 1 for each word that occurs there.
    fn take(&mut self) -> Counts {
        let mut came = [0; WORDS];
        for j in 0..self.lists.len() {
            if self.head(j) != self.reach {
                continue;
            }
            self.lists[j].end -= 1;
            came[j] = u32::from(came == [0; WORDS] || !self.is(SharedNodeCountedOnce));
            if self.is(TwoEntriesForOneNode) {
                break;
            }
        }
        self.reach = self.next_reach();
        came
    }

    fn arrive(&mut self) -> Run<()> {
        let x = self.reach - 1;
        let own = self.take();
        let top = self.stack[self.top];
        if top.node == x && !self.is(TwoEntriesForOneNode) {
            self.stack[self.top].own = sums(top.own, own);
            return Ok(());
        }
        self.top += 1;
        self.height = self.height.max(self.top + 1);
        let as_lent = self.is(CoveredAsLent);
        let entry = self.stack.get_mut(self.top).ok_or(BreaksOff)?;
        *entry = Entry {
            node: x,
            own,
            covered: if as_lent { entry.covered } else { [0; WORDS] },
        };
        if self.slip.is_none() {
            assert!(
                self.top < level(&self.call.parents, x as usize),
                "too high a stack"
            );
        }
        Ok(())
    }

    fn put(&mut self, node: u32, own: Counts) -> Run<()> {
        if !self.fill {
            self.left += 1;
            return Ok(());
        }
        self.left = self.left.checked_sub(1).ok_or(BreaksOff)?;
        let m = match self.slip {
            Some(PopOrder) => self.total - 1 - self.left,
            _ => self.left,
        };
        *self.out.get_mut(m).ok_or(BreaksOff)? = node;
        if self.call.merge == Merge::Elca {
            let p = self.lists.len();
            let row = self.own.get_mut(m * p..(m + 1) * p).ok_or(BreaksOff)?;
            row.copy_from_slice(&own[..p]);
        }
        Ok(())
    }

    /// The node above `node` at which what it held goes on: the entry below it,
    /// or a node that the next occurrence may be under.
    fn climb(&self, node: u32, below: u32) -> Run<u32> {
        if node == below && self.is(TwoEntriesForOneNode) || self.is(ClosedIntoTheEntryBelow) {
            return Ok(below);
        }
        let far = match self.slip {
            Some(ClimbPastTheNextOccurrence) => self.reach.saturating_sub(1),
            _ => self.reach,
        };
        let mut above = self.parent(node)?;
        while above > below && above >= far {
            above = self.parent(above)?;
        }
        Ok(above)
    }

    /// Closes the top. Whether there was an entry below it.
    fn close(&mut self) -> Run<bool> {
        let Entry { node, own, covered } = self.stack[self.top];
        let held = sums(own, covered);
        let full = self.each_some(if self.is(FullByOwnCountsAlone) { own } else { held });
        let elca = self.each_some(own);
        let listed = match (self.call.merge, self.slip) {
            (Merge::Elca, _) | (Merge::Slca, Some(ElcaForSlca)) => elca,
            (Merge::Slca, Some(EveryFullForSlca)) => full,
            (Merge::Slca, Some(SlcaNotFull)) => covered[0] == 0,
            (Merge::Slca, _) => full && covered[0] == 0,
        };
        if listed && !(self.top == 0 && self.is(RootNotListed)) {
            self.put(node, if self.is(HeldForOwn) { held } else { own })?;
        }
        if self.top == 0 {
            return Ok(false);
        }
        let below = self.stack[self.top - 1].node;
        let above = self.climb(node, below)?;
        if above == below {
            self.top -= 1;
        } else if self.is(CountsKeptOnTheWayUp) {
            self.stack[self.top].node = above;
        } else {
            self.stack[self.top] = Entry {
                node: above,
                ..Entry::ZERO
            };
        }
        let to = &mut self.stack[self.top];
        match self.slip {
            Some(FullChildNotTakenOff) => to.own = sums(to.own, held),
            Some(OnlyListedTakenOff) if !listed => to.own = sums(to.own, held),
            Some(CoveredAddedToOwn) if full => {
                to.own = sums(to.own, covered);
                to.covered = sums(to.covered, own);
            }
            _ if full => to.covered = sums(to.covered, held),
            _ => to.own = sums(to.own, held),
        }
        Ok(true)
    }

    /// One pass over the lists. The second finds in the stack what the first
    /// has left.
    fn pass(&mut self, fill: bool) -> Run<()> {
        self.set_lists()?;
        self.fill = fill;
        self.top = 0;
        self.height = self.height.max(1);
        self.reach = self.next_reach();
        let kept = match self.slip {
            Some(RootAsLent) => !fill,
            Some(SecondPassOnTheFirst) => fill,
            _ => false,
        };
        if !kept {
            self.stack[0] = Entry::ZERO;
        }
        self.stack[0].node = 0;
        let limit = 200 * (self.call.parents.len() + self.call.occurrences.len() + 1);
        for _ in 0..limit {
            let node = match self.slip {
                Some(TopClosedBeforeItsOccurrence) => self.stack[self.top].node + 1,
                _ => self.stack[self.top].node,
            };
            if node < self.reach {
                self.arrive()?;
            } else if !self.close()? {
                return Ok(());
            }
        }
        Err(BreaksOff)
    }

    /// Zeroes the stack, as far as the slip does.
    fn clear(&mut self, refusal: u32) {
        let cleared = match (self.slip, refusal) {
            (Some(SizeClears), SIZE) => 0..self.stack.len().min(64),
            (_, SIZE) | (Some(DirtyUnderTree), TREE) => return,
            (Some(DirtyUnderList), LIST) | (Some(DirtyUnderRoom), ROOM) => return,
            (Some(ClearedBeforehand), ACCEPTED | ROOM) => self.height..64,
            (Some(OnlyUsedOnesCleared), _) => 0..self.height,
            (Some(LastEntryDirty), _) => 0..63,
            (Some(FirstEntryDirty), _) => 1..64,
            (Some(Entry65Touched), _) => 0..self.stack.len().min(65),
            (Some(AllCleared), _) => 0..self.stack.len(),
            _ => 0..self.stack.len().min(64),
        };
        let (slip, p) = (self.slip, self.call.p as usize);
        for entry in &mut self.stack[cleared] {
            let was = *entry;
            *entry = Entry::ZERO;
            match slip {
                Some(NodesDirty) => entry.node = was.node,
                Some(OwnDirty) => entry.own = was.own,
                Some(CoveredDirty) => entry.covered = was.covered,
                Some(OtherWordsDirty) => entry.own[p..].copy_from_slice(&was.own[p..]),
                _ => (),
            }
        }
    }

    fn sizes_fit(&self) -> bool {
        let Merging {
            p,
            q,
            parents,
            tags,
            ends,
            stack,
            ..
        } = self.call;
        let least = match self.slip {
            Some(SixtyThreeEnough) => 63,
            Some(SixtyFiveNeeded) => 65,
            _ => 64,
        };
        let taken = if self.is(NegativeWordTaken) { 7 } else { 0 };
        (1..=65_536).contains(&parents.len())
            && (1..=8).contains(p)
            && *q <= taken
            && tags.len() == parents.len()
            && ends.len() == (p + q) as usize
            && stack.len() >= least
    }

    /// The lowest refusal of the index, with its place.
    fn fault(&self) -> Option<(u32, usize)> {
        let Merging {
            parents,
            tags,
            ends,
            occurrences,
            ..
        } = self.call;
        if !self.sizes_fit() {
            return Some((SIZE, 0));
        }
        let tree = tree_fault(parents, tags).map(|node| (TREE, node));
        let list = list_fault(parents.len(), ends, occurrences).map(|word| (LIST, word));
        match self.slip {
            Some(ListNotChecked) => tree,
            Some(ListBeforeTree) => list.or(tree),
            _ => tree.or(list),
        }
    }

    /// What fits of an answer of m nodes.
    fn write_what_fits(&mut self, m: usize) -> Run<()> {
        let (out, own) = (self.out.clone(), self.own.clone());
        let counts = match self.call.merge {
            Merge::Elca => m * self.lists.len(),
            Merge::Slca => 0,
        };
        self.out.resize(m.max(out.len()), 0);
        self.own.resize(counts.max(own.len()), 0);
        self.pass(true)?;
        self.out.truncate(out.len());
        self.own.truncate(own.len());
        Ok(())
    }

    /// Counts, asks for room, and writes.
    fn search(&mut self) -> Run<Reply> {
        self.pass(false)?;
        let (m, p) = (self.left, self.lists.len());
        self.total = m;
        let counts = match self.call.merge {
            Merge::Elca if self.is(OwnNotAsked) => 0,
            Merge::Slca if !self.is(OwnAskedForSlca) => 0,
            _ => m * p,
        };
        let reply = |refusal, total| Reply {
            refusal,
            place: 0,
            total: total as u32,
        };
        let out = self.out.len();
        if m > out || counts > self.own.len() {
            if self.is(RoomWritesWhatFits) {
                self.write_what_fits(m)?;
            }
            return Ok(reply(ROOM, if self.is(RoomGivesWhatFits) { out } else { m }));
        }
        self.pass(true)?;
        if self.is(OwnWordByWord) {
            let rows = self.own.clone();
            (0..counts).for_each(|at| self.own[at] = rows[at % m * p + at / m]);
        }
        Ok(reply(ACCEPTED, m))
    }
}

/// What the engine makes of a call, and how many entries it had in use.
fn merges(call: &Merging, slip: Option<Slip>) -> Run<(Merged, usize)> {
    let mut model = Model {
        call,
        slip,
        lists: vec![],
        stack: call.stack.clone(),
        top: 0,
        reach: 0,
        total: 0,
        left: 0,
        fill: false,
        out: call.out.clone(),
        own: call.own.clone(),
        height: 0,
    };
    let reply = match model.fault() {
        None => model.search()?,
        Some((refusal, place)) => Reply {
            refusal,
            place: place as u32,
            total: 0,
        },
    };
    model.clear(reply.refusal);
    let after = Merged {
        reply,
        stack: model.stack,
        out: model.out,
        own: model.own,
    };
    Ok((after, model.height))
}

#[test]
fn the_merge_without_a_slip_agrees() {
    let mut highest = 0;
    for number in 0..20_000 {
        let call = small(3, number).merging;
        let (after, height) = merges(&call, None).unwrap();
        assert_eq!(after, judge(&call), "case {number}");
        highest += usize::from(height == 64);
    }
    println!("{highest} small cases with 64 entries in use");
    assert!(highest >= 100);
    for number in 0..large_merges::how_many() {
        let call = large_merges::large(1, number).merging;
        assert_eq!(
            merges(&call, None).unwrap().0,
            judge(&call),
            "large case {number}"
        );
    }
}

#[test]
fn slips_are_told_apart() {
    let mut told: Vec<(Slip, usize)> = ALL.iter().map(|&slip| (slip, 0)).collect();
    for number in 0..CASES {
        let call = small(1, number).merging;
        let right = judge(&call);
        for (slip, cases) in &mut told {
            let same = matches!(merges(&call, Some(*slip)), Ok((after, _)) if after == right);
            *cases += usize::from(!same);
        }
    }
    told.iter()
        .for_each(|(slip, cases)| println!("{slip:?}: {cases}"));
    for (slip, cases) in told {
        assert!(cases >= ENOUGH, "{slip:?}: told apart by {cases} cases only");
    }
}
