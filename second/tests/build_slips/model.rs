//! The program on a text of the profile, for a query that it takes: the tree, what
//! must be lent, and what is written.

use super::look::{Look, Row, Word};
use super::table::Table;
use super::Slip::{self, *};
use second::build::call::{Building, Built, ROWS};
use second::call::{Reply, ACCEPTED, ROOM};
use std::collections::BTreeMap;

/// The refusal of a word that does not stand in the text, which this call never
/// gives.
const UNKNOWN: u32 = 8;

pub struct Model<'a> {
    pub call: &'a Building,
    pub slip: Option<Slip>,
    pub look: &'a Look<'a>,
    /// The words as they are compared.
    pub keys: Vec<Vec<u8>>,
    /// The query's words.
    pub query: Vec<Vec<u8>>,
}

impl<'a> Model<'a> {
    pub fn new(call: &'a Building, slip: Option<Slip>, look: &'a Look<'a>, query: Vec<Vec<u8>>) -> Model<'a> {
        let lower = |byte: &u8| match byte {
            b'Z' if slip == Some(LastCapitalKept) => b'Z',
            b'A' if slip == Some(FirstCapitalKept) => b'A',
            _ => byte.to_ascii_lowercase(),
        };
        let key = |word: &Word| match slip {
            Some(CaseKept) => word.raw.clone(),
            Some(LettersOfSixteenBits) => word.raw.iter().take(65_535).map(lower).collect(),
            _ => word.raw.iter().map(lower).collect(),
        };
        Model {
            call,
            slip,
            look,
            keys: look.words.iter().map(key).collect(),
            query,
        }
    }

    pub fn is(&self, slip: Slip) -> bool {
        self.slip == Some(slip)
    }

    pub fn n(&self) -> usize {
        self.look.rows.len()
    }

    fn tags(&self) -> Vec<u32> {
        let mut known: BTreeMap<Vec<u8>, u32> = BTreeMap::new();
        let mut tags = vec![];
        for row in &self.look.rows {
            tags.push(match &row.name {
                None => 0,
                Some(name) => {
                    let mut name = self.call.text[name.clone()].to_vec();
                    if self.is(NameWithoutCaseIsOneTag) {
                        name.make_ascii_lowercase();
                    }
                    let fresh = known.len() as u32 + 1;
                    *known.entry(name).or_insert(fresh)
                }
            });
        }
        tags
    }

    /// What the slices begin with, in the order of the call.
    fn rows(&self) -> [Vec<u32>; ROWS] {
        let rows = &self.look.rows;
        let column = |of: fn(&Row) -> usize| rows.iter().map(|row| of(row) as u32).collect();
        let lists = self.lists();
        let mut counts = self.counts(&lists);
        if self.is(AddedToWhatWasLent) {
            for (count, lent) in counts.iter_mut().zip(&self.call.counts) {
                *count = count.wrapping_add(*lent);
            }
        }
        [
            column(|row| row.parent),
            self.tags(),
            column(|row| row.first),
            column(|row| row.last),
            self.ends(&lists),
            lists.concat(),
            counts,
            vec![0; 3 * self.n()],
        ]
    }

    /// How long the slices must be.
    fn needed(&self, rows: &[Vec<u32>; ROWS]) -> [usize; ROWS] {
        let (n, k) = (self.n(), self.query.len());
        let mut needed = [n, n, n, n, k, rows[5].len(), k * n, 3 * n];
        match self.slip {
            Some(ParentsNotAsked) => needed[0] = 0,
            Some(TagsNotAsked) => needed[1] = 0,
            Some(FirstsNotAsked) => needed[2] = 0,
            Some(LastsNotAsked) => needed[3] = 0,
            Some(EndsNotAsked) => needed[4] = 0,
            Some(OccurrencesNotAsked) => needed[5] = 0,
            Some(CountsNotAsked) => needed[6] = 0,
            Some(WorkNotAsked) => needed[7] = 0,
            Some(TwoRowsOfWork) => needed[7] = 2 * n,
            Some(WorkAsForASearch) => needed[7] = (k + 2) * n,
            Some(CountsOfOneWord) => needed[6] = n,
            Some(OccurrencesOfEachNode) => needed[5] = k * n,
            Some(OneMoreEndAsked) => needed[4] += 1,
            Some(OneMoreOccurrenceAsked) => needed[5] += 1,
            Some(OneMoreCountAsked) => needed[6] += 1,
            _ => (),
        }
        needed
    }

    /// Whether the slots are enough, once the table is filled or not.
    fn slots_fit(&self, filled: bool) -> bool {
        let slots = self.call.slots.len();
        let mut words: Vec<&Vec<u8>> = self.keys.iter().collect();
        words.sort_unstable();
        words.dedup();
        match self.slip {
            Some(SlotForEachNode) => filled && slots >= self.n(),
            Some(SlotForEachMention) => slots >= self.keys.len(),
            Some(SlotLeftFree) => slots > words.len(),
            Some(SlotAtLeast) => filled && slots > 0,
            _ => filled,
        }
    }

    /// What is written where, under acceptance.
    fn write(&self, rows: &[Vec<u32>; ROWS], after: &mut Built) {
        let n = self.n();
        for (which, (lent, row)) in after.rows().into_iter().zip(rows).enumerate() {
            let stays = match self.slip {
                Some(RowsStay) => which < 4,
                Some(TagsStay) => which == 1,
                Some(PlacesStay) => which == 2 || which == 3,
                Some(WorkStays) => which == 7,
                _ => false,
            };
            if stays {
                continue;
            }
            let cleared = match self.slip {
                Some(LaterRowsCleared) => which < 4,
                Some(LaterEndsCleared) => which == 4,
                Some(LaterOccurrencesCleared) => which == 5,
                Some(LaterCountsCleared) => which == 6,
                Some(AllWorkCleared) => which == 7,
                _ => false,
            };
            if cleared {
                lent.fill(0);
            }
            let row = match self.slip {
                Some(OneRowOfWorkCleared) if which == 7 => &row[..n],
                _ => row,
            };
            let length = row.len().min(lent.len());
            lent[..length].copy_from_slice(&row[..length]);
        }
    }

    /// What ROOM leaves.
    fn room(&self, table: &Table, rows: &[Vec<u32>; ROWS], after: &mut Built) {
        after.slots = match self.slip {
            Some(RoomLeavesTheTable) => self.call.slots.clone(),
            Some(RoomLeavesWordsInTheTable) => self.slots(table),
            _ => vec![0; self.call.slots.len()],
        };
        if let (Some(slot), true) = (after.slots.last_mut(), self.is(RoomLeavesTheLastSlot)) {
            *slot = self.call.slots[self.call.slots.len() - 1];
        }
        for (which, (lent, row)) in after.rows().into_iter().zip(rows).enumerate() {
            let written = match self.slip {
                Some(RoomWritesRows) => which < 4,
                Some(RoomWritesLists) => which == 4 || which == 5,
                Some(RoomClearsWork) => which == 7,
                _ => false,
            };
            if written {
                let length = row.len().min(lent.len());
                lent[..length].copy_from_slice(&row[..length]);
            }
        }
        after.reply.total = match self.slip {
            Some(RoomWithNodes) => self.n() as u32,
            Some(RoomWithWords) => self.keys.len() as u32,
            _ => 0,
        };
    }

    /// The outcome: ROOM, or acceptance.
    pub fn build(&self) -> Built {
        let (table, filled) = self.table();
        let rows = self.rows();
        let needed = self.needed(&rows);
        let mut after = self.call.untouched(ROOM, 0, 0);
        let mut long_enough = after
            .rows()
            .into_iter()
            .zip(needed)
            .all(|(lent, needed)| lent.len() >= needed);
        long_enough &= self.slots_fit(filled);
        let unknown = (0..rows[4].len()).find(|&j| self.list(&self.query[j]).is_empty());
        match unknown {
            Some(j) if self.is(UnknownWordRefused) => {
                after.reply = Reply {
                    refusal: UNKNOWN,
                    place: j as u32,
                    total: 0,
                }
            }
            _ if long_enough => {
                after.slots = self.slots(&table);
                self.write(&rows, &mut after);
                after.reply.refusal = ACCEPTED;
                after.reply.total = match self.slip {
                    Some(AcceptedWithWords) => table.iter().flatten().count() as u32,
                    Some(AcceptedWithOccurrences) => rows[5].len() as u32,
                    Some(AcceptedWithZero) => 0,
                    _ => self.n() as u32,
                };
            }
            _ => self.room(&table, &rows, &mut after),
        }
        after
    }
}
