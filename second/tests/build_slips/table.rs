//! The hash and the table.

use super::model::Model;
use super::Slip::*;

/// The table, by the numbers of its words in order of mention.
pub type Table = Vec<Option<usize>>;

impl Model<'_> {
    /// The bytes that are hashed.
    fn hashed(&self, w: usize) -> Vec<u8> {
        let word = &self.look.words[w];
        let mut bytes = self.keys[w].clone();
        match self.slip {
            Some(HashOfCapitals) => bytes.make_ascii_uppercase(),
            Some(HashAsItStands) => bytes = word.raw.clone(),
            Some(HashWithComments) => {
                bytes = self.call.text[word.first..=word.last].to_ascii_lowercase();
            }
            Some(LastLetterNotHashed) => drop(bytes.pop()),
            Some(HashBackwards) => bytes.reverse(),
            _ => (),
        }
        bytes
    }

    /// The hash, of 64 bits where the slip leaves more than 32.
    fn hash(&self, w: usize) -> u64 {
        let slots = self.call.slots.len().max(1) as u64;
        let factor: u64 = match self.slip {
            Some(Fnv1aOf64Bits | FactorOf64Bits) => 1_099_511_628_211,
            _ => 16_777_619,
        };
        let mut hash: u64 = match self.slip {
            Some(StartAtZero) => 0,
            Some(Fnv1aOf64Bits) => 14_695_981_039_346_656_037,
            _ => 2_166_136_261,
        };
        for byte in self.hashed(w) {
            let byte = u64::from(byte);
            hash = match self.slip {
                Some(Fnv1) => (hash * factor % (1 << 32)) ^ byte,
                Some(ProductNotReduced | Fnv1aOf64Bits) => (hash ^ byte).wrapping_mul(factor),
                Some(ReducedAtEachLetter) => (hash ^ byte) * factor % slots,
                _ => (hash ^ byte).wrapping_mul(factor) % (1 << 32),
            };
        }
        hash
    }

    /// The number of slots that are used.
    fn width(&self) -> usize {
        match self.slip {
            Some(SlotsOfSixteenBits) => self.call.slots.len() % 65_536,
            _ => self.call.slots.len(),
        }
    }

    fn home(&self, w: usize) -> usize {
        let slots = self.width();
        let hash = self.hash(w);
        let short = hash as u32;
        let home = match self.slip {
            Some(SixteenBitsOfTheHash) => u64::from(short as u16),
            Some(FoldedHash) => u64::from((short >> 16) ^ (short & 0xFFFF)),
            Some(SignedHash) => u64::from((short as i32).unsigned_abs()),
            Some(MaskForModulo) => return short as usize & (slots - 1),
            Some(HighBitsForModulo) => return ((u64::from(short) * slots as u64) >> 32) as usize,
            _ => hash,
        };
        (home % slots as u64) as usize
    }

    /// The slot after one, at the given step from home; none where there is no way.
    fn next(&self, slot: usize, step: usize) -> Option<usize> {
        let slots = self.width();
        match self.slip {
            Some(NotCyclic) => (slot + 1 < slots).then_some(slot + 1),
            Some(OnFromSlotOne) if slot + 1 == slots => Some(1 % slots),
            Some(Backwards) => Some((slot + slots - 1) % slots),
            Some(TwoOn) => Some((slot + 2) % slots),
            Some(Squares) => Some((slot + 2 * step + 1) % slots),
            _ => Some((slot + 1) % slots),
        }
    }

    /// The bytes of a word from its first to its last letter, comments and all.
    fn bytes(&self, w: usize) -> Vec<u8> {
        let word = &self.look.words[w];
        self.call.text[word.first..=word.last].to_ascii_lowercase()
    }

    /// Whether the word in a slot is taken for the one that is looked up.
    fn same(&self, held: usize, w: usize, step: usize) -> bool {
        let (a, b) = (&self.keys[held], &self.keys[w]);
        match self.slip {
            Some(BytesWithCommentsCompared) => self.bytes(held) == self.bytes(w),
            Some(HashAloneCompared) => self.hash(held) == self.hash(w),
            Some(LengthAndHashCompared) => a.len() == b.len() && self.hash(held) == self.hash(w),
            Some(BeginningTaken) => a.starts_with(b),
            Some(LongerWordTaken) => b.starts_with(a),
            Some(FourLettersCompared) => a.iter().take(4).eq(b.iter().take(4)),
            Some(HomeIsTheWord) => self.home(held) == self.home(w),
            Some(OnlyHomeLookedAt) => step == 0 && a == b,
            _ => a == b,
        }
    }

    /// Puts a word into the table; false where there is no slot for it.
    fn put(&self, table: &mut Table, w: usize) -> bool {
        if table.is_empty() {
            return false;
        }
        let home = self.home(w);
        let mut slot = home;
        for step in 0..table.len() {
            match table[slot] {
                Some(held) if self.same(held, w, step) => {
                    if self.is(LastMention) {
                        table[slot] = Some(w);
                    }
                    return true;
                }
                None => {
                    if self.is(LowestFreeSlot) && step > 0 {
                        slot = table.iter().position(Option::is_none).unwrap();
                    }
                    table[slot] = Some(w);
                    return true;
                }
                Some(_) if self.is(LaterWordTakesTheSlot) => {
                    table[slot] = Some(w);
                    return true;
                }
                // A second time round the end a free slot is taken unseen.
                Some(_) if self.is(LookedUpToTheLastSlot) && slot + 1 == table.len() => {
                    let free = table.iter().position(Option::is_none);
                    return free.map(|slot| table[slot] = Some(w)).is_some();
                }
                Some(_) => match self.next(slot, step) {
                    Some(next) => slot = next,
                    // Not to be had: the word falls away.
                    None => return true,
                },
            }
        }
        self.is(WordsBeyondTheSlotsDropped)
    }

    /// The words in the order in which they are put.
    fn order(&self) -> Vec<usize> {
        let words = &self.look.words;
        let mut order: Vec<usize> = (0..words.len()).collect();
        let is_data = |w: usize| self.look.rows[words[w].node].name.is_none();
        match self.slip {
            Some(FromTheLastMention) => order.reverse(),
            Some(InAlphabeticalOrder) => order.sort_by_key(|&w| &self.keys[w]),
            Some(NamesBeforeData) => order.sort_by_key(|&w| is_data(w)),
            Some(InOrderOfLastMention) => {
                let last = |w: &usize| self.keys.iter().rposition(|key| *key == self.keys[*w]);
                order.sort_by_key(last)
            }
            Some(OnlyAskedWords) => order.retain(|&w| self.query.contains(&self.keys[w])),
            _ => (),
        }
        order
    }

    /// The table, and whether every word found its slot.
    pub fn table(&self) -> (Table, bool) {
        let mut table = vec![None; self.width()];
        for w in self.order() {
            if !self.put(&mut table, w) {
                return (table, false);
            }
        }
        (table, true)
    }

    /// What a slot holds of a word.
    fn number(&self, w: usize) -> u32 {
        let word = &self.look.words[w];
        let row = &self.look.rows[word.node];
        let turn = self.keys[..w].iter().enumerate();
        let number = match self.slip {
            Some(PlaceWithoutOne) => word.first,
            Some(PlaceOfTheLastLetter) => word.last + 1,
            Some(PlaceAfterTheWord) => word.last + 2,
            Some(PlaceAfterAComment) => word.piece + 1,
            Some(PlaceOfTheName) => match &row.name {
                Some(name) => name.start + 1,
                None => word.first + 1,
            },
            Some(PlaceOfTheNode) => row.first + 1,
            Some(NodeInTheSlot) => word.node + 1,
            Some(HashInTheSlot) => self.hash(w) as usize,
            Some(TurnInTheSlot) => 1 + turn.filter(|(v, key)| !self.keys[..*v].contains(key)).count(),
            Some(PlacesOfSixteenBits) => word.first % 65_536 + 1,
            _ => word.first + 1,
        };
        number as u32
    }

    /// The final table.
    pub fn slots(&self, table: &Table) -> Vec<u32> {
        let lent = &self.call.slots;
        if self.is(TableStays) {
            return lent.clone();
        }
        let unused = lent.len() - table.len();
        table
            .iter()
            .chain(&vec![None; unused])
            .zip(lent)
            .map(|(held, &lent)| match held {
                Some(w) => self.number(*w),
                None if self.is(FreeSlotsStay) => lent,
                None => 0,
            })
            .collect()
    }
}
