//! The lists of the query's words, and their counts.

use super::model::Model;
use super::Slip::*;
use second::build::fnv::fnv1a;

impl Model<'_> {
    /// Whether word w of the text is asked for by a word.
    fn asked(&self, asked: &[u8], w: usize) -> bool {
        let key = &self.keys[w];
        let is_name = self.look.rows[self.look.words[w].node].name.is_some();
        let lower = asked.to_ascii_lowercase();
        match self.slip {
            Some(AskedWithItsCase) => key == asked,
            Some(AskedInCapitals) => self.look.words[w].raw == asked.to_ascii_uppercase(),
            Some(AskedBeginningFound) => key.starts_with(&lower),
            Some(AskedPartFound) => key.windows(lower.len().max(1)).any(|part| part == lower),
            Some(AskedLongerFound) => lower.starts_with(key),
            Some(AskedByHash) => fnv1a(&lower) == fnv1a(key),
            Some(AskedInData) => !is_name && *key == lower,
            Some(AskedInNames) => is_name && *key == lower,
            Some(CaseKept) => key == asked,
            _ => *key == lower,
        }
    }

    /// The mentions of a word that is asked for, as they are listed.
    fn mentioned(&self, asked: &[u8]) -> Vec<u32> {
        let rows = &self.look.rows;
        let listed = |w: usize| {
            let word = &self.look.words[w];
            match self.slip {
                Some(AtTheParent) => rows[word.node].parent,
                Some(DataAtItsElement) if rows[word.node].name.is_none() => rows[word.node].parent,
                Some(PlacesListed) => word.first,
                _ => word.node,
            }
        };
        let all = (0..self.keys.len()).filter(|&w| self.asked(asked, w));
        all.map(|w| listed(w) as u32).collect()
    }

    pub fn list(&self, asked: &[u8]) -> Vec<u32> {
        let mut list = self.mentioned(asked);
        match self.slip {
            Some(NodeTwice) => (),
            Some(AtTheParent | DataAtItsElement) => {
                list.sort_unstable();
                list.dedup();
            }
            _ => list.dedup(),
        }
        match self.slip {
            Some(FirstNodeOnly) => list.truncate(1),
            Some(LastNodeLeftOut) => drop(list.pop()),
            Some(Decreasing) => list.reverse(),
            _ => (),
        }
        list
    }

    pub fn lists(&self) -> Vec<Vec<u32>> {
        let mut order: Vec<usize> = (0..self.query.len()).collect();
        let lower = |j: usize| self.query[j].to_ascii_lowercase();
        match self.slip {
            Some(InOrderOfAppearance) => {
                let first = |j: usize| self.keys.iter().position(|key| *key == lower(j));
                order.sort_by_key(|&j| first(j).unwrap_or(usize::MAX))
            }
            Some(InAlphabeticalLists) => order.sort_by_key(|&j| lower(j)),
            _ => (),
        }
        let again = |j: usize| (0..j).any(|i| lower(i) == lower(j));
        let list = |&j: &usize| match self.slip {
            Some(SameWordOnce) if again(j) => vec![],
            _ => self.list(&self.query[j]),
        };
        order.iter().map(list).collect()
    }

    pub fn ends(&self, lists: &[Vec<u32>]) -> Vec<u32> {
        let mut end = 0;
        let mut ends = vec![];
        for list in lists {
            let start = end;
            end += list.len() as u32;
            ends.push(match self.slip {
                Some(LengthsForEnds) => list.len() as u32,
                Some(StartsForEnds) => start,
                Some(EndsFromOne) => end + 1,
                _ => end,
            });
        }
        ends
    }

    /// The node after the last under each.
    fn behind(&self) -> Vec<usize> {
        let rows = &self.look.rows;
        let mut behind: Vec<usize> = (1..=rows.len()).collect();
        for v in (1..rows.len()).rev() {
            let parent = rows[v].parent;
            behind[parent] = behind[parent].max(behind[v]);
        }
        behind
    }

    pub fn counts(&self, lists: &[Vec<u32>]) -> Vec<u32> {
        let (n, k) = (self.n(), lists.len());
        let behind = self.behind();
        let parent = |u: u32| self.look.rows[u as usize % n].parent;
        let mut counts = vec![0; k * n];
        for (j, list) in lists.iter().enumerate() {
            let counted = match self.slip {
                Some(MentionsCounted) => self.mentioned(&self.query[j]),
                _ => list.clone(),
            };
            for (v, &behind) in behind.iter().enumerate() {
                let up_to = |end: usize| counted.partition_point(|&u| (u as usize) < end);
                let itself = up_to(v + 1).saturating_sub(up_to(v));
                let under = up_to(behind).saturating_sub(up_to(v));
                let count = match self.slip {
                    Some(OnlyTheRoot) if v > 0 => 0,
                    Some(WithoutItself) => under.saturating_sub(itself),
                    Some(OnlyItself) => itself,
                    Some(ItselfAndItsChildren) => counted
                        .iter()
                        .filter(|&&u| u as usize == v || parent(u) == v)
                        .count(),
                    Some(OneAtMost) => under.min(1),
                    Some(RootTwice) if v == 0 => under + itself,
                    Some(AllBehindIt) => counted.len() - up_to(v),
                    _ => under,
                };
                let entry = match self.slip {
                    Some(NodeByNode) => v * k + j,
                    _ => j * n + v,
                };
                counts[entry] = count as u32;
            }
        }
        counts
    }
}
