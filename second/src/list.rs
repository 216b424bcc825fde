//! LIST.
//!
//! 01: "word j's list runs from the previous end (0 for the first) up to its
//! own end. The last end is the length of the occurrences. Each list is
//! strictly increasing, each entry is below n. A list may be empty." The place
//! is the lowest word that breaks this.

/// The end before word j's list.
fn previous_end(ends: &[u32], j: usize) -> usize {
    match j {
        0 => 0,
        _ => ends[j - 1] as usize,
    }
}

/// Whether a list breaks its own rules.
fn list_breaks(list: &[u32], n: usize) -> bool {
    list.iter().any(|&u| u as usize >= n) || list.windows(2).any(|pair| pair[0] >= pair[1])
}

/// Whether word j breaks a rule, the words below j being good. The list is
/// looked at only where its end is good.
fn word_breaks(n: usize, ends: &[u32], occurrences: &[u32], j: usize) -> bool {
    let start = previous_end(ends, j);
    let end = ends[j] as usize;
    let last = j + 1 == ends.len();
    end < start
        || end > occurrences.len()
        || (last && end != occurrences.len())
        || list_breaks(&occurrences[start..end], n)
}

/// The lowest word that breaks a rule.
pub fn list_fault(n: usize, ends: &[u32], occurrences: &[u32]) -> Option<usize> {
    (0..ends.len()).find(|&j| word_breaks(n, ends, occurrences, j))
}

/// The lists, parted by good ends.
pub fn lists<'a>(ends: &[u32], occurrences: &'a [u32]) -> Vec<&'a [u32]> {
    (0..ends.len())
        .map(|j| &occurrences[previous_end(ends, j)..ends[j] as usize])
        .collect()
}
