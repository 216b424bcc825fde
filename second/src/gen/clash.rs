//! Words with one hash of 32-bit FNV-1a.
//!
//! The same letters behind words with one hash leave them with one hash. So there
//! are as many of them as are wanted.

use super::rng::Rng;

/// Words with one hash in each: of English, found by others; short ones; of three
/// words; and those of which one begins the other.
pub const GROUPS: &[&[&str]] = &[
    &["costarring", "liquid"],
    &["declinate", "macallums"],
    &["altarage", "zinke"],
    &["e6uu", "7yfa"],
    &["gwzx", "16cd"],
    &["hrx", "os4yg"],
    &["4fe", "ospez"],
    &["gckxr", "ydtrd"],
    &["gvlpp", "yomzf"],
    &["e6ow", "7ylc", "9zdfd"],
    &["e6ax", "7yzd", "9zdhg"],
    &["kpq", "kpqudna"],
    &["yua", "yuazkqv"],
    &["efw", "efwmg8d"],
];

/// Two ways to go on at each stage, behind the words of the stages before, with one
/// hash.
pub const STAGES: [[&str; 2]; 10] = [
    ["gwzx", "16cd"],
    ["yyao", "1kia"],
    ["g3zx", "1pad"],
    ["epvu", "33ea"],
    ["zwfo", "2uja"],
    ["g3zx", "1pad"],
    ["epvu", "33ea"],
    ["zwfo", "2uja"],
    ["g3zx", "1pad"],
    ["epvu", "33ea"],
];

/// All words of so many stages: each stage twice as many with one hash.
pub fn of_stages(stages: usize) -> Vec<Vec<u8>> {
    let mut words = vec![vec![]];
    for ways in &STAGES[..stages] {
        let both = |word: &Vec<u8>| ways.map(|way| [word.as_slice(), way.as_bytes()].concat());
        words = words.iter().flat_map(both).collect();
    }
    words
}

/// The words of a group, now and then with letters behind each; or all those of
/// some stages.
pub fn group(rng: &mut Rng) -> Vec<Vec<u8>> {
    if rng.percent(15) {
        return of_stages(rng.range(2, 3));
    }
    let behind = rng.pick(&["", "", "", "s", "x9", "ab"]);
    let group = rng.pick(GROUPS);
    group
        .iter()
        .map(|word| [word.as_bytes(), behind.as_bytes()].concat())
        .collect()
}

/// Another word with the hash of this one, if it is of a group.
pub fn partner(rng: &mut Rng, word: &[u8]) -> Option<Vec<u8>> {
    for group in GROUPS {
        // The longest that it begins with: one may begin another.
        let begins = group.iter().filter(|begin| word.starts_with(begin.as_bytes()));
        if let Some(own) = begins.max_by_key(|begin| begin.len()) {
            let others: Vec<&&str> = group.iter().filter(|other| *other != own).collect();
            let other = rng.pick(&others);
            return Some([other.as_bytes(), &word[own.len()..]].concat());
        }
    }
    None
}
