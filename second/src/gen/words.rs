//! Lawful lists of a word's occurrences.

use super::rng::Rng;
use super::shape::Tree;
use crate::class::{classes, closest_entity, Class};
use crate::tree::{climb, level, under};
use std::collections::{BTreeMap, BTreeSet};

#[derive(Clone, Copy, PartialEq, Eq, Debug)]
pub enum Kind {
    Empty,
    /// Only at the root.
    Root,
    /// One to three nodes.
    Few,
    /// At each node with a chance of so many of a hundred.
    Each(usize),
    /// At text nodes with a chance of so many of a hundred.
    Texts(usize),
    /// At other nodes with a chance of so many of a hundred.
    Others(usize),
    /// One to three text nodes below an entity.
    Noted,
    /// At text nodes below an entity with a chance of so many of a hundred.
    NotedEach(usize),
    /// One to three text nodes whose closest entity has no sibling with its
    /// tag; where there are none, one to three below an entity.
    Lone,
    /// At each node with a chance of so many of a thousand.
    Thin(usize),
}

/// Nodes in increasing number, each once.
pub fn set(mut nodes: Vec<u32>) -> Vec<u32> {
    nodes.sort_unstable();
    nodes.dedup();
    nodes
}

/// One to three of the nodes; none where there are none.
pub fn few_of(rng: &mut Rng, nodes: &[u32]) -> Vec<u32> {
    if nodes.is_empty() {
        return vec![];
    }
    set((0..rng.range(1, 3)).map(|_| rng.pick(nodes)).collect())
}

fn nodes_where(tree: &Tree, mut rule: impl FnMut(usize) -> bool) -> Vec<u32> {
    (0..tree.parents.len())
        .filter(|&v| rule(v))
        .map(|v| v as u32)
        .collect()
}

/// The text nodes with an entity above them.
fn noted(tree: &Tree) -> Vec<u32> {
    let classes = classes(&tree.parents, &tree.tags);
    nodes_where(tree, |v| {
        tree.tags[v] == 0 && closest_entity(&tree.parents, &classes, v) != 0
    })
}

/// For each node whether it has a sibling with its tag.
fn twins(tree: &Tree) -> Vec<bool> {
    let place = |v: usize| (tree.parents[v], tree.tags[v]);
    let mut alike = BTreeMap::new();
    for v in 1..tree.parents.len() {
        *alike.entry(place(v)).or_insert(0) += 1;
    }
    (0..tree.parents.len())
        .map(|v| v != 0 && alike[&place(v)] >= 2)
        .collect()
}

/// Text nodes, each with a node above it.
pub type Below = Vec<(u32, usize)>;

/// The text nodes whose closest entity has no sibling with its tag, with that
/// entity.
pub fn lone(tree: &Tree) -> Below {
    let classes = classes(&tree.parents, &tree.tags);
    let twins = twins(tree);
    nodes_where(tree, |u| tree.tags[u] == 0)
        .into_iter()
        .map(|u| (u, closest_entity(&tree.parents, &classes, u as usize)))
        .filter(|&(_, v)| v != 0 && !twins[v])
        .collect()
}

/// The text nodes with the nearest node above them that is neither attribute
/// nor entity, though it has the level and the tag of one with a twin; without
/// those that have an entity nearer.
pub fn nearly_noted(tree: &Tree) -> Below {
    let classes = classes(&tree.parents, &tree.tags);
    let twins = twins(tree);
    let place = |v: usize| (level(&tree.parents, v), tree.tags[v]);
    let taken: BTreeSet<_> = (0..twins.len()).filter(|&v| twins[v]).map(place).collect();
    let near = |u: u32| {
        climb(&tree.parents, u as usize)
            .skip(1)
            .find(|&v| {
                classes[v] == Class::Entity || (classes[v] == Class::Dummy && taken.contains(&place(v)))
            })
            .filter(|&v| classes[v] == Class::Dummy)
            .map(|v| (u, v))
    };
    nodes_where(tree, |u| tree.tags[u] == 0)
        .into_iter()
        .filter_map(near)
        .collect()
}

/// A lawful list of the kind.
pub fn list(rng: &mut Rng, tree: &Tree, kind: Kind) -> Vec<u32> {
    match kind {
        Kind::Empty => vec![],
        Kind::Root => vec![0],
        Kind::Few => {
            let all = nodes_where(tree, |_| true);
            few_of(rng, &all)
        }
        Kind::Each(percent) => nodes_where(tree, |_| rng.percent(percent)),
        Kind::Texts(percent) => nodes_where(tree, |v| tree.tags[v] == 0 && rng.percent(percent)),
        Kind::Others(percent) => nodes_where(tree, |v| tree.tags[v] != 0 && rng.percent(percent)),
        Kind::Noted => few_of(rng, &noted(tree)),
        Kind::NotedEach(percent) => {
            let mut nodes = noted(tree);
            nodes.retain(|_| rng.percent(percent));
            nodes
        }
        Kind::Lone => {
            let texts: Vec<u32> = lone(tree).iter().map(|&(u, _)| u).collect();
            match texts.is_empty() {
                true => few_of(rng, &noted(tree)),
                false => few_of(rng, &texts),
            }
        }
        Kind::Thin(thousandths) => nodes_where(tree, |_| rng.range(0, 999) < thousandths),
    }
}

/// The texts nearest to the node v that are not under it: those under the
/// lowest node above v that has some.
pub fn beside(tree: &Tree, v: usize) -> Vec<u32> {
    climb(&tree.parents, v)
        .skip(1)
        .map(|above| {
            nodes_where(tree, |u| {
                tree.tags[u] == 0 && under(&tree.parents, above, u) && !under(&tree.parents, v, u)
            })
        })
        .find(|texts| !texts.is_empty())
        .unwrap_or_default()
}

/// The list with one more entry, where it is not there already.
pub fn with(list: &[u32], entry: u32) -> Vec<u32> {
    set([list, &[entry]].concat())
}

/// The list with one entry put in, taken out or moved, where this is possible.
pub fn nearly(rng: &mut Rng, n: usize, list: &[u32]) -> Vec<u32> {
    let mut changed = list.to_vec();
    let out = rng.percent(66) && !changed.is_empty();
    if out {
        changed.remove(rng.range(0, changed.len() - 1));
    }
    if !out || rng.percent(50) {
        changed.push(rng.range(0, n - 1) as u32);
    }
    set(changed)
}
