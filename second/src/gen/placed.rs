//! Words placed around one node, so that a wanted reason mostly holds of it.

use super::rng::Rng;
use super::shape::Tree;
use super::words::{few_of, set};
use crate::tree::{climb, under};

/// What is wanted of the node.
#[derive(Clone, Copy, PartialEq, Eq, PartialOrd, Ord, Debug)]
pub enum Want {
    /// A word is kept from under it.
    NotFull,
    /// Some of its children are full, and a word occurs under it only there.
    NotListed,
    /// Every word has an occurrence that is its own. Some of its children may be
    /// full.
    Listed,
}

/// The nodes under a child that is to be full.
struct Part {
    nodes: Vec<u32>,
    /// Some of them, among which every word occurs: all, or those under one of
    /// them, which is then full too.
    core: Vec<u32>,
}

/// The nodes of a tree, as one of them sees them.
struct View {
    node: u32,
    /// Not under it.
    outside: Vec<u32>,
    /// Under its children that are to be full.
    parts: Vec<Part>,
    /// Under its other children.
    free: Vec<u32>,
}

/// A node to place words around: mostly one with several children.
pub fn middle(rng: &mut Rng, tree: &Tree) -> usize {
    let n = tree.parents.len();
    let mut children = vec![0; n];
    tree.parents[1..].iter().for_each(|&v| children[v as usize] += 1);
    let least = rng.weighted(&[(40, 3), (40, 2), (15, 1), (5, 0)]);
    let nodes: Vec<usize> = (0..n).filter(|&v| children[v] >= least).collect();
    match nodes.is_empty() {
        true => 0,
        false => rng.pick(&nodes),
    }
}

/// The child of v that u is under, or v itself where u is v; none where u is not
/// under v.
fn child_above(tree: &Tree, v: usize, u: usize) -> Option<usize> {
    let mut last = u;
    for above in climb(&tree.parents, u) {
        if above == v {
            return Some(last);
        }
        last = above;
    }
    None
}

fn part(rng: &mut Rng, tree: &Tree, nodes: Vec<u32>) -> Part {
    let mut core = nodes.clone();
    if rng.percent(50) {
        let deep = rng.pick(&nodes) as usize;
        core.retain(|&u| under(&tree.parents, deep, u as usize));
    }
    Part { nodes, core }
}

/// What node v sees, of whose children these are to be full.
fn view(rng: &mut Rng, tree: &Tree, v: usize, full: &[u32]) -> View {
    let mut outside = vec![];
    let mut below = vec![vec![]; full.len()];
    let mut free = vec![];
    for u in 0..tree.parents.len() {
        let nodes = match child_above(tree, v, u) {
            None => &mut outside,
            Some(child) if child == v => continue,
            Some(child) => match full.iter().position(|&c| c as usize == child) {
                Some(at) => &mut below[at],
                None => &mut free,
            },
        };
        nodes.push(u as u32);
    }
    View {
        node: v as u32,
        outside,
        parts: below.into_iter().map(|nodes| part(rng, tree, nodes)).collect(),
        free,
    }
}

/// The list of a word that occurs under every child that is to be full, and may
/// have occurrences of the node's own.
fn word(rng: &mut Rng, view: &View, own: bool) -> Vec<u32> {
    let mut nodes = vec![];
    for part in &view.parts {
        nodes.push(rng.pick(&part.core));
        if rng.percent(40) {
            nodes.push(rng.pick(&part.nodes));
        }
    }
    if own && (view.free.is_empty() || rng.percent(15)) {
        nodes.push(view.node);
    } else if own {
        nodes.extend(few_of(rng, &view.free));
    }
    if rng.percent(60) {
        nodes.extend(few_of(rng, &view.outside));
    }
    set(nodes)
}

/// For each word whether it gets occurrences of the node's own: all up to one
/// that gets none, and some behind it.
fn owned(rng: &mut Rng, p: usize, want: Want) -> Vec<bool> {
    let some = rng.range(0, p - 1);
    let first = match want {
        Want::Listed => p,
        _ => rng.pick(&[some, some, p - 1]),
    };
    (0..p)
        .map(|j| j < first || (j > first && rng.percent(50)))
        .collect()
}

/// The children of v that are to be full. Of several one is not.
fn full_children(rng: &mut Rng, tree: &Tree, v: usize, want: Want) -> Vec<u32> {
    let mut children: Vec<u32> = (1..tree.parents.len() as u32)
        .filter(|&c| tree.parents[c as usize] as usize == v)
        .collect();
    if let [_, .., last] = children[..] {
        let free = rng.pick(&children);
        let free = rng.pick(&[free, last]);
        children.retain(|&c| c != free);
    }
    match want {
        Want::NotFull => vec![],
        Want::Listed if rng.percent(20) => vec![],
        _ => few_of(rng, &children),
    }
}

/// The lists of p words around node v. Now and then a word stands twice.
pub fn place(rng: &mut Rng, tree: &Tree, v: usize, p: usize, want: Want) -> Vec<Vec<u32>> {
    let full = full_children(rng, tree, v, want);
    let view = view(rng, tree, v, &full);
    let owned = owned(rng, p, want);
    let mut words: Vec<Vec<u32>> = owned.iter().map(|&own| word(rng, &view, own)).collect();
    // A child under which all words occur is full, even if there is one word
    // only: what is at the node itself is its own all the same.
    if want == Want::Listed && (p == 1 || rng.percent(65)) {
        let here = &mut words[rng.range(0, p - 1)];
        here.push(v as u32);
        *here = set(here.clone());
    }
    if p > 1 && rng.percent(12) {
        words[rng.range(0, p - 1)] = words[rng.range(0, p - 1)].clone();
    }
    words
}
