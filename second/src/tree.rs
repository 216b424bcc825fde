//! TREE, and the words "ancestor", "level" and "under".
//!
//! 01: "Node 0 is the root and its entry is 0. For i of 1 or more, the parent
//! of i must be i-1 or an ancestor of i-1. The root has level 1; a child has
//! its parent's level plus 1. Levels go up to 64." "The root is never text and
//! a text node has no child." "A node whose parent is text breaks TREE at the
//! child. The tree check walks upward from node 0 and stops at the lowest node
//! that breaks a rule."

/// "Levels go up to 64."
pub const LEVELS: usize = 64;

/// v, its parent, and so on up to the root. Meant for nodes whose lower
/// neighbours are all good: then it ends within 64 steps.
pub fn climb(parents: &[u32], v: usize) -> impl Iterator<Item = usize> + '_ {
    std::iter::successors(Some(v), move |&u| match u {
        0 => None,
        _ => Some(parents[u] as usize),
    })
}

/// The root has level 1, a child one more than its parent.
pub fn level(parents: &[u32], v: usize) -> usize {
    climb(parents, v).count()
}

/// "Under v" means v itself or a descendant.
pub fn under(parents: &[u32], v: usize, u: usize) -> bool {
    climb(parents, u).any(|above| above == v)
}

/// Whether node i breaks a rule, the nodes below i being good.
fn node_breaks(parents: &[u32], tags: &[u32], i: usize) -> bool {
    if i == 0 {
        return parents[0] != 0 || tags[0] == 0;
    }
    let parent = parents[i] as usize;
    let on_the_climb = climb(parents, i - 1).any(|above| above == parent);
    if !on_the_climb {
        return true;
    }
    tags[parent] == 0 || level(parents, parent) + 1 > LEVELS
}

/// The lowest node that breaks a rule. Tags are n long.
pub fn tree_fault(parents: &[u32], tags: &[u32]) -> Option<usize> {
    (0..parents.len()).find(|&i| node_breaks(parents, tags, i))
}
