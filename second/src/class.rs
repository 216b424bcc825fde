//! Node classes, types and the closest entity.
//!
//! 01: "first rule that fits: text, tag 0; attribute, exactly one child and
//! that child is text; entity, another child of the same parent has the same
//! tag; otherwise dummy. The closest entity of a text node is the nearest
//! entity above it; if there is none, it is the root."
//!
//! 02, Q-1, puts another rule in the place of the one for entities: "From now
//! on a node's type is the row of tags from the root down to it, and a
//! non-attribute, non-text node is an entity if some node of the same type has
//! a sibling with its tag."
//!
//! A node's own tag ends its row. "Some node" may be the node itself, and may
//! be an attribute. The order of the classes is 01's. The root is nobody's
//! child, though its entry is 0, and no other node has its type: it is never an
//! entity.

use crate::both::agreed;
use crate::tree::climb;
use std::collections::{BTreeMap, BTreeSet};

#[derive(Clone, Copy, PartialEq, Eq, Debug)]
pub enum Class {
    Text,
    Attribute,
    Entity,
    Dummy,
}

/// The first rule that fits.
fn first_that_fits(text: bool, attribute: bool, entity: bool) -> Class {
    if text {
        Class::Text
    } else if attribute {
        Class::Attribute
    } else if entity {
        Class::Entity
    } else {
        Class::Dummy
    }
}

/// The children of v.
fn children(parents: &[u32], v: usize) -> Vec<usize> {
    (1..parents.len()).filter(|&c| parents[c] as usize == v).collect()
}

/// The row of tags from the root down to v.
fn row_of_tags(parents: &[u32], tags: &[u32], v: usize) -> Vec<u32> {
    let mut row: Vec<u32> = climb(parents, v).map(|above| tags[above]).collect();
    row.reverse();
    row
}

/// Whether v has a sibling with its tag.
fn has_twin(parents: &[u32], tags: &[u32], v: usize) -> bool {
    let twin = |&c: &usize| c != v && tags[c] == tags[v];
    v != 0 && children(parents, parents[v] as usize).iter().any(twin)
}

/// Each node held against all others, row of tags against row of tags.
pub fn literal(parents: &[u32], tags: &[u32]) -> Vec<Class> {
    let n = parents.len();
    let rows: Vec<Vec<u32>> = (0..n).map(|v| row_of_tags(parents, tags, v)).collect();
    let class = |v: usize| {
        let below = children(parents, v);
        first_that_fits(
            tags[v] == 0,
            below.len() == 1 && tags[below[0]] == 0,
            (0..n).any(|w| rows[w] == rows[v] && has_twin(parents, tags, w)),
        )
    };
    (0..n).map(class).collect()
}

/// A number for each node's type. The root's is 0; another is found by the
/// type of the parent and the tag.
fn types(parents: &[u32], tags: &[u32]) -> Vec<usize> {
    let mut numbers: BTreeMap<(usize, u32), usize> = BTreeMap::new();
    let mut types = vec![0];
    for v in 1..parents.len() {
        let fresh = numbers.len() + 1;
        let by = (types[parents[v] as usize], tags[v]);
        types.push(*numbers.entry(by).or_insert(fresh));
    }
    types
}

/// The types of which two nodes are children of one parent.
fn types_with_twins(parents: &[u32], types: &[usize]) -> BTreeSet<usize> {
    let mut met = BTreeSet::new();
    (1..parents.len())
        .filter(|&v| !met.insert((parents[v], types[v])))
        .map(|v| types[v])
        .collect()
}

/// The same, from numbers gathered in passes over all nodes.
pub fn gathered(parents: &[u32], tags: &[u32]) -> Vec<Class> {
    let n = parents.len();
    let mut children = vec![0; n];
    let mut text_children = vec![0; n];
    for c in 1..n {
        let parent = parents[c] as usize;
        children[parent] += 1;
        if tags[c] == 0 {
            text_children[parent] += 1;
        }
    }
    let types = types(parents, tags);
    let with_twins = types_with_twins(parents, &types);
    let class = |v: usize| {
        first_that_fits(
            tags[v] == 0,
            children[v] == 1 && text_children[v] == 1,
            with_twins.contains(&types[v]),
        )
    };
    (0..n).map(class).collect()
}

pub fn classes(parents: &[u32], tags: &[u32]) -> Vec<Class> {
    agreed("classes", parents.len(), gathered(parents, tags), || {
        literal(parents, tags)
    })
}

/// The nearest entity above the text node u, or the root.
pub fn closest_entity(parents: &[u32], classes: &[Class], u: usize) -> usize {
    climb(parents, u)
        .skip(1)
        .find(|&v| classes[v] == Class::Entity)
        .unwrap_or(0)
}
