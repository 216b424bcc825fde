//! Lawful trees of several shapes.

use super::rng::Rng;
use crate::tree::LEVELS;

#[derive(Clone, Copy, PartialEq, Eq, Debug)]
pub enum Shape {
    Deep,
    Wide,
    Random,
    /// A spine with one leaf beside each node.
    Caterpillar,
    /// Spines, and after each of them, from its end up, one leaf beside each of
    /// its nodes: behind the whole spine there is something on every level.
    Comb,
    /// Chains from the root down to level 64, one after the other.
    Chains,
    /// All nodes but the root at level 2.
    Flat,
    /// Trains, legs, stations and notes; names and notes are text nodes.
    Schedule,
    /// Trains with one leg each, but the last one, which has two.
    OneLeg,
    /// Types met at many parents: alone at some, as twins at others.
    Alike,
}

/// How tags are dealt to the nodes that are not text.
#[derive(Clone, Copy, PartialEq, Eq, Debug)]
pub enum Tags {
    /// So many different tags.
    Few(usize),
    Distinct,
    /// Distinct, and different in high bits too.
    Spread,
}

pub struct Tree {
    pub parents: Vec<u32>,
    pub tags: Vec<u32>,
}

impl Tree {
    fn root(tag: u32) -> Tree {
        Tree {
            parents: vec![0],
            tags: vec![tag],
        }
    }

    fn len(&self) -> usize {
        self.parents.len()
    }

    /// Cuts off what comes after the first n nodes.
    fn cut(mut self, n: usize) -> Tree {
        self.parents.truncate(n);
        self.tags.truncate(n);
        self
    }

    /// Adds the next node and gives its number.
    fn add(&mut self, parent: u32, tag: u32) -> u32 {
        self.parents.push(parent);
        self.tags.push(tag);
        self.parents.len() as u32 - 1
    }

    /// Adds a node with one child, a text.
    fn attribute(&mut self, parent: u32, tag: u32) {
        let attribute = self.add(parent, tag);
        self.add(attribute, TEXT);
    }
}

/// The level of the next node's parent. The path is the climb from the last
/// node, root first. No node comes to stand below level 64.
fn parent_level(rng: &mut Rng, shape: Shape, i: usize, path: &[u32]) -> usize {
    let deepest = path.len().min(LEVELS - 1);
    match shape {
        Shape::Deep if rng.percent(85) => deepest,
        Shape::Deep => rng.range(1, deepest),
        Shape::Wide => rng.range(1, 3).min(deepest),
        Shape::Random => rng.range(1, deepest),
        // Odd nodes are leaves, even nodes carry the spine on.
        Shape::Caterpillar if i % 2 == 1 => deepest,
        Shape::Caterpillar => path.len() - 1,
        Shape::Chains if path.len() < LEVELS => deepest,
        Shape::Chains | Shape::Flat => 1,
        Shape::Comb | Shape::Schedule | Shape::OneLeg | Shape::Alike => {
            unreachable!("{shape:?} has its own maker")
        }
    }
}

/// The same for a comb of n nodes, which goes down to level 64 where it can.
fn comb_level(n: usize, i: usize) -> usize {
    let deepest = (n / 2).clamp(1, LEVELS - 1);
    match (i - 1) % (2 * deepest) {
        down if down < deepest => down + 1,
        up => 2 * deepest - up,
    }
}

fn parents(rng: &mut Rng, n: usize, shape: Shape) -> Vec<u32> {
    let mut parents = vec![0];
    let mut path = vec![0];
    for i in 1..n {
        let level = match shape {
            Shape::Comb => comb_level(n, i),
            _ => parent_level(rng, shape, i, &path),
        };
        parents.push(path[level - 1]);
        path.truncate(level);
        path.push(i as u32);
    }
    parents
}

/// Tags for given parents: of the leaves some are text.
fn tags(rng: &mut Rng, parents: &[u32], tags: Tags, texts_percent: usize) -> Vec<u32> {
    let n = parents.len();
    let mut leaf = vec![true; n];
    for i in 1..n {
        leaf[parents[i] as usize] = false;
    }
    (0..n)
        .map(|v| {
            if v > 0 && leaf[v] && rng.percent(texts_percent) {
                return 0;
            }
            match tags {
                Tags::Few(how_many) => rng.range(1, how_many) as u32,
                Tags::Distinct => v as u32 + 1,
                Tags::Spread => (v as u32 + 1).rotate_left(16),
            }
        })
        .collect()
}

const TEXT: u32 = 0;
const SCHEDULE: u32 = 1;
const TRAIN: u32 = 2;
const LEG: u32 = 3;
const FROM: u32 = 4;
const TO: u32 = 5;
const NOTE: u32 = 6;

/// A schedule, cut off at n nodes. Trains are twins; legs are twins where a
/// train has several; stations and notes are attributes, mostly.
fn schedule(rng: &mut Rng, n: usize) -> Tree {
    let mut tree = Tree::root(SCHEDULE);
    while tree.len() < n {
        if rng.percent(10) {
            // A note on the whole schedule.
            let note = tree.add(0, NOTE);
            tree.add(note, TEXT);
        }
        let train = tree.add(0, TRAIN);
        for _ in 0..rng.range(1, 3) {
            let leg = tree.add(train, LEG);
            let from = tree.add(leg, FROM);
            tree.add(from, TEXT);
            if rng.percent(80) {
                let to = tree.add(leg, TO);
                tree.add(to, TEXT);
                if rng.percent(15) {
                    // A station with a second text is no attribute.
                    tree.add(to, TEXT);
                }
            }
            // Several notes on one leg are twins, yet attributes.
            for _ in 0..rng.pick(&[0, 0, 1, 2, 3]) {
                let note = tree.add(leg, NOTE);
                tree.add(note, TEXT);
            }
            if rng.percent(15) {
                // A text straight under the leg.
                tree.add(leg, TEXT);
            }
        }
        if rng.percent(25) {
            // A text straight under the train.
            tree.add(train, TEXT);
        }
    }
    tree.cut(n)
}

/// Trains with one leg each, then one with two legs, all with a note; the rest
/// of the n nodes are texts and empty notes of the last train. All legs are
/// entities, for the sake of the last two.
fn one_leg(rng: &mut Rng, n: usize) -> Tree {
    let mut tree = Tree::root(SCHEDULE);
    let mut last = false;
    while !last {
        let train = tree.add(0, TRAIN);
        // Of this train 7 nodes would follow, and then the last one's 13.
        last = tree.len() + 7 + 13 > n;
        let legs = if last { 2 } else { 1 };
        for _ in 0..legs {
            let leg = tree.add(train, LEG);
            tree.attribute(leg, FROM);
            tree.attribute(leg, TO);
        }
        tree.attribute(train, NOTE);
        while last && tree.len() < n {
            tree.add(train, rng.pick(&[TEXT, NOTE]));
        }
    }
    tree.cut(n)
}

/// What stands at the ends of the ways of a tree of shape `Alike`.
#[derive(Clone, Copy)]
struct Ends {
    tag: u32,
    /// How many of a hundred twins are attributes.
    attributes: usize,
}

/// A child with two texts, with none, or with some children of few tags.
fn child(rng: &mut Rng, tree: &mut Tree, at: u32, tag: u32, height: usize) {
    let child = tree.add(at, tag);
    match rng.range(0, 9) {
        0 => (),
        1..=4 if height > 0 => bush(rng, tree, child, height - 1),
        _ => {
            tree.add(child, TEXT);
            tree.add(child, TEXT);
        }
    }
}

/// One to three children with few tags, some of them attributes.
fn bush(rng: &mut Rng, tree: &mut Tree, at: u32, height: usize) {
    for _ in 0..rng.range(1, 3) {
        let tag = rng.range(1, 2) as u32;
        if rng.percent(20) {
            tree.attribute(at, tag);
        } else {
            child(rng, tree, at, tag, height);
        }
    }
}

/// The end of a way: a child alone, or twins, or a bush; and often a text.
fn end_way(rng: &mut Rng, tree: &mut Tree, at: u32, ends: Ends) {
    match rng.range(0, 9) {
        0..=4 => child(rng, tree, at, ends.tag, 1),
        5..=7 => {
            for _ in 0..2 {
                if rng.percent(ends.attributes) {
                    tree.attribute(at, ends.tag);
                } else {
                    child(rng, tree, at, ends.tag, 1);
                }
            }
        }
        _ => bush(rng, tree, at, 2),
    }
    if rng.percent(60) {
        tree.add(at, TEXT);
    }
}

/// Ways down from the root, mostly of the same tags, cut off at n nodes. Now
/// and then a way has one other tag, or two tags exchanged: then all types from
/// there on are others.
fn alike(rng: &mut Rng, n: usize) -> Tree {
    let ends = Ends {
        tag: rng.range(1, 3) as u32,
        attributes: rng.pick(&[0, 30, 100, 100]),
    };
    let deepest = (n / 6).clamp(1, LEVELS - 6);
    let deep = rng.range(1, deepest);
    let depth = rng.pick(&[1, 2, 2, 3, deep]).min(deepest);
    let tags: Vec<u32> = (0..depth).map(|_| rng.range(1, 3) as u32).collect();
    let mut tree = Tree::root(rng.range(1, 3) as u32);
    while tree.len() < n {
        let mut way = tags.clone();
        if depth > 1 && rng.percent(25) {
            let level = rng.range(1, depth - 1);
            way.swap(level - 1, level);
        } else if rng.percent(20) {
            let level = rng.range(0, depth - 1);
            way[level] = way[level] % 3 + 1;
        }
        let end = way.iter().fold(0, |at, &tag| tree.add(at, tag));
        end_way(rng, &mut tree, end, ends);
    }
    tree.cut(n)
}

/// A lawful tree of n nodes.
pub fn tree(rng: &mut Rng, n: usize, shape: Shape, how: Tags, texts_percent: usize) -> Tree {
    match shape {
        Shape::Schedule => return schedule(rng, n),
        Shape::OneLeg => return one_leg(rng, n),
        Shape::Alike => return alike(rng, n),
        _ => (),
    }
    let parents = parents(rng, n, shape);
    let tags = tags(rng, &parents, how, texts_percent);
    Tree { parents, tags }
}

/// Sends the tags to large numbers, each its own; text stays text.
pub fn large_tags(tags: &mut [u32]) {
    for tag in tags.iter_mut().filter(|tag| **tag != 0) {
        *tag = u32::MAX - (*tag - 1);
    }
}

/// Turns the bits of the tags: what told small tags apart stands in higher
/// bits, and low bits are alike. Text stays text, and twins stay twins.
pub fn turn_tags(tags: &mut [u32], by: u32) {
    for tag in tags.iter_mut() {
        *tag = tag.rotate_left(by);
    }
}
