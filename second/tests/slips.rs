//! Wrong programs that look right: the small cases must tell each from 01 with
//! 02's rule for entities.

mod common;

use common::{index, twins, valid_by};
use second::call::{Call, Index, Search, COUNT, LIST, SIZE, TREE};
use second::class::{classes, closest_entity, Class};
use second::elca::{elca, own_counts};
use second::full::full;
use second::gen::small::small;
use second::judge::judge;
use second::list::lists;
use second::slca::slca;
use second::tree::{climb, level, under};
use second::valid::{is_valid, negators, valid};
use std::collections::BTreeSet;

const CASES: u64 = 6_000;
const ENOUGH: usize = 5;

/// Nodes, and own counts where the slip is about them.
type Answer = (Vec<u32>, Vec<u32>);

/// A wrong search, with its name.
type SearchSlip = (&'static str, fn(&Index) -> Answer);

/// What a wrong check gives as the place, if any; the check with its name.
type Fault = Option<usize>;
type CheckSlip = (&'static str, fn(&Call) -> Fault);

fn children(index: &Index, v: usize) -> Vec<usize> {
    (1..index.n())
        .filter(|&c| index.parents[c] as usize == v)
        .collect()
}

/// The count of word j at v.
fn count(index: &Index, j: usize, v: usize) -> u32 {
    let list = index.words[j];
    list.iter()
        .filter(|&&u| under(index.parents, v, u as usize))
        .count() as u32
}

/// ELCA by difference, less the counts at some nodes below v.
fn elca_less(index: &Index, less: impl Fn(usize) -> Vec<usize>) -> Answer {
    let full = full(index);
    let mut answer = (vec![], vec![]);
    for v in (0..index.n()).filter(|&v| full[v]) {
        let own: Vec<i64> = (0..index.p)
            .map(|j| {
                let inner: i64 = less(v).iter().map(|&c| i64::from(count(index, j, c))).sum();
                i64::from(count(index, j, v)) - inner
            })
            .collect();
        if own.iter().all(|&count| count >= 1) {
            answer.0.push(v as u32);
            answer.1.extend(own.iter().map(|&count| count as u32));
        }
    }
    answer
}

fn elca_slips() -> Vec<SearchSlip> {
    vec![
        ("only ELCA subtrees removed", |index| {
            let listed = elca(index).0;
            elca_less(index, |v| {
                // The topmost listed nodes below v.
                (0..index.n())
                    .filter(|&w| w != v && under(index.parents, v, w) && listed.contains(&(w as u32)))
                    .filter(|&w| {
                        climb(index.parents, w)
                            .skip(1)
                            .take_while(|&a| a != v)
                            .all(|a| !listed.contains(&(a as u32)))
                    })
                    .collect()
            })
        }),
        ("all children subtracted", |index| {
            elca_less(index, |v| children(index, v))
        }),
        ("full descendants subtracted twice", |index| {
            let full = full(index);
            elca_less(index, |v| {
                (0..index.n())
                    .filter(|&w| w != v && full[w] && under(index.parents, v, w))
                    .collect()
            })
        }),
        ("one word's own count is enough", |index| {
            let full = full(index);
            let own = own_counts(index, &full);
            let p = index.p;
            let nodes: Vec<usize> = (0..index.n())
                .filter(|&v| own[v * p..(v + 1) * p].iter().any(|&c| c > 0))
                .collect();
            (
                nodes.iter().map(|&v| v as u32).collect(),
                nodes
                    .iter()
                    .flat_map(|&v| own[v * p..(v + 1) * p].to_vec())
                    .collect(),
            )
        }),
        ("listed as a stack pops them", |index| {
            let mut nodes = elca(index).0;
            nodes.sort_by(|&v, &w| {
                let (v, w) = (v as usize, w as usize);
                if under(index.parents, v, w) || under(index.parents, w, v) {
                    w.cmp(&v)
                } else {
                    v.cmp(&w)
                }
            });
            let p = index.p;
            let own = own_counts(index, &full(index));
            let own = nodes
                .iter()
                .flat_map(|&v| own[v as usize * p..(v as usize + 1) * p].to_vec())
                .collect();
            (nodes, own)
        }),
        ("own counts word by word", |index| {
            let (nodes, own) = elca(index);
            let p = index.p;
            let turned = (0..p)
                .flat_map(|j| (0..nodes.len()).map(|i| own[i * p + j]).collect::<Vec<_>>())
                .collect();
            (nodes, turned)
        }),
    ]
}

/// The full nodes that pass a rule.
fn full_where(index: &Index, full: &[bool], rule: impl Fn(usize) -> bool) -> Answer {
    let nodes = (0..index.n()).filter(|&v| full[v] && rule(v));
    (nodes.map(|v| v as u32).collect(), vec![])
}

fn slca_slips() -> Vec<SearchSlip> {
    vec![
        ("the full nodes of the lowest level", |index| {
            let full = full(index);
            let levels: Vec<usize> = (0..index.n()).map(|v| level(index.parents, v)).collect();
            let lowest = (0..index.n()).filter(|&v| full[v]).map(|v| levels[v]).max();
            full_where(index, &full, |v| Some(levels[v]) == lowest)
        }),
        ("only the parent of an SLCA dropped", |index| {
            let full = full(index);
            let parent = |v: u32| index.parents[v as usize] as usize;
            let dropped: Vec<usize> = slca(index).into_iter().filter(|&v| v > 0).map(parent).collect();
            full_where(index, &full, |v| !dropped.contains(&v))
        }),
        ("the descendant of a pair dropped", |index| {
            let full = full(index);
            full_where(index, &full, |v| {
                !climb(index.parents, v).skip(1).any(|a| full[a])
            })
        }),
        ("ELCA for SLCA", |index| (elca(index).0, vec![])),
    ]
}

/// The SLCAs that pass a rule for every word.
fn valid_with(
    index: &Index,
    is_negator: &[bool],
    word_fits: impl Fn(&Index, &[bool], usize, &[u32]) -> bool,
) -> Answer {
    let nodes = slca(index)
        .into_iter()
        .filter(|&v| {
            index
                .positive()
                .iter()
                .all(|list| word_fits(index, is_negator, v as usize, list))
        })
        .collect();
    (nodes, vec![])
}

/// 01's own rule for one word under v.
fn has_valid(index: &Index, is_negator: &[bool], v: usize, list: &[u32]) -> bool {
    list.iter()
        .any(|&u| under(index.parents, v, u as usize) && is_valid(index, is_negator, u as usize))
}

/// Negators by another rule for the texts, the entities or the fallback.
fn negators_by(
    index: &Index,
    counts: impl Fn(usize) -> bool,
    closest: impl Fn(usize) -> Option<usize>,
) -> Vec<bool> {
    let mut marks = vec![false; index.n()];
    for &u in index.negative().iter().flat_map(|list| list.iter()) {
        if counts(u as usize) {
            if let Some(v) = closest(u as usize) {
                marks[v] = true;
            }
        }
    }
    marks
}

fn text(index: &Index) -> impl Fn(usize) -> bool {
    let tags = index.tags.to_vec();
    move |u| tags[u] == 0
}

/// The row of tags from the root down to each node.
fn rows(index: &Index) -> Vec<Vec<u32>> {
    let row = |v: usize| {
        let mut row: Vec<u32> = climb(index.parents, v).map(|above| index.tags[above]).collect();
        row.reverse();
        row
    };
    (0..index.n()).map(row).collect()
}

/// For each node whether some node of its type passes a rule.
fn of_type(index: &Index, rule: impl Fn(usize) -> bool) -> Vec<bool> {
    alike(index.n(), &rows(index), rule)
}

/// For each node whether some node with the same key passes a rule.
fn alike<K: PartialEq>(n: usize, keys: &[K], rule: impl Fn(usize) -> bool) -> Vec<bool> {
    (0..n)
        .map(|v| (0..n).any(|w| keys[w] == keys[v] && rule(w)))
        .collect()
}

/// Valid SLCA where the entities are chosen from the nodes that are neither
/// text nor attribute.
fn valid_where(index: &Index, chosen: &[bool]) -> Answer {
    (valid_by(index, |v| chosen[v]), vec![])
}

/// Valid SLCA where a node's type is this key, and all else is right.
fn valid_by_key<K: PartialEq>(index: &Index, key: impl Fn(usize) -> K) -> Answer {
    let keys: Vec<K> = (0..index.n()).map(key).collect();
    let twins = twins(index);
    valid_where(index, &alike(index.n(), &keys, |w| twins[w]))
}

/// Valid SLCA where only some nodes are asked whether they have a twin, for the
/// node v the nodes w that pass a rule.
fn valid_asking(index: &Index, asked: impl Fn(&[Vec<u32>], usize, usize) -> bool) -> Answer {
    let (rows, twins) = (rows(index), twins(index));
    let entity = |v: usize| (0..index.n()).any(|w| rows[w] == rows[v] && twins[w] && asked(&rows, v, w));
    (valid_by(index, entity), vec![])
}

/// The node two levels above v, or the root.
fn grandparent(index: &Index, v: usize) -> u32 {
    index.parents[index.parents[v] as usize]
}

/// Mistakes about types and the rule of 02, Q-1.
fn type_slips() -> Vec<SearchSlip> {
    vec![
        ("only the node's own siblings", |index| {
            valid_where(index, &twins(index))
        }),
        ("a type is the node's own tag", |index| {
            valid_by_key(index, |v| index.tags[v])
        }),
        ("a type is the tags of the parent and the node", |index| {
            valid_by_key(index, |v| (index.tags[index.parents[v] as usize], index.tags[v]))
        }),
        ("a type is the level and the tag", |index| {
            valid_by_key(index, |v| (level(index.parents, v), index.tags[v]))
        }),
        ("a type is the set of tags on the way", |index| {
            let rows = rows(index);
            valid_by_key(index, |v| rows[v].iter().copied().collect::<BTreeSet<u32>>())
        }),
        ("a type is the tags on the way in any order", |index| {
            let mut rows = rows(index);
            rows.iter_mut().for_each(|row| row.sort_unstable());
            valid_by_key(index, |v| rows[v].clone())
        }),
        ("a type ends above the node", |index| {
            let rows = rows(index);
            valid_by_key(index, |v| rows[v][..rows[v].len() - 1].to_vec())
        }),
        ("attributes of the type not asked for a twin", |index| {
            let classes = classes(index.parents, index.tags);
            valid_asking(index, |_, _, w| classes[w] != Class::Attribute)
        }),
        ("twins that are attributes not counted", |index| {
            let classes = classes(index.parents, index.tags);
            let counts = |v: usize| classes[v] != Class::Attribute;
            let twin_of = |w: usize, c: usize| c != w && index.tags[c] == index.tags[w] && counts(c);
            let rule = |w: usize| {
                let siblings = children(index, index.parents[w] as usize);
                w != 0 && counts(w) && siblings.iter().any(|&c| twin_of(w, c))
            };
            valid_where(index, &of_type(index, rule))
        }),
        ("an attribute is an entity where its type has twins", |index| {
            let twins = twins(index);
            let entity = of_type(index, |w| twins[w]);
            let marks = negators_by(index, text(index), |u| {
                climb(index.parents, u).skip(1).find(|&v| entity[v]).or(Some(0))
            });
            valid_with(index, &marks, has_valid)
        }),
        ("a text is an entity where its type has twins", |index| {
            let twins = twins(index);
            let of_type = of_type(index, |w| twins[w]);
            let classes = classes(index.parents, index.tags);
            let marks = negators_by(index, text(index), |u| {
                climb(index.parents, u)
                    .find(|&v| classes[v] != Class::Attribute && of_type[v])
                    .or(Some(0))
            });
            valid_with(index, &marks, has_valid)
        }),
        ("only the first node of a type asked", |index| {
            valid_asking(index, |rows, _, w| !rows[..w].contains(&rows[w]))
        }),
        ("only the last node of a type asked", |index| {
            valid_asking(index, |rows, _, w| !rows[w + 1..].contains(&rows[w]))
        }),
        ("only nodes up to this one asked", |index| {
            valid_asking(index, |_, v, w| w <= v)
        }),
        ("only nodes from this one on asked", |index| {
            valid_asking(index, |_, v, w| w >= v)
        }),
        ("only nodes with the same grandparent asked", |index| {
            valid_asking(index, |_, v, w| grandparent(index, v) == grandparent(index, w))
        }),
    ]
}

/// Valid SLCA where only the bits of the mask tell tags apart.
fn valid_by_bits(index: &Index, mask: u32) -> Answer {
    let masked = |&tag: &u32| if tag == 0 { 0 } else { 1 << 31 | tag & mask };
    let tags: Vec<u32> = index.tags.iter().map(masked).collect();
    let words = index.words.clone();
    let tags = &tags;
    (
        valid(&Index {
            words,
            tags,
            ..*index
        }),
        vec![],
    )
}

fn valid_slips() -> Vec<SearchSlip> {
    vec![
        ("only the low 11 bits of tags", |index| {
            valid_by_bits(index, 0x7FF)
        }),
        ("only the low 22 bits of tags", |index| {
            valid_by_bits(index, 0x3F_FFFF)
        }),
        ("all but the low 11 bits of tags", |index| {
            valid_by_bits(index, !0x7FF)
        }),
        ("twins only side by side", |index| {
            let beside = |v: usize| {
                let all = children(index, index.parents[v] as usize);
                all.windows(2)
                    .any(|pair| pair.contains(&v) && index.tags[pair[0]] == index.tags[pair[1]])
            };
            valid_where(index, &of_type(index, beside))
        }),
        ("NOT ignored", |index| (slca(index), vec![])),
        ("invalid occurrences deleted first", |index| {
            let is_negator = negators(index);
            let kept: Vec<Vec<u32>> = index
                .positive()
                .iter()
                .map(|list| {
                    list.iter()
                        .copied()
                        .filter(|&u| is_valid(index, &is_negator, u as usize))
                        .collect()
                })
                .collect();
            let words = kept.iter().map(Vec::as_slice).collect();
            (slca(&Index { words, ..*index }), vec![])
        }),
        ("validity looks only below the SLCA", |index| {
            valid_with(index, &negators(index), |index, is_negator, v, list| {
                list.iter().map(|&u| u as usize).any(|u| {
                    under(index.parents, v, u)
                        && !climb(index.parents, u).any(|a| under(index.parents, v, a) && is_negator[a])
                })
            })
        }),
        ("strict ancestors only", |index| {
            valid_with(index, &negators(index), |index, is_negator, v, list| {
                list.iter().map(|&u| u as usize).any(|u| {
                    under(index.parents, v, u) && !climb(index.parents, u).skip(1).any(|a| is_negator[a])
                })
            })
        }),
        ("one valid word suffices", |index| {
            let is_negator = negators(index);
            let mut nodes = slca(index);
            nodes.retain(|&v| {
                index
                    .positive()
                    .iter()
                    .any(|list| has_valid(index, &is_negator, v as usize, list))
            });
            (nodes, vec![])
        }),
        ("every occurrence must be valid", |index| {
            valid_with(index, &negators(index), |index, is_negator, v, list| {
                list.iter()
                    .map(|&u| u as usize)
                    .all(|u| !under(index.parents, v, u) || is_valid(index, is_negator, u))
            })
        }),
        ("negative words count at other nodes", |index| {
            let classes = classes(index.parents, index.tags);
            let marks = negators_by(
                index,
                |_| true,
                |u| Some(closest_entity(index.parents, &classes, u)),
            );
            valid_with(index, &marks, has_valid)
        }),
        ("the closest entity may be an attribute", |index| {
            let classes = classes(index.parents, index.tags);
            let marks = negators_by(index, text(index), |u| {
                let mut above = climb(index.parents, u).skip(1);
                above
                    .find(|&v| matches!(classes[v], Class::Entity | Class::Attribute))
                    .or(Some(0))
            });
            valid_with(index, &marks, has_valid)
        }),
        ("no fallback to the root", |index| {
            let classes = classes(index.parents, index.tags);
            let marks = negators_by(index, text(index), |u| {
                climb(index.parents, u)
                    .skip(1)
                    .find(|&v| classes[v] == Class::Entity)
            });
            valid_with(index, &marks, has_valid)
        }),
        ("the root as a twin of its children", |index| {
            let twins = twins(index);
            let twin = |v: usize| match v {
                0 => children(index, 0).iter().any(|&c| index.tags[c] == index.tags[0]),
                _ => twins[v] || (index.parents[v] == 0 && index.tags[v] == index.tags[0]),
            };
            valid_where(index, &of_type(index, twin))
        }),
    ]
}

/// Counts the undamaged cases that tell each slip from the right answer.
fn told_apart(search: Search, right: fn(&Index) -> Answer, slips: Vec<SearchSlip>) {
    let mut told = vec![0; slips.len()];
    for number in 0..CASES {
        let (call, damage) = small(10, number);
        if !damage.is_empty() || call.search != search {
            continue;
        }
        let index = index(&call);
        let right = right(&index);
        for (slip, (_, wrong)) in slips.iter().enumerate() {
            told[slip] += usize::from(wrong(&index) != right);
        }
    }
    hold(&told, slips.iter().map(|&(name, _)| name));
}

/// Prints how many cases tell each slip, and holds them to be enough.
fn hold<'a>(told: &[usize], names: impl Iterator<Item = &'a str>) {
    let told: Vec<(&str, usize)> = names.zip(told.iter().copied()).collect();
    told.iter().for_each(|(name, cases)| println!("{name}: {cases}"));
    for (name, cases) in told {
        assert!(cases >= ENOUGH, "{name}: told apart by {cases} cases only");
    }
}

#[test]
fn elca_slips_are_told_apart() {
    told_apart(Search::Elca, elca, elca_slips());
}

#[test]
fn slca_slips_are_told_apart() {
    told_apart(Search::Slca, |index| (slca(index), vec![]), slca_slips());
}

#[test]
fn valid_slips_are_told_apart() {
    told_apart(Search::Valid, |index| (valid(index), vec![]), valid_slips());
}

#[test]
fn type_slips_are_told_apart() {
    told_apart(Search::Valid, |index| (valid(index), vec![]), type_slips());
}

fn tree_slips() -> Vec<CheckSlip> {
    // A slip may let a tree pass whose climbs do not end, so they are cut.
    fn cut_level(call: &Call, v: usize) -> usize {
        climb(&call.parents, v).take(70).count()
    }
    fn walk(call: &Call, breaks: impl Fn(&Call, usize, &[usize]) -> bool) -> Fault {
        (0..call.n()).find(|&i| {
            let from = i.saturating_sub(1);
            let above: Vec<usize> = climb(&call.parents, from).take(70).collect();
            breaks(call, i, &above)
        })
    }
    fn right(call: &Call, i: usize, above: &[usize]) -> bool {
        let parent = call.parents[i] as usize;
        match i {
            0 => parent != 0 || call.tags[0] == 0,
            _ => !above.contains(&parent) || call.tags[parent] == 0 || cut_level(call, parent) >= 64,
        }
    }
    vec![
        ("root entry unchecked", |call| {
            walk(call, |call, i, above| {
                if i == 0 {
                    call.tags[0] == 0
                } else {
                    right(call, i, above)
                }
            })
        }),
        ("root tag unchecked", |call| {
            walk(call, |call, i, above| {
                if i == 0 {
                    call.parents[0] != 0
                } else {
                    right(call, i, above)
                }
            })
        }),
        ("a node may be its own parent", |call| {
            walk(call, |call, i, above| {
                call.parents[i] as usize != i && right(call, i, above)
            })
        }),
        ("any lower parent", |call| {
            walk(call, |call, i, above| match i {
                0 => right(call, i, above),
                _ => {
                    call.parents[i] as usize >= i
                        || call.tags[call.parents[i] as usize] == 0
                        || above.len() > 64
                }
            })
        }),
        ("level 65 allowed", |call| {
            walk(call, |call, i, above| match i {
                0 => right(call, i, above),
                _ => !above.contains(&(call.parents[i] as usize)) || call.tags[call.parents[i] as usize] == 0,
            })
        }),
        ("level 64 refused", |call| {
            walk(call, |call, i, above| {
                right(call, i, above) || (i > 0 && cut_level(call, call.parents[i] as usize) >= 63)
            })
        }),
        ("text parent told at the parent", |call| {
            walk(call, right).map(|i| match call.parents[i] as usize {
                parent if i > 0 && parent < i && call.tags[parent] == 0 => parent,
                _ => i,
            })
        }),
        ("text parents allowed", |call| {
            walk(call, |call, i, above| {
                let parent = call.parents[i] as usize;
                right(call, i, above) && !(i > 0 && above.contains(&parent) && call.tags[parent] == 0)
            })
        }),
    ]
}

fn list_slips() -> Vec<CheckSlip> {
    struct Rules {
        last_end: fn(usize, usize) -> bool,
        neighbours: fn(u32, u32) -> bool,
        entry: fn(usize, usize) -> bool,
        across: bool,
    }
    const RIGHT: Rules = Rules {
        last_end: |end, length| end == length,
        neighbours: |a, b| a < b,
        entry: |u, n| u < n,
        across: false,
    };
    fn walk(call: &Call, rules: Rules) -> Fault {
        let k = call.ends.len();
        let mut start = 0;
        for j in 0..k {
            let end = call.ends[j] as usize;
            if end < start || end > call.occurrences.len() {
                return Some(j);
            }
            if j + 1 == k && !(rules.last_end)(end, call.occurrences.len()) {
                return Some(j);
            }
            let from = if rules.across {
                start.saturating_sub(1)
            } else {
                start
            };
            let list = &call.occurrences[from..end];
            let good = list.iter().all(|&u| (rules.entry)(u as usize, call.n()))
                && list.windows(2).all(|pair| (rules.neighbours)(pair[0], pair[1]));
            if !good {
                return Some(j);
            }
            start = end;
        }
        None
    }
    vec![
        ("last end at most the length", |call| {
            walk(
                call,
                Rules {
                    last_end: |end, length| end <= length,
                    ..RIGHT
                },
            )
        }),
        ("equal neighbours allowed", |call| {
            walk(
                call,
                Rules {
                    neighbours: |a, b| a <= b,
                    ..RIGHT
                },
            )
        }),
        ("order unchecked", |call| {
            walk(
                call,
                Rules {
                    neighbours: |_, _| true,
                    ..RIGHT
                },
            )
        }),
        ("an entry equal to n allowed", |call| {
            walk(
                call,
                Rules {
                    entry: |u, n| u <= n,
                    ..RIGHT
                },
            )
        }),
        ("order kept across words", |call| {
            walk(
                call,
                Rules {
                    across: true,
                    ..RIGHT
                },
            )
        }),
    ]
}

fn count_slips() -> Vec<CheckSlip> {
    fn right(call: &Call) -> Vec<u32> {
        let words = lists(&call.ends, &call.occurrences);
        second::count::climbing(&call.parents, &words)
    }
    vec![
        ("only the root's counts", |call| {
            let right = right(call);
            (0..right.len())
                .step_by(call.n())
                .find(|&at| call.counts[at] != right[at])
        }),
        ("node by node", |call| {
            let right = right(call);
            let (n, k) = (call.n(), call.ends.len());
            (0..n)
                .flat_map(|v| (0..k).map(move |j| j * n + v))
                .find(|&at| call.counts[at] != right[at])
        }),
        ("held against the lent counts of the children", |call| {
            let n = call.n();
            let words = lists(&call.ends, &call.occurrences);
            (0..call.counts.len()).find(|&at| {
                let (j, v) = (at / n, at % n);
                let here = words[j].contains(&(v as u32));
                let below: u32 = (1..n)
                    .filter(|&c| call.parents[c] as usize == v)
                    .fold(0, |sum, c| sum.wrapping_add(call.counts[j * n + c]));
                call.counts[at] != below.wrapping_add(u32::from(here))
            })
        }),
        ("too high a count allowed", |call| {
            let right = right(call);
            (0..right.len()).find(|&at| call.counts[at] < right[at])
        }),
    ]
}

#[test]
fn check_slips_are_told_apart() {
    for (refusal, slips) in [(TREE, tree_slips()), (LIST, list_slips()), (COUNT, count_slips())] {
        let mut told = vec![0; slips.len()];
        for number in 0..CASES {
            let (call, _) = small(11, number);
            let reply = judge(&call).reply;
            // The check in question is reached.
            if reply.refusal == SIZE || (reply.refusal != 0 && reply.refusal < refusal) {
                continue;
            }
            let right = (reply.refusal == refusal).then_some(reply.place as usize);
            for (slip, (_, wrong)) in slips.iter().enumerate() {
                told[slip] += usize::from(wrong(&call) != right);
            }
        }
        hold(&told, slips.iter().map(|&(name, _)| name));
    }
}
