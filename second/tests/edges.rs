//! 01, "At the edges", and the refusals one by one.

#[macro_use]
mod common;

use common::{chain, lawful};
use second::call::{Call, Reply, Search, ACCEPTED, COUNT, LIST, ROOM, SIZE, TREE};
use second::judge::judge;

fn refused(refusal: u32, place: u32) -> Reply {
    Reply {
        refusal,
        place,
        total: 0,
    }
}

fn listed(total: u32) -> Reply {
    Reply {
        refusal: ACCEPTED,
        place: 0,
        total,
    }
}

/// n nodes, all children of the root.
fn flat(n: usize) -> Vec<u32> {
    vec![0; n]
}

#[test]
fn level_64_is_accepted_and_level_65_is_tree() {
    for search in Search::ALL {
        let call = lawful(search, &chain(64), &[1; 64], &[&[63]], &[]);
        let total = if search == Search::Check { 0 } else { 1 };
        assert_eq!(judge(&call).reply, listed(total));
        let call = lawful(search, &chain(65), &[1; 65], &[&[63]], &[]);
        let after = judge(&call);
        assert_eq!(after.reply, refused(TREE, 64));
        assert_eq!(after.work[..3 * 65], [0; 3 * 65]);
        assert_eq!(after.work[3 * 65..], [7; 3]);
    }
}

#[test]
fn n_65_536_is_accepted_and_65_537_is_size() {
    for search in Search::ALL {
        let n = 65_536;
        let call = lawful(search, &flat(n), &vec![1; n], &[&[0, 65_535]], &[]);
        let total = match search {
            Search::Check => 0,
            Search::Elca => 2,
            _ => 1,
        };
        assert_eq!(judge(&call).reply, listed(total));
        let call = lawful(search, &flat(n + 1), &vec![1; n + 1], &[&[0, 65_535]], &[]);
        let after = judge(&call);
        assert_eq!(after.reply, refused(SIZE, 0));
        assert_eq!(
            (after.work, after.out, after.own),
            (call.work, call.out, call.own)
        );
    }
}

#[test]
fn a_list_4_4_is_list() {
    let mut call = lawful(Search::Elca, &flat(6), &[1; 6], &[&[1], &[4, 5]], &[]);
    assert_eq!(judge(&call).reply.refusal, ACCEPTED);
    call.occurrences[2] = 4;
    assert_eq!(judge(&call).reply, refused(LIST, 1));
}

#[test]
fn one_node_with_the_word_lists_0() {
    for search in [Search::Elca, Search::Slca, Search::Valid] {
        let after = judge(&lawful(search, &[0], &[9], &[&[0]], &[]));
        assert_eq!(after.reply, listed(1));
        assert_eq!(after.out, [0]);
    }
}

#[test]
fn tree_places() {
    let base = |parents: &[u32], tags: &[u32]| {
        let mut call = lawful(Search::Check, &[0, 0, 1, 0, 3], &[1, 2, 0, 2, 0], &[&[2]], &[]);
        call.parents = parents.to_vec();
        call.tags = tags.to_vec();
        judge(&call).reply
    };
    let tags = [1, 2, 0, 2, 0];
    assert_eq!(base(&[0, 0, 1, 0, 3], &tags), listed(0));
    assert_eq!(base(&[1, 0, 1, 0, 3], &tags), refused(TREE, 0));
    assert_eq!(base(&[0, 0, 1, 0, 3], &[0, 2, 0, 2, 0]), refused(TREE, 0));
    // Itself, a later node, a node off the climb, far out.
    assert_eq!(base(&[0, 1, 1, 0, 3], &tags), refused(TREE, 1));
    assert_eq!(base(&[0, 2, 1, 0, 3], &tags), refused(TREE, 1));
    assert_eq!(base(&[0, 0, 1, 0, 1], &tags), refused(TREE, 4));
    assert_eq!(base(&[0, 0, 1, u32::MAX, 3], &tags), refused(TREE, 3));
    // A text parent breaks the rule at the child.
    assert_eq!(base(&[0, 0, 1, 2, 3], &tags), refused(TREE, 3));
    assert_eq!(base(&[0, 0, 1, 0, 3], &[1, 2, 0, 0, 0]), refused(TREE, 4));
    // Any tag but 0 is free.
    let top = u32::MAX;
    assert_eq!(base(&[0, 0, 1, 0, 3], &[top, top, 0, top, 0]), listed(0));
}

#[test]
fn list_places() {
    let base = |ends: &[u32], occurrences: &[u32]| {
        let mut call = lawful(Search::Check, &flat(6), &[1; 6], &[&[1, 2], &[0, 5]], &[&[3]]);
        call.ends = ends.to_vec();
        call.occurrences = occurrences.to_vec();
        judge(&call).reply
    };
    assert_eq!(base(&[2, 4, 5], &[1, 2, 0, 5, 3]), listed(0));
    assert_eq!(base(&[6, 4, 5], &[1, 2, 0, 5, 3]), refused(LIST, 0));
    assert_eq!(base(&[2, 1, 5], &[1, 2, 0, 5, 3]), refused(LIST, 1));
    assert_eq!(base(&[2, u32::MAX, 5], &[1, 2, 0, 5, 3]), refused(LIST, 1));
    assert_eq!(base(&[2, 4, 4], &[1, 2, 0, 5, 3]), refused(LIST, 2));
    assert_eq!(base(&[2, 4, 6], &[1, 2, 0, 5, 3]), refused(LIST, 2));
    assert_eq!(base(&[2, 4, 5], &[1, 2, 0, 6, 3]), refused(LIST, 1));
    assert_eq!(base(&[2, 4, 5], &[2, 1, 0, 5, u32::MAX]), refused(LIST, 0));
    // Each list starts anew: 2 then 0 is no decrease.
    assert_eq!(base(&[3, 4, 5], &[1, 2, 0, 5, 3]), refused(LIST, 0));
    // Good lists with another end: the counts are false.
    assert_eq!(base(&[1, 4, 5], &[1, 0, 2, 5, 3]), refused(COUNT, 0));
}

#[test]
fn count_place_goes_word_by_word() {
    let mut call = lawful(Search::Valid, &flat(4), &[1; 4], &[&[1], &[2]], &[&[3]]);
    call.counts[2 * 4] += 1;
    assert_eq!(judge(&call).reply, refused(COUNT, 8));
    call.counts[4] += 1;
    assert_eq!(judge(&call).reply, refused(COUNT, 4));
    call.counts[3] += 1;
    assert_eq!(judge(&call).reply, refused(COUNT, 3));
}

#[test]
fn size_reasons() {
    let base = || lawful(Search::Valid, &flat(4), &[1; 4], &[&[1], &[2]], &[&[3]]);
    let others: Vec<fn(&mut Call)> = vec![
        |call| call.work.truncate(5 * 4 - 1),
        |call| (call.p, call.q) = (0, 3),
        |call| (call.p, call.q) = (2, 7),
        |call| (call.p, call.q) = (9, 0),
        |call| (call.p, call.q) = (u32::MAX, 4),
        |call| (call.p, call.q) = (4, u32::MAX),
        |call| (call.p, call.q) = (u32::MAX, u32::MAX),
        |call| call.search = Search::Elca,
        |call| call.search = Search::Slca,
        |call| {
            call.parents.clear();
            call.tags.clear();
            call.counts.clear();
        },
    ];
    let lengths = other_lengths!(Call: parents, tags, ends, counts);
    for spoil in others.into_iter().chain(lengths) {
        let mut call = base();
        spoil(&mut call);
        // SIZE comes before every other refusal.
        for entry in call.parents.iter_mut().chain(&mut call.occurrences) {
            *entry = u32::MAX;
        }
        let after = judge(&call);
        assert_eq!(after.reply, refused(SIZE, 0));
        assert_eq!(
            (after.work, after.out, after.own),
            (call.work, call.out, call.own)
        );
    }
    let mut call = base();
    call.work.truncate(5 * 4);
    assert_eq!(judge(&call).reply, listed(1));
    // Neither out nor own is a matter of SIZE; own is no matter of valid.
    call.own.clear();
    assert_eq!(judge(&call).reply, listed(1));
    call.out.clear();
    assert_eq!(
        judge(&call).reply,
        Reply {
            refusal: ROOM,
            place: 0,
            total: 1
        }
    );
}

#[test]
fn eight_positive_words_and_eight_words_in_all() {
    let word: &[u32] = &[1];
    let call = lawful(Search::Elca, &flat(3), &[1; 3], &[word; 8], &[]);
    assert_eq!(judge(&call).reply, listed(1));
    let call = lawful(Search::Valid, &flat(3), &[1; 3], &[word; 1], &[word; 7]);
    assert_eq!(judge(&call).reply, listed(1));
    let call = lawful(Search::Check, &flat(3), &[1; 3], &[word; 9], &[]);
    assert_eq!(judge(&call).reply, refused(SIZE, 0));
    let call = lawful(Search::Valid, &flat(3), &[1; 3], &[word; 2], &[word; 7]);
    assert_eq!(judge(&call).reply, refused(SIZE, 0));
}

#[test]
fn classes_and_closest_entities() {
    use second::class::{classes, closest_entity, Class::*};
    // Two twins under the root: one an attribute though it has a twin, the
    // other an entity. Under the entity a lone child with two texts.
    //   0 ( 1 ( 2 text ) 3 ( 4 ( 5 text 6 text ) ) 7 text )
    let parents = [0, 0, 1, 0, 3, 4, 4, 0];
    let tags = [2, 2, 0, 2, 2, 0, 0, 0];
    let classes = classes(&parents, &tags);
    assert_eq!(classes, [Dummy, Attribute, Text, Entity, Dummy, Text, Text, Text]);
    assert_eq!(closest_entity(&parents, &classes, 2), 0);
    assert_eq!(closest_entity(&parents, &classes, 5), 3);
    assert_eq!(closest_entity(&parents, &classes, 7), 0);
}

/// The search with NOT for one positive and one negative word must list these.
fn lists_valid(tree: [&[u32]; 2], positive: &[u32], negative: &[u32], nodes: &[u32]) {
    let [parents, tags] = tree;
    let call = lawful(Search::Valid, parents, tags, &[positive], &[negative]);
    let after = judge(&call);
    assert_eq!(after.reply, listed(nodes.len() as u32));
    assert_eq!(after.out[..nodes.len()], *nodes);
}

#[test]
fn a_train_with_one_leg() {
    // Two trains. The first has two legs, the second has one and a note; each
    // leg has two stations.
    //   0 ( 1 train ( 2 leg ( 3 text 4 text ) 5 leg ( 6 text 7 text ) )
    //       8 train ( 9 leg ( 10 text 11 text ) 12 note ( 13 text ) ) )
    let parents = [0, 0, 1, 2, 2, 1, 5, 5, 0, 8, 9, 9, 8, 12];
    let tags = [1, 2, 3, 0, 0, 3, 0, 0, 2, 3, 0, 0, 4, 0];
    // NOT on a station of the one leg shuts out this leg alone.
    lists_valid([&parents, &tags], &[4, 11, 13], &[10], &[4, 13]);
    // The train that holds the leg stays.
    lists_valid([&parents, &tags], &[1, 8], &[10], &[1, 8]);
}

/// The entities of a tree.
fn entities(parents: &[u32], tags: &[u32]) -> Vec<usize> {
    let classes = second::class::classes(parents, tags);
    (0..parents.len())
        .filter(|&v| classes[v] == second::class::Class::Entity)
        .collect()
}

#[test]
fn a_twin_anywhere_makes_a_type_of_entities() {
    // 0 ( 1 ( 2 ) 3 ( 4 5 ) 6 ( 7 ) ): twins at the second of three parents.
    let parents = [0, 0, 1, 0, 3, 3, 0, 6];
    let tags = [1, 2, 3, 2, 3, 3, 2, 3];
    assert_eq!(entities(&parents, &tags), [1, 2, 3, 4, 5, 6, 7]);
    // At none of them: only the parents are twins.
    assert_eq!(entities(&parents, &[1, 2, 3, 2, 3, 4, 2, 3]), [1, 3, 6]);
    // Twins need not be neighbours.
    let parents = [0, 0, 1, 1, 1, 0, 5];
    let tags = [1, 2, 3, 4, 3, 2, 3];
    assert_eq!(entities(&parents, &tags), [1, 2, 4, 5, 6]);
}

#[test]
fn a_type_is_the_whole_row_of_tags() {
    // The own tag alone: 0 ( 1 ( 2 3 ) 4 ( 5 ) ), 4 with another tag than 1.
    assert_eq!(entities(&[0, 0, 1, 1, 0, 4], &[1, 2, 3, 3, 4, 3]), [2, 3]);
    // The tags of the node and its parent: 0 ( 1 ( 2 3 ) 4 ( 5 ( 6 ) ) ), 5
    // with the tag of 1.
    let parents = [0, 0, 1, 1, 0, 4, 5];
    assert_eq!(entities(&parents, &[1, 2, 3, 3, 4, 2, 3]), [2, 3]);
    // The same tags, one of them twice: the rows 1,2,3 and 1,2,2,3.
    let parents = [0, 0, 1, 1, 1, 4];
    assert_eq!(entities(&parents, &[1, 2, 3, 3, 2, 3]), [2, 3]);
    // The same tags in another order: the rows 1,2,3,4 and 1,3,2,4.
    let parents = [0, 0, 1, 2, 2, 0, 5, 6];
    assert_eq!(entities(&parents, &[1, 2, 3, 4, 4, 3, 2, 4]), [3, 4]);
    // The level and the tag: the rows 1,1,3 and 1,2,3.
    assert_eq!(entities(&[0, 0, 1, 1, 0, 4], &[1, 1, 3, 3, 2, 3]), [2, 3]);
    // The tags above alone: 3 and 4 are twins, and 2 and 6 have other tags.
    let parents = [0, 0, 1, 1, 1, 0, 5];
    assert_eq!(entities(&parents, &[1, 2, 5, 3, 3, 2, 6]), [1, 3, 4, 5]);
}

#[test]
fn attributes_are_asked_for_a_twin_and_are_no_entities() {
    // 0 ( 1 ( 2 ( 3 text ) 4 ( 5 text ) ) 6 ( 7 ( 8 text 9 text ) ) 10 ( 11 (
    // 12 text ) ) ): the twins 2 and 4 are attributes, and so is 11; 7 is of
    // their type and has two texts.
    let parents = [0, 0, 1, 2, 1, 4, 0, 6, 7, 7, 0, 10, 11];
    let tags = [1, 2, 3, 0, 3, 0, 2, 3, 0, 0, 2, 3, 0];
    assert_eq!(entities(&parents, &tags), [1, 6, 7, 10]);
    let classes = second::class::classes(&parents, &tags);
    for v in [2, 4, 11] {
        assert_eq!(classes[v], second::class::Class::Attribute);
    }
    // NOT at 12 shuts out 10, at 8 only 7.
    lists_valid([&parents, &tags], &[6, 10], &[12], &[6]);
    lists_valid([&parents, &tags], &[9, 12], &[8], &[12]);
    lists_valid([&parents, &tags], &[6, 10], &[8], &[6, 10]);
}

#[test]
fn a_text_is_no_entity() {
    // 0 ( 1 ( 2 text 3 text ) 4 ( 5 text 6 ) ): texts with twins, and one of
    // their type without. NOT at a text shuts out the whole node above it.
    let parents = [0, 0, 1, 1, 0, 4, 4];
    let tags = [1, 2, 0, 0, 2, 0, 3];
    assert_eq!(entities(&parents, &tags), [1, 4]);
    lists_valid([&parents, &tags], &[3, 6], &[2], &[6]);
    lists_valid([&parents, &tags], &[3, 6], &[5], &[3]);
}

#[test]
fn a_root_negator_strikes_out_everything() {
    let call = lawful(Search::Valid, &[0, 0], &[1, 0], &[&[0]], &[&[1]]);
    assert_eq!(judge(&call).reply, listed(0));
    // At a node that is not text a negative word has no effect.
    let call = lawful(Search::Valid, &[0, 0], &[1, 2], &[&[0]], &[&[1]]);
    assert_eq!(judge(&call).reply, listed(1));
}
