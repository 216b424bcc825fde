//! The word dictionary by name: which words a text has, their table, the index of
//! a query, the edges, and what each reply leaves.

use second::build::call::{Building, Built, ROWS};
use second::build::fnv::{by_products, by_sums, fnv1a, FACTOR, POWERS, START};
use second::build::judge::judge;
use second::call::{Call, Reply, Search, ACCEPTED, MARKUP, ROOM, SIZE, TREE};
use second::gen::clash::{of_stages, GROUPS, STAGES};
use std::collections::BTreeSet;

/// A call with 7 in every entry: so many slots, and slices of so many entries,
/// eight times as many in counts, thrice as many in work.
fn lent(text: impl AsRef<[u8]>, words: &[&str], slots: usize, room: usize) -> Building {
    let mut end = 0;
    let mut word_ends = vec![];
    for word in words {
        end += word.len() as u32;
        word_ends.push(end);
    }
    Building {
        text: text.as_ref().to_vec(),
        words: words.concat().into_bytes(),
        word_ends,
        slots: vec![7; slots],
        parents: vec![7; room],
        tags: vec![7; room],
        firsts: vec![7; room],
        lasts: vec![7; room],
        ends: vec![7; room],
        occurrences: vec![7; room],
        counts: vec![7; 8 * room],
        work: vec![7; 3 * room],
    }
}

fn reply(refusal: u32, place: u32, total: u32) -> Reply {
    Reply {
        refusal,
        place,
        total,
    }
}

fn accepted(call: &Building) -> Built {
    let after = judge(call);
    assert_eq!(
        (after.reply.refusal, after.reply.place),
        (ACCEPTED, 0),
        "{}",
        call.text.escape_ascii()
    );
    after
}

/// The lists of an accepted call.
fn lists(text: &str, words: &[&str]) -> Vec<Vec<u32>> {
    let after = accepted(&lent(text, words, 40, 40));
    let mut start = 0;
    let list = |end: &u32| {
        let list = after.occurrences[start as usize..*end as usize].to_vec();
        start = *end;
        list
    };
    after.ends[..words.len()].iter().map(list).collect()
}

/// The table of an accepted call, as many slots as it has numbers.
fn table(text: &str, numbers: &[u32]) {
    let after = accepted(&lent(text, &["a"], numbers.len(), 40));
    assert_eq!(after.slots, numbers, "{text}");
}

/// Holds a text to have these words, with the places of their first appearance.
fn words(text: &str, words: &[(&str, u32)]) {
    let after = accepted(&lent(text, &["a"], 100, 40));
    let mut places: Vec<u32> = after.slots.into_iter().filter(|&number| number > 0).collect();
    places.sort_unstable();
    let wanted: Vec<u32> = words.iter().map(|(_, place)| place + 1).collect();
    assert_eq!(places, wanted, "{text}");
    for (word, place) in words {
        assert!(
            !lists(text, &[word])[0].is_empty(),
            "{word} is not found in {text}"
        );
        let first = text.as_bytes()[*place as usize];
        assert_eq!(first.to_ascii_lowercase(), word.as_bytes()[0], "{text}");
    }
}

#[test]
fn published_hashes() {
    // The vectors of FNV's authors.
    for (bytes, hash) in [
        ("", 2_166_136_261),
        ("a", 0xE40C_292C),
        ("b", 0xE70C_2DE5),
        ("foobar", 0xBF9C_F968),
    ] {
        assert_eq!(fnv1a(bytes.as_bytes()), hash, "{bytes}");
        assert_eq!(by_products(bytes.as_bytes()), hash, "{bytes}");
        assert_eq!(by_sums(bytes.as_bytes()), hash, "{bytes}");
    }
    assert_eq!(START, 2_166_136_261);
    assert_eq!(POWERS.iter().map(|power| 1 << power).sum::<u32>(), FACTOR);
}

#[test]
fn words_with_one_hash() {
    for group in GROUPS {
        for behind in ["", "s", "x9", "ab", "station"] {
            let hash = |word: &str| fnv1a(format!("{word}{behind}").as_bytes());
            assert!(group.iter().all(|word| hash(word) == hash(group[0])));
        }
        for (i, word) in group.iter().enumerate() {
            assert!(!group[..i].contains(word));
            let small = |byte: u8| byte.is_ascii_lowercase() || byte.is_ascii_digit();
            assert!(word.bytes().all(small));
        }
    }
    for stages in 1..=STAGES.len() {
        let words: BTreeSet<Vec<u8>> = of_stages(stages).into_iter().collect();
        let hashes: BTreeSet<u32> = words.iter().map(|word| fnv1a(word)).collect();
        assert_eq!((words.len(), hashes.len()), (1 << stages, 1));
    }
}

#[test]
fn a_comment_joins_what_stands_on_both_sides() {
    words("<t>no<!--x-->rth</t>", &[("t", 1), ("north", 3)]);
    words("<t>n<!--a--><!--b-->o<!---->rth</t>", &[("t", 1), ("north", 3)]);
    words("<t><!--x-->north<!--y--></t>", &[("t", 1), ("north", 11)]);
    words("<t>no <!--x-->rth</t>", &[("t", 1), ("no", 3), ("rth", 14)]);
    assert_eq!(
        lists("<t>no<!--x-->rth</t>", &["north", "no", "rth", "x", "noxrth"]),
        [vec![1], vec![], vec![], vec![], vec![]]
    );
}

#[test]
fn a_reference_parts_words() {
    words("<t>a&lt;b</t>", &[("t", 1), ("a", 3), ("b", 8)]);
    words(
        "<t>a&apos;b&quot;c</t>",
        &[("t", 1), ("a", 3), ("b", 10), ("c", 17)],
    );
    words("<t>&amp;</t>", &[("t", 1)]);
    words("<t>a<!--c-->&gt;b</t>", &[("t", 1), ("a", 3), ("b", 16)]);
    assert_eq!(
        lists("<t>a&lt;b</t>", &["lt", "ab", "altb", "b"]),
        [vec![], vec![], vec![], vec![1]]
    );
}

#[test]
fn words_of_names() {
    words("<border-station/>", &[("border", 1), ("station", 8)]);
    words("<x.y:z_1></x.y:z_1>", &[("x", 1), ("y", 3), ("z", 5), ("1", 7)]);
    words("<_-9 />", &[("9", 3)]);
    words("<a1b/>", &[("a1b", 1)]);
    assert_eq!(
        lists(
            "<border-station/>",
            &["border", "station", "borderstation", "bord"]
        ),
        [vec![0], vec![0], vec![], vec![]]
    );
}

#[test]
fn end_tags_are_no_mention() {
    // r ( a ( x ) y )
    let text = "<r><a>x</a>y</r>";
    words(text, &[("r", 1), ("a", 4), ("x", 6), ("y", 11)]);
    assert_eq!(lists(text, &["a", "r"]), [vec![1], vec![0]]);
}

#[test]
fn letters_compare_without_case() {
    // A ( "a" b ( "B" ) )
    let text = "<A>a<b>B</b></A>";
    words(text, &[("a", 1), ("b", 5)]);
    for (a, b) in [("a", "b"), ("A", "B")] {
        assert_eq!(lists(text, &[a, b]), [vec![0, 1], vec![2, 3]]);
    }
    words("<zZ>Zz zZ ZZ9z</zZ>", &[("zz", 1), ("zz9z", 10)]);
}

#[test]
fn what_parts_words() {
    for between in [
        " ", "\t", "\r\n", "-", "_", ".", ":", "/", "@", "[", "`", "{", "'", "\"", "\u{7f}", ">",
    ] {
        let text = format!("<t>az{between}09</t>");
        words(&text, &[("t", 1), ("az", 3), ("09", 5 + between.len() as u32)]);
    }
    words("<t>a<b/>a</t>", &[("t", 1), ("a", 3), ("b", 5)]);
    words("<t>ab</t>", &[("t", 1), ("ab", 3)]);
}

#[test]
fn data_that_is_all_white_space_is_no_node() {
    assert_eq!(
        lists("<a> <b/> <!--c--> x</a>", &["a", "b", "x", "c"]),
        [vec![0], vec![1], vec![2], vec![]]
    );
    // But all other data is a node, and counts.
    assert_eq!(lists("<a>-<b/></a>", &["b"]), [vec![2]]);
    assert_eq!(lists("<a>&lt;<!--b--><b/></a>", &["b"]), [vec![2]]);
}

#[test]
fn a_node_is_listed_once() {
    assert_eq!(
        lists("<a>a a A<!--c--> a<b>a</b>a</a>", &["a", "b"]),
        [vec![0, 1, 3, 4], vec![2]]
    );
    assert_eq!(lists("<a-a_A/>", &["a"]), [vec![0]]);
}

#[test]
fn first_appearance_decides() {
    // Of 4 slots, a and north have home 0, b 1, x 3.
    table("<a>no<!--x-->rth</a>", &[2, 4, 0, 0]);
    table("<north>a</north>", &[2, 8, 0, 0]);
    table("<a>b north a</a>", &[2, 4, 6, 0]);
    table("<north>b a B</north>", &[2, 8, 10, 0]);
    table("<x>b a north</x>", &[6, 4, 8, 2]);
    // t has home 3 too, so x goes on to 0, then a to 1, then b to 2.
    table("<t>x a b</t>", &[4, 6, 8, 2]);
    // Of 3 slots a and b have home 1, x has 0.
    table("<a>b x</a>", &[6, 2, 4]);
    table("<b>a x</b>", &[6, 2, 4]);
    table("<b>x a</b>", &[4, 2, 6]);
}

#[test]
fn two_words_with_one_hash_stay_two_words() {
    // Of 5 slots both have home 3, and t has 2.
    table("<t>costarring liquid</t>", &[0, 0, 2, 4, 15]);
    table("<t>liquid Costarring LIQUID</t>", &[0, 0, 2, 4, 11]);
    table("<liquid>costarring t</liquid>", &[0, 0, 20, 2, 9]);
    let text = "<liquid>costarring<b>LIQ<!--c-->UID</b></liquid>";
    assert_eq!(
        lists(text, &["liquid", "costarring", "COSTARRING", "liqui"]),
        [vec![0, 3], vec![1], vec![1], vec![]]
    );
    // One begins the other.
    assert_eq!(
        lists("<kpq>kpqudna</kpq>", &["kpq", "kpqudna", "kpqu"]),
        [vec![0], vec![1], vec![]]
    );
    let three = "<e6ow>7ylc 9zdfd E6OW</e6ow>";
    words(three, &[("e6ow", 1), ("7ylc", 6), ("9zdfd", 11)]);
}

const SCHEDULE: &str =
    "<schedule><train><zone>North</zone><leg>north-west</leg></train><train>West <b>NORTH</b></train></schedule>";

/// 0 schedule ( 1 train ( 2 zone ( 3 ) 4 leg ( 5 ) ) 6 train ( 7 8 b ( 9 ) ) )
const PARENTS: [u32; 10] = [0, 0, 1, 2, 1, 4, 0, 6, 6, 8];
const TAGS: [u32; 10] = [1, 2, 3, 0, 4, 0, 2, 0, 5, 0];

#[test]
fn a_schedule() {
    let mut call = lent(SCHEDULE, &["north", "West", "zones"], 8, 12);
    call.counts.truncate(32);
    call.work.truncate(31);
    let after = accepted(&call);
    assert_eq!(after.reply, reply(ACCEPTED, 0, 10));
    // Homes: schedule 4, train 1, zone 7, north 4, leg 7, west 6, b 5. So north is
    // in 5, leg goes round to 0, and b passes 5, 6, 7, 0 and 1.
    assert_eq!(after.slots, [37, 12, 78, 0, 2, 24, 47, 19]);
    let with = |row: &[u32]| [row, &[7, 7]].concat();
    assert_eq!(after.parents, with(&PARENTS));
    assert_eq!(after.tags, with(&TAGS));
    assert_eq!(after.firsts, with(&[0, 10, 17, 23, 35, 40, 64, 71, 76, 79]));
    assert_eq!(after.lasts, with(&[106, 63, 34, 27, 55, 49, 95, 75, 87, 83]));
    assert_eq!(after.ends, [&[3, 5, 5][..], &[7; 9]].concat());
    assert_eq!(after.occurrences, [&[3, 5, 9, 5, 7][..], &[7; 7]].concat());
    let north = [3, 2, 1, 1, 1, 1, 1, 0, 1, 1];
    let west = [2, 1, 0, 0, 1, 1, 1, 1, 0, 0];
    assert_eq!(after.counts, with(&[north, west, [0; 10]].concat()));
    assert_eq!(after.work, [&[0; 30][..], &[7]].concat());
}

#[test]
fn the_searches_take_what_is_built() {
    let after = accepted(&lent(SCHEDULE, &["north", "west"], 20, 10));
    let call = |search| Call {
        search,
        p: 2,
        q: 0,
        parents: after.parents.clone(),
        tags: after.tags.clone(),
        ends: after.ends[..2].to_vec(),
        occurrences: after.occurrences[..5].to_vec(),
        counts: after.counts[..20].to_vec(),
        work: vec![7; 40],
        out: vec![7; 3],
        own: vec![7; 6],
    };
    let elca = second::judge::judge(&call(Search::Elca));
    assert_eq!(elca.reply, reply(ACCEPTED, 0, 2));
    assert_eq!(elca.out, [5, 6, 7]);
    assert_eq!(elca.own, [1, 1, 1, 1, 7, 7]);
    assert_eq!(second::judge::judge(&call(Search::Slca)).out, [5, 6, 7]);
}

#[test]
fn the_same_word_twice() {
    let after = accepted(&lent("<a>b</a>", &["b", "B", "a", "b"], 2, 4));
    assert_eq!(after.ends, [1, 2, 3, 4]);
    assert_eq!(after.occurrences, [1, 1, 0, 1]);
    assert_eq!(after.counts[..8], [1, 1, 1, 1, 1, 0, 1, 1]);
}

#[test]
fn no_word_at_all() {
    for text in ["<_/>", "<:><!--a-->&lt;<_ /></:>"] {
        for slots in 0..3 {
            let after = accepted(&lent(text, &["lt", "a"], slots, 9));
            assert_eq!(after.slots, vec![0; slots]);
            assert_eq!(after.ends[..2], [0, 0]);
        }
    }
    // With a word there must be a slot.
    assert_eq!(judge(&lent("<a/>", &["b"], 0, 9)).reply, reply(ROOM, 0, 0));
}

/// A refusal that touches nothing, in spite of what else is wrong.
fn untouched(call: &Building, refusal: u32, place: u32) {
    assert_eq!(judge(call), call.untouched(refusal, place, 0));
}

#[test]
fn reasons_for_size() {
    let nine = ["a"; 9];
    let eight = ["a"; 8];
    let with = |bytes: &[u8], ends: &[u32]| Building {
        words: bytes.to_vec(),
        word_ends: ends.to_vec(),
        ..lent("<a/>", &["a"], 1, 9)
    };
    let mut wrong = vec![
        lent("<a/>", &[], 1, 9),
        lent("<a/>", &nine, 1, 9),
        lent("<a/>", &[""], 1, 9),
        lent("<a/>", &["", "a"], 1, 9),
        lent("<a/>", &["a", ""], 1, 9),
        lent("<a/>", &["a", "", "b"], 1, 9),
        with(b"ab", &[]),
        with(b"ab", &[1]),
        with(b"ab", &[3]),
        with(b"ab", &[0, 2]),
        with(b"ab", &[2, 2]),
        with(b"ab", &[2, 1]),
        with(b"ab", &[1, 3]),
        with(b"ab", &[3, 2]),
        with(b"abc", &[2, 1, 3]),
        with(b"ab", &[u32::MAX]),
        with(b"ab", &[1, u32::MAX]),
        with(b"ab", &[u32::MAX, 2]),
        with(b"", &[u32::MAX]),
    ];
    for byte in 0..=255u8 {
        if !byte.is_ascii_alphanumeric() {
            wrong.push(with(&[byte], &[1]));
            wrong.push(with(&[b'a', byte, b'b', b'c'], &[3, 4]));
            wrong.push(with(&[b'a', b'b', byte], &[1, 3]));
        }
    }
    for mut call in wrong {
        untouched(&call, SIZE, 0);
        // SIZE comes before every other refusal.
        call.work.clear();
        call.slots.truncate(1);
        for text in ["<a", "<", &"<a>".repeat(65)] {
            call.text = text.as_bytes().to_vec();
            untouched(&call, SIZE, 0);
        }
    }
    for byte in (0..=255u8).filter(u8::is_ascii_alphanumeric) {
        accepted(&with(&[byte], &[1]));
    }
    accepted(&lent("<a/>", &eight, 1, 9));
}

#[test]
fn the_length_of_the_text() {
    let long = |length: usize| {
        let mut text = b"<a>".to_vec();
        text.resize(length - 5, b' ');
        [text, b"x</a>".to_vec()].concat()
    };
    let after = accepted(&lent(long(16_777_216), &["x"], 2, 2));
    assert_eq!((after.occurrences[0], after.reply.total), (1, 2));
    // x has home 1 of 2.
    assert_eq!(after.slots, [2, 16_777_216 - 5 + 1]);
    untouched(&lent(long(16_777_217), &["x"], 2, 2), SIZE, 0);
}

#[test]
fn markup_and_tree_touch_nothing() {
    let text = "<a>b c</a>";
    for length in 0..text.len() {
        for room in [0, 9] {
            let call = lent(&text[..length], &["b"], room, room);
            untouched(&call, MARKUP, length as u32);
        }
    }
    untouched(&lent("<a>b</c>", &["b"], 9, 9), MARKUP, 6);
    let deep = |levels: usize| ["<a>".repeat(levels), "</a>".repeat(levels)].concat();
    untouched(&lent(deep(65), &["a"], 1, 0), TREE, 64);
    let after = accepted(&lent(deep(64), &["a"], 1, 64));
    let all: Vec<u32> = (0..64).collect();
    assert_eq!(after.occurrences, all);
    let down: Vec<u32> = (1..=64).rev().collect();
    assert_eq!(after.counts[..64], down);
    // Whichever comes first.
    untouched(
        &lent("<a>".repeat(64) + "<b c>", &["a"], 1, 0),
        MARKUP,
        64 * 3 + 3,
    );
    untouched(&lent("<a>".repeat(64) + "x</b>", &["a"], 1, 0), TREE, 64);
}

#[test]
fn room_zeroes_the_table_alone() {
    // Three words, four nodes, and lists of two and one.
    let text = "<a>b<c>b</c></a>";
    let exact = || {
        let mut call = lent(text, &["b", "a"], 3, 4);
        call.ends.truncate(2);
        call.occurrences.truncate(3);
        call.counts.truncate(8);
        call
    };
    assert_eq!(accepted(&exact()).reply.total, 4);
    let roomless = |call: Building| {
        let mut wanted = call.untouched(ROOM, 0, 0);
        wanted.slots.fill(0);
        assert_eq!(judge(&call), wanted);
    };
    for slots in 0..3 {
        roomless(Building {
            slots: vec![7; slots],
            ..exact()
        });
    }
    let short: [fn(&mut Building) -> &mut Vec<u32>; ROWS] = [
        |call| &mut call.parents,
        |call| &mut call.tags,
        |call| &mut call.firsts,
        |call| &mut call.lasts,
        |call| &mut call.ends,
        |call| &mut call.occurrences,
        |call| &mut call.counts,
        |call| &mut call.work,
    ];
    for slice in short {
        for slots in [3, 4, 9] {
            let mut call = exact();
            call.slots = vec![9; slots];
            slice(&mut call).pop();
            roomless(call.clone());
            slice(&mut call).clear();
            roomless(call);
        }
    }
}
