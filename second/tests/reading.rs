//! The reader of Q-2 on texts with names: which are of the profile, where the
//! others break, which nodes there are, and what a call leaves.

use second::call::{Reply, ACCEPTED, MARKUP, ROOM, SIZE, TREE};
use second::xml::call::Reading;
use second::xml::judge::judge;

/// A call with so many entries of 7 in each buffer, three times as many in work.
fn lent(text: &[u8], room: usize) -> Reading {
    Reading {
        text: text.to_vec(),
        parents: vec![7; room],
        tags: vec![7; room],
        firsts: vec![7; room],
        lasts: vec![7; room],
        work: vec![7; 3 * room],
    }
}

fn reply(text: impl AsRef<[u8]>) -> Reply {
    judge(&lent(text.as_ref(), 100)).reply
}

fn markup(text: impl AsRef<[u8]>, place: usize) {
    let text = text.as_ref();
    let reply = reply(text);
    assert_eq!(
        (reply.refusal, reply.place as usize, reply.total),
        (MARKUP, place, 0),
        "{}",
        text.escape_ascii()
    );
}

/// Parent, tag, first and last place of each node.
type Rows = [(u32, u32, u32, u32)];

fn tree(text: &str, rows: &Rows) {
    let n = rows.len();
    let after = judge(&lent(text.as_bytes(), n + 2));
    assert_eq!(after.reply.refusal, ACCEPTED, "{text}");
    assert_eq!((after.reply.place, after.reply.total as usize), (0, n), "{text}");
    let read: Vec<_> = (0..n)
        .map(|v| (after.parents[v], after.tags[v], after.firsts[v], after.lasts[v]))
        .collect();
    assert_eq!(read, rows, "{text}");
    for row in [&after.parents, &after.tags, &after.firsts, &after.lasts] {
        assert_eq!(row[n..], [7, 7]);
    }
    assert_eq!(after.work, [vec![0; 3 * n], vec![7; 6]].concat());
}

/// So many start tags, something, and their end tags.
fn nested(levels: usize, inside: &str) -> String {
    ["<a>".repeat(levels), inside.to_string(), "</a>".repeat(levels)].concat()
}

#[test]
fn elements_run_to_the_end_of_their_last_tag() {
    tree("<a/>", &[(0, 1, 0, 3)]);
    tree("<a></a>", &[(0, 1, 0, 6)]);
    tree("\n<a >\t</a\r\n>\n", &[(0, 1, 1, 11)]);
    tree(
        "<a><b/><b></b></a>",
        &[(0, 1, 0, 17), (0, 2, 3, 6), (0, 2, 7, 13)],
    );
    tree(
        "<a><b><c/></b><d/></a>",
        &[(0, 1, 0, 21), (0, 2, 3, 13), (1, 3, 6, 9), (0, 4, 14, 17)],
    );
}

#[test]
fn data_keeps_white_space_at_its_ends() {
    tree("<a> x </a>", &[(0, 1, 0, 9), (0, 0, 3, 5)]);
    tree("<a>\r\nx\t\n</a>", &[(0, 1, 0, 11), (0, 0, 3, 7)]);
    tree(
        "<a> x <b/> y </a>",
        &[(0, 1, 0, 16), (0, 0, 3, 5), (0, 2, 6, 9), (0, 0, 10, 12)],
    );
}

#[test]
fn white_space_alone_is_no_node() {
    tree("<a> \t\r\n</a>", &[(0, 1, 0, 10)]);
    tree("<a> <b/> </a>", &[(0, 1, 0, 12), (0, 2, 4, 7)]);
    tree("<a> <!--x--> </a>", &[(0, 1, 0, 16)]);
}

#[test]
fn comments_do_not_part_data() {
    tree("<a>x<!--c-->y</a>", &[(0, 1, 0, 16), (0, 0, 3, 12)]);
    tree("<a> <!--c-->y</a>", &[(0, 1, 0, 16), (0, 0, 3, 12)]);
    tree("<a>x<!--c--> </a>", &[(0, 1, 0, 16), (0, 0, 3, 12)]);
    tree(
        "<a><!--b-->x<!--c--><!--d--></a>",
        &[(0, 1, 0, 31), (0, 0, 11, 11)],
    );
    tree("<a>no<!--x-->rth</a>", &[(0, 1, 0, 19), (0, 0, 3, 15)]);
    // An element does, and a start tag and its end tag each do.
    tree(
        "<a>x<b/>y</a>",
        &[(0, 1, 0, 12), (0, 0, 3, 3), (0, 2, 4, 7), (0, 0, 8, 8)],
    );
}

#[test]
fn references_are_data() {
    tree("<a>&lt;</a>", &[(0, 1, 0, 10), (0, 0, 3, 6)]);
    tree("<a> &amp; </a>", &[(0, 1, 0, 13), (0, 0, 3, 9)]);
    tree(
        "<a>&amp;&lt;&gt;&apos;&quot;</a>",
        &[(0, 1, 0, 31), (0, 0, 3, 27)],
    );
    tree("<a>x<!---->&gt;</a>", &[(0, 1, 0, 18), (0, 0, 3, 14)]);
}

#[test]
fn tags_are_numbered_as_names_appear() {
    tree(
        "<b><a/><b/><ab/><a/><A/></b>",
        &[
            (0, 1, 0, 27),
            (0, 2, 3, 6),
            (0, 1, 7, 10),
            (0, 3, 11, 15),
            (0, 2, 16, 19),
            (0, 4, 20, 23),
        ],
    );
    // Data in between takes no number.
    tree("<a>x<b/></a>", &[(0, 1, 0, 11), (0, 0, 3, 3), (0, 2, 4, 7)]);
}

#[test]
fn names() {
    for good in [":", "_", "a", "Z", "a-.0:_Z9", "xml", "a.", "a-"] {
        assert_eq!(reply(format!("<{good}/>")).refusal, ACCEPTED, "{good}");
        assert_eq!(reply(format!("<{good}></{good}>")).refusal, ACCEPTED, "{good}");
    }
    for bad in ["-", ".", "0", "9a", "'", "\u{7f}", "@", "[", "`", "{", ";", "/"] {
        markup(format!("<{bad}/>"), 1);
    }
    for bad in ["a@", "a[", "a`", "a{", "a;", "a'", "a\u{7f}", "a,"] {
        markup(format!("<{bad}/>"), 2);
    }
}

#[test]
fn characters() {
    for byte in 0..=255u8 {
        let inside = [b"<a>", &[byte][..], b"</a>"].concat();
        let comment = [b"<a><!--", &[byte][..], b"--></a>"].concat();
        let is_char = matches!(byte, 9 | 10 | 13 | 32..=127);
        match byte {
            b'<' => markup(inside, 4),
            b'&' => markup(inside, 4),
            _ if is_char => assert_eq!(reply(inside).refusal, ACCEPTED, "{byte}"),
            _ => markup(inside, 3),
        }
        match byte {
            b'-' => markup(comment, 9),
            _ if is_char => assert_eq!(reply(comment).refusal, ACCEPTED, "{byte}"),
            _ => markup(comment, 7),
        }
    }
}

#[test]
fn white_space_in_tags() {
    for good in ["<a ></a >", "<a\t\r\n ></a\n>", "<a />", "<a \t/>", "<a></a   >"] {
        assert_eq!(reply(good).refusal, ACCEPTED, "{good}");
    }
    markup("< a/>", 1);
    markup("<a/ >", 3);
    markup("<a></ a>", 5);
    markup("<a>< /a>", 4);
    markup("<a b/>", 3);
    markup("<a></a b>", 7);
}

#[test]
fn comments() {
    for good in [
        "<!----><a/>",
        "<!--->--><a/>",
        "<!-->--><a/>",
        "<!--> --><a/>",
        "<!-- - - --><a/>",
        "<!--<a>&b;]]><!--><a/>",
        "<!--\u{7f}\t--><a/>",
        "<a/><!--c-->",
        " <!--c--> <!--d--> <a/> <!--e--> ",
    ] {
        assert_eq!(reply(good).refusal, ACCEPTED, "{good}");
    }
    // A comment cannot begin within a comment.
    markup("<!-- <!-- --><a/>", 9);
    // Not a comment yet, nor with what follows.
    markup("<!-->", 5);
    markup("<!--->", 6);
    markup("<!--><a/>", 9);
    markup("<a><!--></a>", 12);
    markup("<!-- -- --><a/>", 7);
    markup("<!----->", 6);
    markup("<!-- --->", 7);
    markup("<!- c --><a/>", 3);
    markup("<! c --><a/>", 2);
    markup("<!-- \u{1} --><a/>", 5);
}

#[test]
fn brackets() {
    markup("<a>]]></a>", 5);
    markup("<a>x]]]]>y</a>", 8);
    markup("<a><b/>]]></a>", 9);
    for good in [
        "<a>]]</a>",
        "<a>]></a>",
        "<a>] ]></a>",
        "<a>]]<!---->></a>",
        "<a>]<!--c-->]></a>",
        "<a>]]&gt;</a>",
        "<a>]&lt;]></a>",
        "<a>]]&lt;></a>",
        "<a>]]<b/>></a>",
        "<a>></a>",
        "<a><!--]]>--></a>",
    ] {
        assert_eq!(reply(good).refusal, ACCEPTED, "{good}");
    }
    // Outside the root there is no data at all.
    markup("]]><a/>", 0);
    markup("<a/>]]>", 4);
}

#[test]
fn references() {
    markup("<a>&nbsp;</a>", 4);
    markup("<a>&#65;</a>", 4);
    markup("<a>&#x41;</a>", 4);
    markup("<a>&amp</a>", 7);
    markup("<a>&am;</a>", 6);
    markup("<a>&ampx;</a>", 7);
    markup("<a>&apm;</a>", 6);
    markup("<a>&apos</a>", 8);
    markup("<a>&AMP;</a>", 4);
    markup("<a>&;</a>", 4);
    markup("<a>& </a>", 4);
    markup("<a>&g;</a>", 5);
    markup("<a>&quo", 7);
    markup("&lt;<a/>", 0);
    markup("<a/>&lt;", 4);
}

#[test]
fn end_names() {
    // A wrong end name fails at its first wrong byte.
    markup("<ab></a>", 7);
    markup("<a></ab>", 6);
    markup("<ab></ac>", 7);
    markup("<a></A>", 5);
    markup("<a></b>", 5);
    markup("<a></>", 5);
    markup("<a><b></a></b>", 8);
    markup("<leg></legs>", 10);
    markup("<legs></leg>", 11);
    // With nothing open, at the slash.
    markup("</a>", 1);
    markup("<a/></a>", 5);
    markup("<a></a></a>", 8);
}

#[test]
fn one_root() {
    markup("", 0);
    markup(" ", 1);
    markup("<!---->", 7);
    markup("x<a/>", 0);
    markup("<a/>x", 4);
    markup("<a/> x", 5);
    // A second root, at its first name byte.
    markup("<a/><b/>", 5);
    markup("<a></a> <!--c--><b>", 17);
    // What is none fails there too.
    markup("<a/><1", 5);
    markup("<a/><!x", 6);
}

#[test]
fn what_the_profile_leaves_out() {
    markup("<?xml version=\"1.0\"?><a/>", 1);
    markup("<!DOCTYPE a><a/>", 2);
    markup("<a><?x?></a>", 4);
    markup("<a><![CDATA[x]]></a>", 5);
    markup("<a b=\"1\"/>", 3);
    markup("\u{feff}<a/>", 0);
    markup("<a>\u{e9}</a>", 3);
    markup("<\u{e9}/>", 1);
}

#[test]
fn a_text_that_stops_short_fails_at_its_length() {
    let text = " <a ><!-- - -->x&quot;]]<b.1 /></a >";
    for length in 0..text.len() {
        markup(&text[..length], length);
    }
    assert_eq!(reply(text).refusal, ACCEPTED);
}

#[test]
fn tree_at_level_65() {
    let tree = |text: String, place: u32| {
        let reply = reply(&text);
        assert_eq!(
            (reply.refusal, reply.place, reply.total),
            (TREE, place, 0),
            "{text}"
        );
    };
    assert_eq!(reply(nested(64, "")).total, 64);
    assert_eq!(reply(nested(63, "x")).total, 64);
    assert_eq!(reply(nested(64, " <!--c-->\n")).total, 64);
    tree(nested(65, ""), 64);
    tree(nested(64, "<b/>"), 64);
    tree(nested(64, "x"), 64);
    tree(nested(64, " x"), 64);
    tree(nested(64, "<!--c-->&lt;"), 64);
    tree(nested(64, "&nbsp;"), 64);
    tree(nested(64, "x\u{1}"), 64);
    tree(nested(64, "]]>"), 64);
    tree(["<a><b/>x".to_string(), nested(64, "")].concat(), 66);
    // Start tags without end.
    tree("<a>".repeat(100), 64);
}

#[test]
fn markup_before_tree() {
    markup(nested(64, "<b"), 64 * 3 + 2);
    markup(nested(64, "<b c=''/>"), 64 * 3 + 3);
    markup(nested(64, "<b//>"), 64 * 3 + 3);
    markup(nested(64, " \u{1}x"), 64 * 3 + 1);
    markup(nested(64, "<!-- -- -->x"), 64 * 3 + 7);
    markup(
        ["<a>".repeat(10), "</b>".to_string(), "<a>".repeat(60)].concat(),
        32,
    );
}

#[test]
fn node_65536() {
    let flat = |nodes: usize, more: &str| ["<a>", &"<b/>".repeat(nodes - 1), more, "</a>"].concat();
    let room = |text: String| judge(&lent(text.as_bytes(), 65_536)).reply;
    let full = 65_536;
    assert_eq!(room(flat(full, "")).total, 65_536);
    assert_eq!(room(flat(full, " <!--c-->")).refusal, ACCEPTED);
    for more in ["<b/>", "<b></b>", "x", " x", "&lt;", "&nbsp;", "]]>", "<b></c>"] {
        let reply = room(flat(full, more));
        assert_eq!(
            (reply.refusal, reply.place, reply.total),
            (TREE, 65_536, 0),
            "{more}"
        );
    }
    for (more, behind) in [("<b", 2), ("</b>", 2), (" \u{1}", 1), ("<b a=''/>", 3)] {
        let reply = room(flat(full, more));
        let place = 3 + 4 * (full - 1) + behind;
        assert_eq!((reply.refusal, reply.place as usize), (MARKUP, place), "{more}");
    }
}

#[test]
fn size_comes_first() {
    let long = |length: usize| {
        let mut text = b"<a>x".to_vec();
        text.resize(length - 4, b' ');
        [text, b"</a>".to_vec()].concat()
    };
    let reply = reply(long(16_777_216));
    assert_eq!((reply.refusal, reply.total), (ACCEPTED, 2));
    let before = lent(&long(16_777_217), 4);
    let after = judge(&before);
    assert_eq!(
        after.reply,
        Reply {
            refusal: SIZE,
            place: 0,
            total: 0
        }
    );
    assert_eq!((after.parents, after.work), (before.parents, before.work));
    let broken = vec![b'<'; 16_777_217];
    assert_eq!(judge(&lent(&broken, 0)).reply.refusal, SIZE);
}

#[test]
fn room_comes_last() {
    let text = b"<a>x<b/></a>";
    let n = 3;
    for which in 0..5 {
        let mut call = lent(text, n);
        let row = [
            &mut call.parents,
            &mut call.tags,
            &mut call.firsts,
            &mut call.lasts,
            &mut call.work,
        ];
        row.into_iter().nth(which).unwrap().pop();
        let after = judge(&call);
        assert_eq!(
            after.reply,
            Reply {
                refusal: ROOM,
                place: 0,
                total: 3
            }
        );
        assert_eq!(
            (after.parents, after.tags, after.firsts, after.lasts, after.work),
            (call.parents, call.tags, call.firsts, call.lasts, call.work)
        );
    }
    assert_eq!(judge(&lent(text, n)).reply.refusal, ACCEPTED);
    assert_eq!(judge(&lent(b"<a>x<b/></c>", 0)).reply.refusal, MARKUP);
    assert_eq!(judge(&lent(nested(65, "").as_bytes(), 0)).reply.refusal, TREE);
}

#[test]
fn refusals_touch_nothing() {
    let deep = nested(65, "");
    let texts: [&[u8]; 4] = [b"<a>x<b/></c>", b"<a>x", deep.as_bytes(), b""];
    for text in texts {
        let after = judge(&lent(text, 90));
        for row in [
            &after.parents,
            &after.tags,
            &after.firsts,
            &after.lasts,
            &after.work,
        ] {
            assert!(row.iter().all(|&entry| entry == 7));
        }
    }
}
