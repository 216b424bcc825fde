//! The productions followed downward, the search for a way on and the parts of
//! a text: the same outcome for every small text.

use second::gen::rng::Rng;
use second::xml::derive::derive;
use second::xml::node::{Limits, Outcome, LIMITS};
use second::xml::read::literal;

/// How often each outcome came.
#[derive(Default, Debug)]
struct Met {
    whole: usize,
    markup: usize,
    short: usize,
    beyond: usize,
}

impl Met {
    fn compare(&mut self, text: &[u8], limits: Limits) {
        let outcome = derive(text, limits);
        assert_eq!(
            outcome,
            literal(text, limits),
            "{:?} {limits:?}",
            String::from_utf8_lossy(text)
        );
        match outcome {
            Outcome::Whole(_) => self.whole += 1,
            Outcome::Markup(place) if place == text.len() => self.short += 1,
            Outcome::Markup(_) => self.markup += 1,
            Outcome::Beyond(_) => self.beyond += 1,
        }
    }
}

const NARROW: [Limits; 4] = [
    LIMITS,
    Limits { levels: 1, nodes: 9 },
    Limits { levels: 2, nodes: 3 },
    Limits { levels: 9, nodes: 2 },
];

/// Every row of so many of the pieces, and no others.
fn rows(pieces: &[&str], length: usize, each: &mut impl FnMut(&[u8])) {
    fn grow(pieces: &[&str], left: usize, text: &mut Vec<u8>, each: &mut impl FnMut(&[u8])) {
        if left == 0 {
            return each(text);
        }
        for piece in pieces {
            text.extend(piece.bytes());
            grow(pieces, left - 1, text, each);
            text.truncate(text.len() - piece.len());
        }
    }
    grow(pieces, length, &mut vec![], each);
}

#[test]
fn every_short_text_of_few_bytes() {
    let mut met = Met::default();
    let bytes = ["<", ">", "/", "a", " ", "-", "!", "&", "]", "\u{1}"];
    for length in 0..=5 {
        rows(&bytes, length, &mut |text| met.compare(text, LIMITS));
    }
    println!("{met:?}");
    assert!(met.whole >= 5 && met.short >= 100 && met.markup >= 100_000);
}

#[test]
fn every_short_row_of_pieces() {
    let mut met = Met::default();
    let pieces = [
        "<a>", "</a>", "<b/>", "x", " ", "<!--", "-->", "-", "&lt;", "]]", ">", "</", "b",
    ];
    for length in 0..=4 {
        rows(&pieces, length, &mut |text| {
            NARROW.iter().for_each(|&limits| met.compare(text, limits))
        });
    }
    println!("{met:?}");
    assert!(met.whole >= 200 && met.short >= 1_000 && met.markup >= 10_000 && met.beyond >= 500);
}

#[test]
fn every_inside_of_pieces() {
    let mut met = Met::default();
    let pieces = [
        "x", " ", "<!--c-->", "&amp;", "]", ">", "<b>", "</b>", "<b/>", "&am", "-->",
    ];
    for length in 0..=4 {
        rows(&pieces, length, &mut |inside| {
            let text = [b"<a>", inside, b"</a>"].concat();
            NARROW.iter().for_each(|&limits| met.compare(&text, limits));
        });
    }
    println!("{met:?}");
    assert!(met.whole >= 5_000 && met.markup >= 5_000 && met.beyond >= 5_000);
}

#[test]
fn every_byte_at_every_place() {
    let mut met = Met::default();
    let texts: [&[u8]; 6] = [
        b"<a/>",
        b" <a >x</a > ",
        b"<!--c--><a><b.1/></a>",
        b"<ab><a>&lt;</a></ab>",
        b"<a>] ]<!--->-->]></a>",
        b"<a>&quot;&apos;&gt;&amp;</a>",
    ];
    for text in texts {
        for place in 0..text.len() {
            for byte in 0..=255 {
                let mut other = text.to_vec();
                other[place] = byte;
                met.compare(&other, LIMITS);
                other.insert(place + 1, text[place]);
                met.compare(&other, LIMITS);
            }
            met.compare(&text[..place], LIMITS);
        }
    }
    println!("{met:?}");
    assert!(met.whole >= 2_000 && met.markup >= 20_000 && met.short >= 80);
}

#[test]
fn random_rows_of_pieces() {
    let mut met = Met::default();
    let pieces = [
        "<a>", "<ab>", "<a>", "</a>", "</ab>", "</a >", "<b/>", "x", " ", "\t", "<!--", "-->", "-", "--",
        "&lt;", "&quot;", "]]", "]", ">", "<a:b.c-0", "&", "\u{7f}", "]]>",
    ];
    for number in 0..10_000 {
        let rng = &mut Rng::new(1, number);
        let mut text: Vec<u8> = rng.pick(&["", "<a>", " <ab>", "<!---->"]).bytes().collect();
        for _ in 0..rng.range(1, 12) {
            text.extend(rng.pick(&pieces).bytes());
        }
        let limits = rng.pick(&NARROW);
        met.compare(&text[..text.len().min(48)], limits);
    }
    println!("{met:?}");
    assert!(met.whole >= 80 && met.markup >= 5_000 && met.beyond >= 1_000);
}
