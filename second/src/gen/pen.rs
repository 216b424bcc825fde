//! A pen that writes texts of the profile, production by production.

use super::rng::Rng;
use crate::xml::chars::REFERENCES;

pub struct Pen<'a> {
    pub rng: &'a mut Rng,
    pub text: Vec<u8>,
    /// In how many of a hundred places white space stands where it may.
    pub white: usize,
}

/// What data is made of. Brackets are frequent, and so is `>`.
const DATA: &[u8] = b"abcXYZ 019 .,;:#=?!/-\"'()[]]]]>>>\x7f\t\n\r _";

/// Brackets that are nearly `]]>`, and are not.
const BRACKETS: &[&str] = &[
    "]]",
    "]",
    "]]]",
    "]]&gt;",
    "]]&amp;>",
    "]&lt;]>",
    "]]<!---->>",
    "]<!--c-->]>",
    "]] >",
    "]>",
    ">]]",
];

/// What stands in comments besides: nothing is markup there.
const REMARKS: &[&str] = &[
    "",
    ">",
    "->",
    " ",
    "c",
    " - ",
    "-x",
    "<a>",
    "</a>",
    "<",
    "&",
    "&nbsp;",
    "&#65;",
    "]]>",
    "<!",
    "<!-",
    "?>",
    "\x7f",
    "\r\n",
    " clocks go back at 03:00 ",
    " a=\"1\" ",
];

impl<'a> Pen<'a> {
    pub fn new(rng: &'a mut Rng, white: usize) -> Pen<'a> {
        Pen {
            rng,
            text: vec![],
            white,
        }
    }

    pub fn word(&mut self, word: &[u8]) {
        self.text.extend(word);
    }

    pub fn s(&mut self) {
        for _ in 0..self.rng.pick(&[1, 1, 1, 2, 3]) {
            let byte = self.rng.pick(b"   \t\n\r");
            self.text.push(byte);
        }
    }

    /// S?
    pub fn gap(&mut self) {
        if self.rng.percent(self.white) {
            self.s();
        }
    }

    fn tag(&mut self, open: &[u8], name: &[u8], close: &[u8]) {
        self.word(open);
        self.word(name);
        self.gap();
        self.word(close);
    }

    pub fn start(&mut self, name: &[u8]) {
        self.tag(b"<", name, b">");
    }

    pub fn end(&mut self, name: &[u8]) {
        self.tag(b"</", name, b">");
    }

    pub fn empty(&mut self, name: &[u8]) {
        self.tag(b"<", name, b"/>");
    }

    /// Either form of an element without content.
    pub fn leaf(&mut self, name: &[u8]) {
        if self.rng.percent(60) {
            self.empty(name);
        } else {
            self.start(name);
            self.end(name);
        }
    }

    pub fn comment(&mut self) {
        let mut remark = self.rng.pick(REMARKS).as_bytes().to_vec();
        if self.rng.percent(30) {
            for _ in 0..self.rng.range(1, 8) {
                let byte = self.rng.pick(b"abc 01<>&]!/-");
                let dashes = byte == b'-' && remark.ends_with(b"-");
                remark.push(if dashes { b'x' } else { byte });
            }
        }
        if remark.ends_with(b"-") {
            remark.push(b' ');
        }
        self.word(b"<!--");
        self.word(&remark);
        self.word(b"-->");
    }

    pub fn reference(&mut self) {
        let reference = self.rng.pick(&REFERENCES);
        self.word(reference);
    }

    /// CharData of so many bytes, or one less.
    pub fn data(&mut self, length: usize) {
        for _ in 0..length {
            let byte = self.rng.pick(DATA);
            if byte != b'>' || !self.text.ends_with(b"]]") {
                self.text.push(byte);
            }
        }
    }

    /// Character data between two tags: runs, references, comments.
    pub fn between(&mut self, parts: usize) {
        for _ in 0..parts {
            match self.rng.range(0, 9) {
                0..=3 => {
                    let length = self.rng.range(1, 6);
                    self.data(length)
                }
                4 => self.s(),
                5 => {
                    // Apart from the brackets on both sides.
                    let brackets = self.rng.pick(BRACKETS);
                    self.word(b" ");
                    self.word(brackets.as_bytes());
                    self.word(b" ");
                }
                6..=7 => self.reference(),
                _ => self.comment(),
            }
        }
    }

    /// Misc*
    pub fn miscs(&mut self) {
        if self.rng.percent(self.white / 2 + 10) {
            for _ in 0..self.rng.range(1, 3) {
                if self.rng.percent(40) {
                    self.comment();
                } else {
                    self.s();
                }
            }
        }
    }
}
