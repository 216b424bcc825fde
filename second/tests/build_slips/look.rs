//! The nodes and the words of a text of the profile, piece by piece.

use super::Slip::{self, *};
use std::ops::Range;

/// A node.
pub struct Row {
    pub parent: usize,
    pub name: Option<Range<usize>>,
    pub first: usize,
    pub last: usize,
}

/// A mention of a word.
pub struct Word {
    pub node: usize,
    /// The places of its first and its last letter or digit.
    pub first: usize,
    pub last: usize,
    /// The place of its first one behind the last comment in it.
    pub piece: usize,
    /// Its letters as they stand.
    pub raw: Vec<u8>,
}

pub struct Look<'a> {
    text: &'a [u8],
    slip: Option<Slip>,
    pub rows: Vec<Row>,
    pub words: Vec<Word>,
    /// The elements whose end tag is awaited.
    open: Vec<usize>,
    /// Where data began since the last tag, and its node, once there is one.
    begun: Option<usize>,
    data: Option<usize>,
    /// Whether the last word may go on.
    going: bool,
}

impl<'a> Look<'a> {
    pub fn of(text: &'a [u8], slip: Option<Slip>) -> Look<'a> {
        let mut look = Look {
            text,
            slip,
            rows: vec![],
            words: vec![],
            open: vec![],
            begun: None,
            data: None,
            going: false,
        };
        let mut at = 0;
        while at < text.len() {
            let rest = &text[at..];
            at += match rest[0] {
                b'<' if rest[1] == b'!' => look.comment(at),
                b'<' => look.tag(at),
                b'&' => look.reference(at),
                _ => look.byte(at),
            };
        }
        look
    }

    fn has(&self, slip: Slip) -> bool {
        self.slip == Some(slip)
    }

    fn is_letter(&self, byte: u8) -> bool {
        match byte {
            b'-' => self.has(HyphenIsALetter),
            b'_' => self.has(UnderscoreIsALetter),
            b'.' => self.has(DotIsALetter),
            b':' => self.has(ColonIsALetter),
            b'\'' => self.has(ApostropheIsALetter),
            b'@' | b'[' | b'`' | b'{' => self.has(BytesBesideLettersAreSome),
            b'/' => self.has(SlashIsADigit),
            b'z' | b'Z' => !self.has(LastLetterIsNone),
            b'a' | b'A' => !self.has(FirstLetterIsNone),
            b'9' => !self.has(NineIsNoDigit) && !self.has(DigitsAreNoLetters),
            b'0' => !self.has(ZeroIsNoDigit) && !self.has(DigitsAreNoLetters),
            b'1'..=b'8' => !self.has(DigitsAreNoLetters),
            _ => byte.is_ascii_alphabetic(),
        }
    }

    /// A letter at a node: the word goes on, or one begins.
    fn letter(&mut self, node: usize, at: usize) {
        let byte = self.text[at];
        let parts =
            |word: &Word| self.has(DigitsPart) && word.raw[0].is_ascii_digit() != byte.is_ascii_digit();
        let goes_on = self.going && self.words.last().map_or(false, |word| !parts(word));
        if !goes_on {
            self.words.push(Word {
                node,
                first: at,
                last: at,
                piece: at,
                raw: vec![],
            });
        }
        let word = self.words.last_mut().unwrap();
        if at > word.last + 1 {
            word.piece = at;
        }
        word.last = at;
        word.raw.push(byte);
        self.going = true;
    }

    /// The words of some bytes at a node.
    fn run(&mut self, node: usize, bytes: Range<usize>) {
        for at in bytes {
            if self.is_letter(self.text[at]) {
                self.letter(node, at);
            } else {
                self.going = false;
            }
        }
    }

    /// A comment; like the others it gives how many bytes it has.
    fn comment(&mut self, at: usize) -> usize {
        let inner = self.text[at + 4..]
            .windows(3)
            .position(|end| end == b"-->")
            .unwrap();
        let length = inner + 7;
        let in_a_row = self.text[..at].ends_with(b"-->");
        if self.has(CommentParts) || self.has(CommentsInARowPart) && in_a_row {
            self.going = false;
        }
        if self.has(CommentPartsTheNode) {
            (self.begun, self.data, self.going) = (None, None, false);
        }
        if self.has(CommentWordsCounted) {
            if let Some(node) = self.data.or_else(|| self.open.last().copied()) {
                self.going = false;
                self.run(node, at + 4..at + 4 + inner);
                self.going = false;
            }
        }
        length
    }

    fn name_words(&mut self, node: usize, name: Range<usize>) {
        let from = self.words.len();
        let raw = self.text[name.clone()].to_vec();
        match self.slip {
            Some(NameIsOneWord) => self.words.push(Word {
                node,
                first: name.start,
                last: name.end - 1,
                piece: name.start,
                raw,
            }),
            Some(NameIsOneWordWithoutItsDashes) => {
                for at in name {
                    if self.is_letter(self.text[at]) {
                        self.letter(node, at);
                    }
                }
            }
            _ => self.run(node, name),
        }
        let until = self.words.len().max(from + 1);
        match self.slip {
            Some(FirstWordOfANameOnly) => self.words.truncate(from + 1),
            Some(LastWordOfANameOnly) => drop(self.words.drain(from..until - 1)),
            Some(NamesLeftOut) => self.words.truncate(from),
            Some(RootLeftOut) if node == 0 => self.words.truncate(from),
            _ => (),
        }
    }

    fn tag(&mut self, at: usize) -> usize {
        let length = self.text[at..].iter().position(|&byte| byte == b'>').unwrap() + 1;
        let end_tag = self.text[at + 1] == b'/';
        let from = at + 1 + usize::from(end_tag);
        let is_name = |byte: &&u8| byte.is_ascii_alphanumeric() || b"-._:".contains(byte);
        let name = from..from + self.text[from..].iter().take_while(is_name).count();
        if self.has(LastWordOfDataLost) && self.data.is_some() && self.going {
            self.words.pop();
        }
        if !self.has(DataGoesOnInAName) {
            self.going = false;
        }
        (self.begun, self.data) = (None, None);
        if end_tag {
            let node = self.open.pop().unwrap();
            self.rows[node].last = at + length - 1;
            self.going = false;
            match self.slip {
                Some(EndTagsCounted) => self.run(self.rows.len() - 1, name),
                Some(EndTagsAtTheirElement) => self.run(node, name),
                _ => (),
            }
            self.going = false;
            return length;
        }
        let node = self.rows.len();
        let empty = self.text[at + length - 2] == b'/';
        self.rows.push(Row {
            parent: self.open.last().copied().unwrap_or(0),
            name: Some(name.clone()),
            first: at,
            last: at + length - 1,
        });
        if !(empty && self.has(EmptyElementsLeftOut)) {
            self.name_words(node, name);
        }
        if !empty {
            self.open.push(node);
        }
        if !self.has(NameGoesOnInData) {
            self.going = false;
        }
        length
    }

    /// Data of so many bytes; gives its node, if it has one.
    fn hold(&mut self, at: usize, length: usize, solid: bool) -> Option<usize> {
        let parent = *self.open.last()?;
        let first = *self.begun.get_or_insert(at);
        if self.data.is_none() && solid {
            self.data = Some(self.rows.len());
            self.rows.push(Row {
                parent,
                name: None,
                first,
                last: at,
            });
        }
        if let Some(node) = self.data {
            self.rows[node].last = at + length - 1;
        }
        self.data
    }

    fn reference(&mut self, at: usize) -> usize {
        let length = self.text[at..].iter().position(|&byte| byte == b';').unwrap() + 1;
        let node = self.hold(at, length, !self.has(DataWithoutAWordIsNoNode));
        if !self.has(ReferenceJoins) {
            self.going = false;
        }
        if let (Some(node), true) = (node, self.has(ReferenceNameIsAWord)) {
            self.run(node, at + 1..at + length);
        }
        length
    }

    fn byte(&mut self, at: usize) -> usize {
        let byte = self.text[at];
        let solid = match self.slip {
            Some(WhiteSpaceIsANode) => true,
            Some(DataWithoutAWordIsNoNode) => self.is_letter(byte),
            _ => !byte.is_ascii_whitespace(),
        };
        let before = self.data;
        let node = self.hold(at, 1, solid);
        if self.has(DataLeftOut) {
            return 1;
        }
        match node {
            Some(node) if self.is_letter(byte) => {
                let known = self.words.last().map_or(false, |word| word.node == node);
                if self.has(FirstWordOfDataOnly) && before.is_some() && known && !self.going {
                    return 1;
                }
                self.letter(node, at);
            }
            _ => self.going = false,
        }
        1
    }
}
