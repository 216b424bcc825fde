//! The words of a text by its bytes alone, from the first to the last.
//!
//! Of a text of the profile it is enough to know what a byte is of: a tag, a
//! comment, a reference or data. Nodes are counted, not built: one with each
//! start tag or empty-element tag, and one with the first byte of data since the
//! last tag that is not white space.

use super::words::Mention;
use crate::xml::chars::is_white;

struct Scan<'a> {
    text: &'a [u8],
    /// How many nodes have been met.
    nodes: usize,
    /// The node of the data since the last tag, once there is one.
    data: Option<usize>,
    mentions: Vec<Mention>,
    /// Whether the last mention may go on.
    open: bool,
}

impl Scan<'_> {
    fn meet(&mut self) -> usize {
        self.nodes += 1;
        self.nodes - 1
    }

    /// A letter or digit: the word goes on, or one begins.
    fn letter(&mut self, node: usize, place: usize) {
        let letter = self.text[place].to_ascii_lowercase();
        match self.mentions.last_mut() {
            Some(mention) if self.open => mention.word.push(letter),
            _ => self.mentions.push(Mention {
                node,
                place,
                word: vec![letter],
            }),
        }
        self.open = true;
    }

    /// The place after the first such byte.
    fn after(&self, at: usize, byte: u8) -> usize {
        let length = self.text[at..].iter().position(|&other| other == byte);
        at + length.expect("what is begun ends") + 1
    }

    /// A comment, and the place after it. It leaves a word open.
    fn comment(&self, at: usize) -> usize {
        let mut end = at + 4;
        while &self.text[end..end + 3] != b"-->" {
            end += 1;
        }
        end + 3
    }

    /// A tag, and the place after it. All letters and digits in it are its name's.
    fn tag(&mut self, at: usize) -> usize {
        let end = self.after(at, b'>');
        self.open = false;
        self.data = None;
        if self.text[at + 1] != b'/' {
            let node = self.meet();
            for place in at + 1..end {
                if self.text[place].is_ascii_alphanumeric() {
                    self.letter(node, place);
                } else {
                    self.open = false;
                }
            }
        }
        self.open = false;
        end
    }

    /// A byte of data or a reference, and the place after it.
    fn data(&mut self, at: usize) -> usize {
        let byte = self.text[at];
        if is_white(byte) {
            self.open = false;
            return at + 1;
        }
        let node = match self.data {
            Some(node) => node,
            None => self.meet(),
        };
        self.data = Some(node);
        if byte.is_ascii_alphanumeric() {
            self.letter(node, at);
            return at + 1;
        }
        self.open = false;
        match byte {
            b'&' => self.after(at, b';'),
            _ => at + 1,
        }
    }
}

/// All mentions in order, of a text of the profile.
pub fn scan(text: &[u8]) -> Vec<Mention> {
    let mut scan = Scan {
        text,
        nodes: 0,
        data: None,
        mentions: vec![],
        open: false,
    };
    let mut at = 0;
    while at < text.len() {
        at = match (text[at], text.get(at + 1)) {
            (b'<', Some(b'!')) => scan.comment(at),
            (b'<', _) => scan.tag(at),
            _ => scan.data(at),
        };
    }
    scan.mentions
}
