//! The productions as questions about parts of a text: does this production
//! make the bytes from i up to j? Every way to part them is tried.
//!
//! The tree is told from such parts, too: which bytes are of comments, which of
//! tags, and which parts are elements.

use super::chars::{is_char_not_dash, is_data, is_name_char, is_name_start, is_white, REFERENCES};
use super::node::Node;
use std::collections::BTreeMap;
use std::ops::Range;

/// A text with the answers so far, for the productions that ask themselves.
pub struct Spans<'a> {
    text: &'a [u8],
    elements: BTreeMap<(usize, usize), bool>,
    parts: BTreeMap<(usize, usize), bool>,
}

impl<'a> Spans<'a> {
    pub fn new(text: &'a [u8]) -> Spans<'a> {
        Spans {
            text,
            elements: BTreeMap::new(),
            parts: BTreeMap::new(),
        }
    }

    fn is_white(&self, i: usize, j: usize) -> bool {
        self.text[i..j].iter().all(|&byte| is_white(byte))
    }

    fn is_name(&self, i: usize, j: usize) -> bool {
        i < j && is_name_start(self.text[i]) && self.text[i + 1..j].iter().all(|&byte| is_name_char(byte))
    }

    fn is_char_data(&self, i: usize, j: usize) -> bool {
        let bytes = &self.text[i..j];
        bytes.iter().all(|&byte| is_data(byte)) && !bytes.windows(3).any(|three| three == b"]]>")
    }

    fn is_reference(&self, i: usize, j: usize) -> bool {
        REFERENCES.contains(&&self.text[i..j])
    }

    /// ((Char - '-') | ('-' (Char - '-')))*
    fn is_comment_text(&self, i: usize, j: usize) -> bool {
        let fits = |at: usize| at < j && is_char_not_dash(self.text[at]);
        i == j
            || (fits(i) && self.is_comment_text(i + 1, j))
            || (self.text[i] == b'-' && fits(i + 1) && self.is_comment_text(i + 2, j))
    }

    fn is_comment(&self, i: usize, j: usize) -> bool {
        let bytes = &self.text[i..j];
        j - i >= 7
            && bytes.starts_with(b"<!--")
            && bytes.ends_with(b"-->")
            && self.is_comment_text(i + 4, j - 3)
    }

    /// The name of a tag: what it begins with, Name, S?, what it ends with.
    fn tag(&self, i: usize, j: usize, begin: &[u8], end: &[u8]) -> Option<Range<usize>> {
        let bytes = &self.text[i..j];
        if !bytes.starts_with(begin) || !bytes.ends_with(end) || j - i < begin.len() + end.len() {
            return None;
        }
        let (from, to) = (i + begin.len(), j - end.len());
        (from..=to)
            .find(|&k| self.is_name(from, k) && self.is_white(k, to))
            .map(|k| from..k)
    }

    fn s_tag(&self, i: usize, j: usize) -> Option<Range<usize>> {
        self.tag(i, j, b"<", b">")
    }

    fn e_tag(&self, i: usize, j: usize) -> Option<Range<usize>> {
        self.tag(i, j, b"</", b">")
    }

    fn empty_elem_tag(&self, i: usize, j: usize) -> Option<Range<usize>> {
        self.tag(i, j, b"<", b"/>")
    }

    pub fn is_element(&mut self, i: usize, j: usize) -> bool {
        if let Some(&known) = self.elements.get(&(i, j)) {
            return known;
        }
        let mut is = self.empty_elem_tag(i, j).is_some();
        for a in i..j {
            let name = match self.s_tag(i, a) {
                Some(name) if !is => name,
                _ => continue,
            };
            for b in a..j {
                let same = self
                    .e_tag(b, j)
                    .map_or(false, |end| self.text[end] == self.text[name.clone()]);
                is = is || same && self.is_content(a, b);
            }
        }
        self.elements.insert((i, j), is);
        is
    }

    /// CharData? ((element | Reference | Comment) CharData?)*
    fn is_content(&mut self, i: usize, j: usize) -> bool {
        (i..=j).any(|k| self.is_char_data(i, k) && self.is_parts(k, j))
    }

    /// ((element | Reference | Comment) CharData?)*
    fn is_parts(&mut self, i: usize, j: usize) -> bool {
        if i == j {
            return true;
        }
        if let Some(&known) = self.parts.get(&(i, j)) {
            return known;
        }
        let is = (i + 1..=j).any(|k| {
            (self.is_element(i, k) || self.is_reference(i, k) || self.is_comment(i, k))
                && self.is_content(k, j)
        });
        self.parts.insert((i, j), is);
        is
    }

    /// Misc*
    fn is_miscs(&self, i: usize, j: usize) -> bool {
        i == j || (i + 1..=j).any(|k| (self.is_white(i, k) || self.is_comment(i, k)) && self.is_miscs(k, j))
    }

    /// Where the root stands, if the text is one of the profile.
    fn root(&mut self) -> Option<(usize, usize)> {
        let end = self.text.len();
        let begins: Vec<usize> = (0..end).filter(|&i| self.is_miscs(0, i)).collect();
        let ends: Vec<usize> = (1..=end).filter(|&j| self.is_miscs(j, end)).collect();
        for &i in &begins {
            for &j in ends.iter().filter(|&&j| i < j) {
                if self.is_element(i, j) {
                    return Some((i, j));
                }
            }
        }
        None
    }

    pub fn is_document(&mut self) -> bool {
        self.root().is_some()
    }

    /// The least j for which a part from i up to j is one of a kind.
    fn least(&self, i: usize, is: impl Fn(usize, usize) -> bool) -> Option<usize> {
        (i + 1..=self.text.len()).find(|&j| is(i, j))
    }

    /// The nodes of a text of the profile.
    pub fn nodes(&mut self) -> Vec<Node> {
        let (root, root_end) = self.root().expect("a text of the profile");
        // What each byte is of: comment, tag or data.
        let mut kinds = vec![b'd'; self.text.len()];
        let (mut tags, mut at) = (vec![], root);
        while at < root_end {
            let is_tag = |i, j| {
                self.s_tag(i, j).is_some()
                    || self.e_tag(i, j).is_some()
                    || self.empty_elem_tag(i, j).is_some()
            };
            if let Some(end) = self.least(at, |i, j| self.is_comment(i, j)) {
                kinds[at..end].fill(b'c');
                at = end;
            } else if let Some(end) = self.least(at, is_tag) {
                kinds[at..end].fill(b't');
                tags.push(at..end);
                at = end;
            } else {
                at += 1;
            }
        }
        let mut nodes = vec![];
        let mut elements = vec![];
        for tag in &tags {
            if self.e_tag(tag.start, tag.end).is_some() {
                continue;
            }
            let name = self
                .s_tag(tag.start, tag.end)
                .or_else(|| self.empty_elem_tag(tag.start, tag.end));
            let end = (tag.end..=root_end).find(|&j| self.is_element(tag.start, j));
            let last = end.expect("an element") - 1;
            elements.push(tag.start..last);
            nodes.push((tag.start, last, tag.end - 1, name));
        }
        for pair in tags.windows(2) {
            let bytes: Vec<usize> = (pair[0].end..pair[1].start)
                .filter(|&i| kinds[i] == b'd')
                .collect();
            if let Some(&met) = bytes.iter().find(|&&i| !is_white(self.text[i])) {
                nodes.push((bytes[0], bytes[bytes.len() - 1], met, None));
            }
        }
        nodes.sort_by_key(|&(first, ..)| first);
        let number = |first: usize| nodes.iter().position(|node| node.0 == first).unwrap();
        let above = |first: usize| {
            elements
                .iter()
                .filter(move |span| span.start < first && first < span.end)
        };
        nodes
            .iter()
            .map(|(first, last, met, name)| Node {
                parent: above(*first).map(|span| number(span.start)).max().unwrap_or(0),
                level: above(*first).count() + 1,
                name: name.clone(),
                first: *first,
                last: *last,
                met: *met,
            })
            .collect()
    }
}
