//! The productions followed downward from document, alternative by alternative.
//!
//! A production gives the place after what it makes of the text, or no way on.
//! Where a byte is tried and does not fit, its place is kept if it is further
//! than all before. What stands before a tried byte begins some text of the
//! profile, since every production can be brought to an end; and each way is
//! tried. So where no way leads through the text, the furthest such byte is the
//! first at which no text of the profile continues.

use super::chars::{is_char_not_dash, is_data, is_name_char, is_name_start, is_white, REFERENCES};
use super::node::{Limits, Node, Outcome};
use std::ops::Range;

enum Stop {
    /// Nothing goes on by this production.
    NoWay,
    /// A node beyond the limits is met.
    Beyond(usize),
}

type Way = Result<usize, Stop>;
type Production<'a> = fn(&mut Descent<'a>, usize) -> Way;

/// The character data since the last tag.
struct Data {
    first: usize,
    last: usize,
    /// Its node, once there is a byte that is not white space.
    node: Option<usize>,
}

struct Descent<'a> {
    text: &'a [u8],
    limits: Limits,
    furthest: usize,
    nodes: Vec<Node>,
    /// The elements whose end tag is awaited.
    open: Vec<usize>,
    data: Option<Data>,
}

impl<'a> Descent<'a> {
    fn no_way<T>(&mut self, at: usize) -> Result<T, Stop> {
        self.furthest = self.furthest.max(at);
        Err(Stop::NoWay)
    }

    fn one(&mut self, at: usize, class: fn(u8) -> bool) -> Way {
        match self.text.get(at) {
            Some(&byte) if class(byte) => Ok(at + 1),
            _ => self.no_way(at),
        }
    }

    fn word(&mut self, at: usize, word: &[u8]) -> Way {
        for (i, &byte) in word.iter().enumerate() {
            if self.text.get(at + i) != Some(&byte) {
                return self.no_way(at + i);
            }
        }
        Ok(at + word.len())
    }

    /// The first alternative that goes on.
    fn either(&mut self, at: usize, alternatives: &[Production<'a>]) -> Way {
        for production in alternatives {
            match production(self, at) {
                Err(Stop::NoWay) => (),
                way => return way,
            }
        }
        Err(Stop::NoWay)
    }

    /// production*
    fn many(&mut self, mut at: usize, production: Production<'a>) -> Way {
        loop {
            match production(self, at) {
                Ok(next) => at = next,
                Err(Stop::NoWay) => return Ok(at),
                beyond => return beyond,
            }
        }
    }

    /// class*
    fn run(&mut self, mut at: usize, class: fn(u8) -> bool) -> usize {
        while let Ok(next) = self.one(at, class) {
            at = next;
        }
        at
    }

    /// [1] document ::= prolog element Misc*
    fn document(&mut self) -> Way {
        let at = self.prolog(0)?;
        let at = self.element(at)?;
        let at = self.many(at, Self::misc)?;
        if at == self.text.len() {
            Ok(at)
        } else {
            self.no_way(at)
        }
    }

    /// [22] prolog ::= Misc*
    fn prolog(&mut self, at: usize) -> Way {
        self.many(at, Self::misc)
    }

    /// [27] Misc ::= Comment | S
    fn misc(&mut self, at: usize) -> Way {
        self.either(at, &[Self::comment, Self::s])
    }

    /// [3] S
    fn s(&mut self, at: usize) -> Way {
        let at = self.one(at, is_white)?;
        Ok(self.run(at, is_white))
    }

    /// S?
    fn s_or_none(&mut self, at: usize) -> Way {
        Ok(self.run(at, is_white))
    }

    /// [5] Name ::= NameStartChar (NameChar)*
    fn name(&mut self, at: usize) -> Way {
        let at = self.one(at, is_name_start)?;
        Ok(self.run(at, is_name_char))
    }

    /// [15] Comment ::= '<!--' ((Char - '-') | ('-' (Char - '-')))* '-->'
    fn comment(&mut self, at: usize) -> Way {
        let at = self.word(at, b"<!--")?;
        let at = self.many(at, |this, at| {
            this.either(
                at,
                &[
                    |this, at| this.one(at, is_char_not_dash),
                    |this, at| {
                        let at = this.word(at, b"-")?;
                        this.one(at, is_char_not_dash)
                    },
                ],
            )
        })?;
        self.word(at, b"-->")
    }

    /// [39] element ::= EmptyElemTag | STag content ETag
    fn element(&mut self, at: usize) -> Way {
        self.either(at, &[Self::empty_element, Self::filled_element])
    }

    fn empty_element(&mut self, at: usize) -> Way {
        let (name, end) = self.empty_elem_tag(at)?;
        self.meet(Some(name), at, end - 1, end - 1)?;
        self.data = None;
        Ok(end)
    }

    fn filled_element(&mut self, at: usize) -> Way {
        let (name, inside) = self.s_tag(at)?;
        let node = self.meet(Some(name.clone()), at, at, inside - 1)?;
        self.data = None;
        self.open.push(node);
        let end = self
            .content(inside)
            .and_then(|at| self.e_tag(at, &self.text[name]));
        self.open.pop();
        let end = end?;
        self.data = None;
        self.nodes[node].last = end - 1;
        Ok(end)
    }

    /// [40] STag ::= '<' Name S? '>', and where the name stands
    fn s_tag(&mut self, at: usize) -> Result<(Range<usize>, usize), Stop> {
        let from = self.word(at, b"<")?;
        let to = self.name(from)?;
        let at = self.s_or_none(to)?;
        Ok((from..to, self.word(at, b">")?))
    }

    /// [42] ETag ::= '</' Name S? '>', with the name of the start tag
    fn e_tag(&mut self, at: usize, name: &[u8]) -> Way {
        let at = self.word(at, b"</")?;
        let at = self.word(at, name)?;
        let at = self.s_or_none(at)?;
        self.word(at, b">")
    }

    /// [44] EmptyElemTag ::= '<' Name S? '/>', and where the name stands
    fn empty_elem_tag(&mut self, at: usize) -> Result<(Range<usize>, usize), Stop> {
        let from = self.word(at, b"<")?;
        let to = self.name(from)?;
        let at = self.s_or_none(to)?;
        Ok((from..to, self.word(at, b"/>")?))
    }

    /// [43] content ::= CharData? ((element | Reference | Comment) CharData?)*
    fn content(&mut self, at: usize) -> Way {
        let at = self.char_data(at)?;
        self.many(at, |this, at| {
            let at = this.either(at, &[Self::element, Self::reference, Self::comment])?;
            this.char_data(at)
        })
    }

    /// [14] CharData ::= [^<&]* - ([^<&]* ']]>' [^<&]*)
    fn char_data(&mut self, at: usize) -> Way {
        let mut end = at;
        while let Ok(next) = self.one(end, is_data) {
            if self.text[at..next].ends_with(b"]]>") {
                return self.no_way(end);
            }
            self.hold(end, end, !is_white(self.text[end]))?;
            end = next;
        }
        Ok(end)
    }

    /// [67] Reference ::= EntityRef
    fn reference(&mut self, at: usize) -> Way {
        self.word(at, b"&")?;
        self.hold(at, at, true)?;
        for word in REFERENCES {
            if let Ok(end) = self.word(at, word) {
                self.hold(at, end - 1, true)?;
                return Ok(end);
            }
        }
        Err(Stop::NoWay)
    }

    /// Character data from first to last, both included. It makes a node with
    /// the first byte that is not white space.
    fn hold(&mut self, first: usize, last: usize, solid: bool) -> Result<(), Stop> {
        let mut data = self.data.take().unwrap_or(Data {
            first,
            last,
            node: None,
        });
        data.last = last;
        if solid && data.node.is_none() {
            data.node = Some(self.meet(None, data.first, last, first)?);
        }
        if let Some(node) = data.node {
            self.nodes[node].last = last;
        }
        self.data = Some(data);
        Ok(())
    }

    fn meet(
        &mut self,
        name: Option<Range<usize>>,
        first: usize,
        last: usize,
        met: usize,
    ) -> Result<usize, Stop> {
        let number = self.nodes.len();
        let level = self.open.len() + 1;
        if !self.limits.keep(number, level) {
            return Err(Stop::Beyond(number));
        }
        self.nodes.push(Node {
            parent: self.open.last().copied().unwrap_or(0),
            level,
            name,
            first,
            last,
            met,
        });
        Ok(number)
    }
}

/// What comes of a text, of any length.
pub fn derive(text: &[u8], limits: Limits) -> Outcome {
    let mut descent = Descent {
        text,
        limits,
        furthest: 0,
        nodes: vec![],
        open: vec![],
        data: None,
    };
    match descent.document() {
        Ok(_) => Outcome::Whole(descent.nodes),
        Err(Stop::NoWay) => Outcome::Markup(descent.furthest),
        Err(Stop::Beyond(number)) => Outcome::Beyond(number),
    }
}
