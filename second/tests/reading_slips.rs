//! Wrong readers that look right: the generated cases must tell each from 02.
//!
//! They are one reader by bytes, with a slip or without. Without one it is a
//! third rendering, and must agree with the judge on every case.

#[macro_use]
#[path = "common/slips.rs"]
mod common;

use second::call::{Reply, ACCEPTED, MARKUP, ROOM, SIZE, TREE};
use second::gen::reading::small;
use second::gen::{large_texts, near};
use second::xml::call::{Read, Reading};
use second::xml::judge::judge;
use std::ops::Range;

const CASES: u64 = 6_000;
const ENOUGH: usize = 5;

slips! {
    // What is markup.
    EndNameLonger,
    EndNameShorter,
    EndNameInAnyCase,
    BracketsLetThrough,
    BracketsHeldOverAComment,
    BracketsHeldOverAReference,
    BracketsForgottenAfterAThird,
    DashesLetThrough,
    ShortestCommentTaken,
    CommentBeginningWithDashRefused,
    SecondRoot,
    TextAfterTheRoot,
    CommentBeforeTheRootRefused,
    WhiteSpaceBeforeTheRootRefused,
    AnyEntity,
    CharacterReference,
    Attribute,
    DeleteRefused,
    ControlLetThrough,
    HighByteLetThrough,
    TabRefusedInATag,
    TabInAName,
    WhiteSpaceBeforeAName,
    WhiteSpaceAfterTheSlash,
    DigitBeginsAName,
    ColonRefused,
    CarriageReturnRefused,
    GreaterRefusedInData,
    // Where it breaks.
    PlaceLate,
    PlaceEarly,
    PlaceOfTheTag,
    EndNameAtItsEnd,
    ReferenceAtItsStart,
    SecondRootAtItsAngle,
    LoneEndTagAtItsAngle,
    // Which nodes there are.
    CommentPartsData,
    WhiteSpaceIsANode,
    WhiteSpaceTrimmed,
    CommentsAtTheEndsKept,
    DataFromItsFirstSolidByte,
    LastPlaceAfterTheNode,
    ElementEndsAtItsFirstTag,
    TagsByTheFirstLetter,
    TagsInAnyCase,
    TagsByTheLastName,
    TagsByLengthAndFirstLetter,
    TagsFromZero,
    DataCountsAsAName,
    ParentIsTheNodeBefore,
    // Limits, and what comes first.
    Level65,
    Level64Refused,
    Node65536,
    Node65535Refused,
    Bytes16777217,
    Bytes16777216Refused,
    TreeBeforeAnEarlierMarkup,
    MetAtTheAngle,
    DataMetWhereItEnds,
    DataMetAtWhiteSpace,
    BrokenReferenceNotMet,
    TreeGivesTheByte,
    RoomBeforeMarkup,
    // Buffers.
    RoomGivesWhatIsLent,
    TwoRowsOfWork,
    WorkNeedsNone,
    RoomForgetsLasts,
    WrittenBeforeARefusal,
    WorkStays,
    AllWorkIsZero,
    AllRowsAreZeroBehind,
}

use Slip::*;

/// Slips that only a large text can tell.
const LARGE: &[Slip] = &[Node65536, Node65535Refused, Bytes16777217, Bytes16777216Refused];

enum Stop {
    Markup(usize),
    /// The node, and the byte at which it is met.
    Tree(usize, usize),
}

use Stop::{Markup, Tree};

#[derive(Clone)]
struct Row {
    parent: usize,
    name: Option<Range<usize>>,
    first: usize,
    last: usize,
}

struct Data {
    first: usize,
    last: usize,
    node: Option<usize>,
}

struct Model<'a> {
    text: &'a [u8],
    slip: Option<Slip>,
    at: usize,
    rows: Vec<Row>,
    open: Vec<usize>,
    data: Option<Data>,
    brackets: usize,
    closed: bool,
}

impl Model<'_> {
    fn has(&self, slip: Slip) -> bool {
        self.slip == Some(slip)
    }

    fn byte(&self, at: usize) -> Option<u8> {
        self.text.get(at).copied()
    }

    fn is_char(&self, byte: u8) -> bool {
        match byte {
            0x7F => !self.has(DeleteRefused),
            b'\r' => !self.has(CarriageReturnRefused),
            0x80..=0xFF => self.has(HighByteLetThrough),
            b'\t' | b'\n' | b' '..=0x7E => true,
            _ => self.has(ControlLetThrough),
        }
    }

    fn is_white(&self, at: usize) -> bool {
        matches!(self.byte(at), Some(b' ' | b'\t' | b'\n' | b'\r'))
    }

    fn is_start(&self, at: usize) -> bool {
        match self.byte(at) {
            Some(b':') => !self.has(ColonRefused),
            Some(b'0'..=b'9') => self.has(DigitBeginsAName),
            Some(byte) => byte.is_ascii_alphabetic() || byte == b'_',
            None => false,
        }
    }

    fn is_name(&self, at: usize) -> bool {
        let more = b"-.0123456789";
        match self.byte(at) {
            Some(b'\t') => self.has(TabInAName),
            Some(byte) => self.is_start(at) || more.contains(&byte),
            None => false,
        }
    }

    fn skip_white(&self, mut at: usize) -> usize {
        while self.is_white(at) && !(self.has(TabRefusedInATag) && self.byte(at) == Some(b'\t')) {
            at += 1;
        }
        at
    }

    fn meet(&mut self, row: Row, at: usize) -> Result<usize, Stop> {
        let number = self.rows.len();
        let levels = match self.slip {
            Some(Level65) => 65,
            Some(Level64Refused) => 63,
            _ => 64,
        };
        let nodes = match self.slip {
            Some(Node65536) => 65_537,
            Some(Node65535Refused) => 65_535,
            _ => 65_536,
        };
        if self.open.len() >= levels || number >= nodes {
            return Err(Tree(number, at));
        }
        self.rows.push(row);
        Ok(number)
    }

    fn parent(&self) -> usize {
        if self.has(ParentIsTheNodeBefore) {
            return self.rows.len().saturating_sub(1);
        }
        self.open.last().copied().unwrap_or(0)
    }

    fn comment(&mut self) -> Result<(), Stop> {
        let start = self.at;
        if self.closed || !self.open.is_empty() || !self.has(CommentBeforeTheRootRefused) {
            for place in [start + 2, start + 3] {
                if self.byte(place) != Some(b'-') {
                    return Err(Markup(place));
                }
            }
        } else {
            return Err(Markup(start + 1));
        }
        let mut at = start + 4;
        if self.has(ShortestCommentTaken) && self.byte(at) == Some(b'>') {
            self.at = at + 1;
            return Ok(());
        }
        if self.has(CommentBeginningWithDashRefused) && self.text[at..].starts_with(b"->") {
            return Err(Markup(at + 1));
        }
        loop {
            match self.byte(at) {
                Some(b'-') if self.byte(at + 1) == Some(b'-') => match self.byte(at + 2) {
                    Some(b'>') => break,
                    Some(_) if self.has(DashesLetThrough) => at += 1,
                    _ => return Err(Markup(at + 2)),
                },
                Some(byte) if self.is_char(byte) => at += 1,
                _ => return Err(Markup(at)),
            }
        }
        self.at = at + 3;
        if self.has(CommentPartsData) {
            self.data = None;
        }
        if self.has(CommentsAtTheEndsKept) && !self.open.is_empty() {
            let last = self.at - 1;
            let data = self.data.get_or_insert(Data {
                first: start,
                last,
                node: None,
            });
            data.last = last;
            if let Some(node) = data.node {
                self.rows[node].last = last;
            }
        }
        Ok(())
    }

    fn end_tag(&mut self) -> Result<(), Stop> {
        let start = self.at;
        let node = match self.open.last() {
            Some(&node) => node,
            None if self.has(LoneEndTagAtItsAngle) => return Err(Markup(start)),
            None => return Err(Markup(start + 1)),
        };
        let name = self.rows[node].name.clone().unwrap();
        let from = start + 2 + usize::from(self.has(WhiteSpaceBeforeAName) && self.is_white(start + 2));
        let mut at = from;
        for place in name {
            let same = |a: u8, b: u8| a == b || self.has(EndNameInAnyCase) && a.eq_ignore_ascii_case(&b);
            match self.byte(at) {
                Some(byte) if same(byte, self.text[place]) => at += 1,
                _ if self.has(EndNameShorter) && at > from && !self.is_name(at) => break,
                _ if self.has(EndNameAtItsEnd) => {
                    while self.is_name(at) {
                        at += 1;
                    }
                    return Err(Markup(at));
                }
                _ => return Err(Markup(at)),
            }
        }
        while self.has(EndNameLonger) && self.is_name(at) {
            at += 1;
        }
        at = self.skip_white(at);
        if self.byte(at) != Some(b'>') {
            return Err(Markup(at));
        }
        if !self.has(ElementEndsAtItsFirstTag) {
            self.rows[node].last = at;
        }
        self.open.pop();
        self.closed = self.open.is_empty();
        self.data = None;
        self.at = at + 1;
        Ok(())
    }

    fn start_tag(&mut self) -> Result<(), Stop> {
        let start = self.at;
        if self.closed && !self.has(SecondRoot) {
            let early = usize::from(!self.has(SecondRootAtItsAngle));
            return Err(Markup(start + early));
        }
        let from = start + 1 + usize::from(self.has(WhiteSpaceBeforeAName) && self.is_white(start + 1));
        if !self.is_start(from) {
            return Err(Markup(from));
        }
        let row = Row {
            parent: self.parent(),
            name: None,
            first: start,
            last: start,
        };
        if self.has(MetAtTheAngle) {
            self.meet(row.clone(), start)?;
            self.rows.pop();
        }
        let mut to = from;
        while self.is_name(to) {
            to += 1;
        }
        let mut at = self.skip_white(to);
        if self.has(Attribute) && at > to && self.is_start(at) {
            while at < self.text.len() && !b"/>".contains(&self.text[at]) {
                at += 1;
            }
        }
        let empty = self.byte(at) == Some(b'/');
        at += usize::from(empty);
        if empty && self.has(WhiteSpaceAfterTheSlash) {
            at = self.skip_white(at);
        }
        if self.byte(at) != Some(b'>') {
            return Err(Markup(at));
        }
        let last = if empty || self.has(ElementEndsAtItsFirstTag) {
            at
        } else {
            start
        };
        let node = self.meet(
            Row {
                name: Some(from..to),
                last,
                ..row
            },
            at,
        )?;
        self.data = None;
        if empty {
            self.closed = self.open.is_empty();
        } else {
            self.open.push(node);
        }
        self.at = at + 1;
        Ok(())
    }

    fn hold(&mut self, first: usize, last: usize, solid: bool) -> Result<(), Stop> {
        let parent = self.parent();
        let mut data = self.data.take().unwrap_or(Data {
            first,
            last,
            node: None,
        });
        let solid = solid || self.has(WhiteSpaceIsANode);
        if self.has(DataMetAtWhiteSpace) && data.node.is_none() {
            let row = Row {
                parent,
                name: None,
                first,
                last,
            };
            self.meet(row, first)?;
            self.rows.pop();
        }
        if solid && data.node.is_none() {
            let first = if self.has(DataFromItsFirstSolidByte) || self.has(WhiteSpaceTrimmed) {
                first
            } else {
                data.first
            };
            let row = Row {
                parent,
                name: None,
                first,
                last,
            };
            data.node = Some(self.meet(row, first)?);
        }
        if let Some(node) = data.node {
            if solid || !self.has(WhiteSpaceTrimmed) {
                self.rows[node].last = last;
            }
        }
        data.last = last;
        self.data = Some(data);
        Ok(())
    }

    fn reference(&mut self) -> Result<(), Stop> {
        let start = self.at;
        if !self.has(BrokenReferenceNotMet) {
            self.hold(start, start, true)?;
        }
        let rest = &self.text[start..];
        let known = ["&amp;", "&lt;", "&gt;", "&apos;", "&quot;"];
        let fits = |word: &str| word.bytes().zip(rest).take_while(|&(a, &b)| a == b).count();
        let mut length = known
            .iter()
            .copied()
            .find(|word| fits(word) == word.len())
            .map(str::len);
        let numeric = rest.get(1) == Some(&b'#');
        if length.is_none() && (self.has(AnyEntity) && !numeric || self.has(CharacterReference) && numeric) {
            let inner = rest[1..]
                .iter()
                .take_while(|byte| byte.is_ascii_alphanumeric() || **byte == b'#')
                .count();
            if inner > 0 && rest.get(1 + inner) == Some(&b';') {
                length = Some(inner + 2);
            }
        }
        match length {
            Some(length) => {
                self.hold(start, start + length - 1, true)?;
                self.at = start + length;
                Ok(())
            }
            None if self.has(ReferenceAtItsStart) => Err(Markup(start)),
            None => Err(Markup(start + known.iter().map(|word| fits(word)).max().unwrap())),
        }
    }

    fn data_byte(&mut self) -> Result<(), Stop> {
        let at = self.at;
        let byte = self.text[at];
        if self.open.is_empty() {
            let lets = self.closed && self.has(TextAfterTheRoot) && self.is_char(byte) && byte != b'&';
            let refused = !self.closed && self.has(WhiteSpaceBeforeTheRootRefused);
            if !lets && (!self.is_white(at) || refused) {
                return Err(Markup(at));
            }
            self.at += 1;
            return Ok(());
        }
        if byte == b'&' {
            if !self.has(BracketsHeldOverAReference) {
                self.brackets = 0;
            }
            return self.reference();
        }
        let closes = match self.slip {
            Some(BracketsLetThrough) => false,
            Some(GreaterRefusedInData) => true,
            Some(BracketsForgottenAfterAThird) => self.brackets == 2,
            _ => self.brackets >= 2,
        };
        if !self.is_char(byte) || byte == b'>' && closes {
            return Err(Markup(at));
        }
        self.brackets = if byte == b']' { self.brackets + 1 } else { 0 };
        self.at += 1;
        self.hold(at, at, !self.is_white(at))
    }

    fn step(&mut self) -> Result<(), Stop> {
        if self.byte(self.at) != Some(b'<') {
            if !self.has(DataMetWhereItEnds) {
                return self.data_byte();
            }
            // A fault further on in the same run is seen first.
            let from = self.at;
            return match self.data_byte() {
                Err(Tree(number, met)) => {
                    let run = self.text[from..].iter().take_while(|byte| !b"<&".contains(byte));
                    let fault = (from..from + run.count())
                        .find(|&at| !self.is_char(self.text[at]) || self.text[from..=at].ends_with(b"]]>"));
                    Err(fault.map_or(Tree(number, met), Markup))
                }
                other => other,
            };
        }
        let comment = self.byte(self.at + 1) == Some(b'!');
        if !(comment && self.has(BracketsHeldOverAComment)) {
            self.brackets = 0;
        }
        match self.byte(self.at + 1) {
            Some(b'!') => self.comment(),
            Some(b'/') => self.end_tag(),
            _ => self.start_tag(),
        }
    }

    fn run(&mut self) -> Result<(), Stop> {
        let mut earlier = None;
        while self.at < self.text.len() {
            match self.step() {
                Err(Markup(place)) if self.has(TreeBeforeAnEarlierMarkup) => {
                    earlier = earlier.or(Some(place));
                    self.at = self.at.max(place) + 1;
                }
                Err(Markup(_)) if self.has(PlaceOfTheTag) => return Err(Markup(self.at)),
                other => other?,
            }
        }
        match earlier {
            Some(place) => Err(Markup(place)),
            None if self.closed && self.open.is_empty() => Ok(()),
            None => Err(Markup(self.text.len())),
        }
    }

    fn tags(&self) -> Vec<u32> {
        let mut known: Vec<Vec<u8>> = vec![];
        let mut tags = vec![];
        for row in &self.rows {
            let name = match &row.name {
                Some(name) => &self.text[name.clone()],
                None => {
                    if self.has(DataCountsAsAName) && !known.contains(&vec![]) {
                        known.push(vec![]);
                    }
                    tags.push(0);
                    continue;
                }
            };
            let name = match self.slip {
                Some(TagsByTheFirstLetter) => name[..1].to_vec(),
                Some(TagsInAnyCase) => name.to_ascii_lowercase(),
                Some(TagsByLengthAndFirstLetter) => vec![name[0], name.len() as u8],
                _ => name.to_vec(),
            };
            let number = match known.iter().position(|other| *other == name) {
                Some(number) if !self.has(TagsByTheLastName) => number,
                _ if self.has(TagsByTheLastName) && known.last() == Some(&name) => known.len() - 1,
                _ => {
                    known.push(name);
                    known.len() - 1
                }
            };
            tags.push(number as u32 + u32::from(!self.has(TagsFromZero)));
        }
        tags
    }
}

/// The outcome of a call by the reader with a slip.
fn reads(call: &Reading, slip: Option<Slip>) -> Read {
    let mut after = call.refused(SIZE, 0, 0);
    let longest = match slip {
        Some(Bytes16777217) => 16_777_217,
        Some(Bytes16777216Refused) => 16_777_215,
        _ => 16_777_216,
    };
    if call.text.len() > longest {
        return after;
    }
    let mut model = Model {
        text: &call.text,
        slip,
        at: 0,
        rows: vec![],
        open: vec![],
        data: None,
        brackets: 0,
        closed: false,
    };
    let stop = model.run().err();
    if slip == Some(WhiteSpaceTrimmed) || slip == Some(WhiteSpaceIsANode) || slip.is_none() {
        assert!(model
            .rows
            .iter()
            .all(|row| row.first <= row.last || stop.is_some()));
    }
    let n = model.rows.len();
    let last = |row: &Row| row.last + usize::from(slip == Some(LastPlaceAfterTheNode));
    let columns = [
        model.rows.iter().map(|row| row.parent as u32).collect(),
        model.tags(),
        model.rows.iter().map(|row| row.first as u32).collect(),
        model
            .rows
            .iter()
            .map(|row| last(row) as u32)
            .collect::<Vec<u32>>(),
    ];
    let mut needed = [n, n, n, n, 3 * n];
    match slip {
        Some(TwoRowsOfWork) => needed[4] = 2 * n,
        Some(WorkNeedsNone) => needed[4] = 0,
        Some(RoomForgetsLasts) => needed[3] = 0,
        _ => (),
    }
    let lent = [
        call.parents.len(),
        call.tags.len(),
        call.firsts.len(),
        call.lasts.len(),
        call.work.len(),
    ];
    let short = (0..5).any(|i| lent[i] < needed[i]);
    let refused = match stop {
        Some(_) if slip == Some(RoomBeforeMarkup) && short => None,
        Some(Markup(place)) => Some(match slip {
            Some(PlaceLate) => (MARKUP, place + 1),
            Some(PlaceEarly) => (MARKUP, place.saturating_sub(1)),
            _ => (MARKUP, place),
        }),
        Some(Tree(_, met)) if slip == Some(TreeGivesTheByte) => Some((TREE, met)),
        Some(Tree(number, _)) => Some((TREE, number)),
        None => None,
    };
    let rows = [
        &mut after.parents,
        &mut after.tags,
        &mut after.firsts,
        &mut after.lasts,
    ];
    if refused.is_none() && !short || slip == Some(WrittenBeforeARefusal) {
        for (lent, column) in rows.into_iter().zip(&columns) {
            if slip == Some(AllRowsAreZeroBehind) {
                lent.fill(0);
            }
            let length = lent.len().min(column.len());
            lent[..length].copy_from_slice(&column[..length]);
        }
        let zeros = match slip {
            Some(WorkStays) => 0,
            Some(AllWorkIsZero) => lent[4],
            _ => lent[4].min(3 * n),
        };
        after.work[..zeros].fill(0);
    }
    after.reply = match refused {
        Some((refusal, place)) => Reply {
            refusal,
            place: place as u32,
            total: 0,
        },
        None => Reply {
            refusal: if short { ROOM } else { ACCEPTED },
            place: 0,
            total: match slip {
                Some(RoomGivesWhatIsLent) if short => *lent.iter().min().unwrap() as u32,
                _ => n as u32,
            },
        },
    };
    after
}

#[test]
fn the_reader_without_a_slip_agrees() {
    for number in 0..20_000 {
        let (call, ..) = small(3, number);
        assert_eq!(reads(&call, None), judge(&call), "{}", call.text.escape_ascii());
    }
    for call in near::calls() {
        assert_eq!(reads(&call, None), judge(&call), "{}", call.text.escape_ascii());
    }
}

/// Prints how many cases tell each slip, and holds them to be enough.
fn hold(told: &[(Slip, usize)], enough: usize) {
    told.iter()
        .for_each(|(slip, cases)| println!("{slip:?}: {cases}"));
    for (slip, cases) in told {
        assert!(*cases >= enough, "{slip:?}: told apart by {cases} cases only");
    }
}

#[test]
fn slips_are_told_apart() {
    let small_ones = ALL.iter().filter(|slip| !LARGE.contains(slip));
    let mut told: Vec<(Slip, usize)> = small_ones.map(|&slip| (slip, 0)).collect();
    for number in 0..CASES {
        let (call, ..) = small(1, number);
        let right = judge(&call);
        for (slip, cases) in &mut told {
            *cases += usize::from(reads(&call, Some(*slip)) != right);
        }
    }
    hold(&told, ENOUGH);
}

#[test]
fn slips_of_limits_are_told_apart() {
    let mut told: Vec<(Slip, usize)> = LARGE.iter().map(|&slip| (slip, 0)).collect();
    for number in 0..large_texts::how_many() {
        let (call, kind) = large_texts::large(1, number);
        let right = judge(&call);
        if kind.many_names() {
            // The reader here numbers names in quadratic time.
            continue;
        }
        assert_eq!(reads(&call, None), right, "{kind:?}");
        for (slip, cases) in &mut told {
            *cases += usize::from(reads(&call, Some(*slip)) != right);
        }
    }
    hold(&told, 1);
}
