//! Small texts of the profile, and now and then one that is too deep.

use super::pen::Pen;
use super::rng::Rng;

/// What a text is like.
#[derive(Clone, Copy, PartialEq, Eq, PartialOrd, Ord, Debug)]
pub enum Manner {
    /// Trains, legs, stations and notes, as a merger writes them.
    Schedule,
    /// Every production, at random.
    Productions,
    /// Some 64 levels.
    Deep,
    /// 64 levels, and something in the last: a node too deep, or no node at all.
    Brink,
    /// Many children of one element.
    Wide,
    /// Names that are easily taken for one another.
    Names,
    /// White space wherever it may stand.
    Spaced,
    /// Character data with comments and references.
    Data,
    /// A few bytes.
    Tiny,
}

impl Manner {
    pub const ALL: &'static [Manner] = &[
        Manner::Schedule,
        Manner::Productions,
        Manner::Deep,
        Manner::Brink,
        Manner::Wide,
        Manner::Names,
        Manner::Spaced,
        Manner::Data,
        Manner::Tiny,
    ];
}

const STATIONS: &[&str] = &[
    "Wien Hbf",
    "Tarvisio",
    "Passau",
    "Kufstein",
    "Brennero",
    "Praha hl. n.",
    "Hegyeshalom",
    "Buchs (SG)",
    "Villach/Beljak",
];

const NOTES: &[&str] = &[
    "clocks go back: the 02:30 runs &lt;twice&gt;",
    "reserved seats &amp; couchettes only",
    "see &quot;winter&quot; <!-- since 2019 --> timetable",
    "doesn&apos;t stop <!-- customs --><!-- until May -->",
    "<!-- no note -->",
    "border check, 12 min",
    "via [A]] > [B]]",
];

/// A line's end and its indent.
fn line(pen: &mut Pen, indent: Option<usize>) {
    if let Some(indent) = indent {
        pen.word(b"\n");
        for _ in 0..indent {
            pen.word(b"  ");
        }
    }
}

fn field(pen: &mut Pen, name: &str, value: &str) {
    pen.start(name.as_bytes());
    pen.word(value.as_bytes());
    pen.end(name.as_bytes());
}

/// A schedule of so many trains, indented or not.
pub fn schedule(pen: &mut Pen, trains: usize, indented: bool) {
    let at = |depth: usize| indented.then_some(depth);
    pen.start(b"schedule");
    for _ in 0..trains {
        line(pen, at(1));
        pen.start(b"train");
        line(pen, at(2));
        let number = format!("{} {}", pen.rng.pick(&["NJ", "EN", "D"]), pen.rng.range(200, 490));
        field(pen, "number", &number);
        for _ in 0..pen.rng.pick(&[1, 1, 2, 3]) {
            line(pen, at(2));
            pen.start(b"leg");
            for name in ["from", "to"] {
                line(pen, at(3));
                let station = pen.rng.pick(STATIONS);
                field(pen, name, station);
            }
            match pen.rng.range(0, 5) {
                0..=1 => {
                    line(pen, at(3));
                    let note = pen.rng.pick(NOTES);
                    field(pen, "note", note);
                }
                2 => {
                    line(pen, at(3));
                    pen.empty(b"border");
                }
                _ => (),
            }
            line(pen, at(2));
            pen.end(b"leg");
        }
        line(pen, at(1));
        pen.end(b"train");
    }
    line(pen, at(0));
    pen.end(b"schedule");
}

const NAMES: &[&str] = &[
    "a", "b", "ab", "a.b", "a-", "_", ":", "A", "x:y", "Z9", "leg", "legs", "_.-:", "a1",
];

fn name(rng: &mut Rng) -> &'static [u8] {
    rng.pick(NAMES).as_bytes()
}

/// An element by the productions, with a budget of parts.
fn element(pen: &mut Pen, budget: &mut usize, depth: usize) {
    let name = name(pen.rng);
    if *budget == 0 || depth > 8 || pen.rng.percent(25) {
        return pen.leaf(name);
    }
    pen.start(name);
    for _ in 0..pen.rng.range(0, 5) {
        if *budget > 0 {
            *budget -= 1;
            part(pen, budget, depth);
        }
    }
    pen.end(name);
}

/// A part of content.
fn part(pen: &mut Pen, budget: &mut usize, depth: usize) {
    match pen.rng.range(0, 9) {
        0..=4 => element(pen, budget, depth + 1),
        5 => pen.reference(),
        6 => pen.comment(),
        7 => pen.s(),
        _ => {
            let length = pen.rng.range(1, 8);
            pen.data(length)
        }
    }
}

/// Nodes one in the other down to a level and not below, with some things beside
/// them. The last is an element or data.
pub fn deep(pen: &mut Pen, levels: usize, beside: usize) {
    let names: Vec<&[u8]> = (0..levels).map(|_| name(pen.rng)).collect();
    for (depth, name) in names.iter().enumerate() {
        let last = depth + 1 == levels;
        if last && pen.rng.percent(30) {
            pen.empty(name);
        } else if last && pen.rng.percent(30) {
            pen.between(1);
            pen.word(b"x");
            pen.between(1);
        } else {
            pen.start(name);
            if last {
                pen.end(name);
                continue;
            }
            if pen.rng.percent(beside) {
                pen.between(2);
            }
            if pen.rng.percent(beside) {
                pen.leaf(b"side");
            }
        }
    }
    for name in names.iter().rev().skip(1) {
        if pen.rng.percent(beside / 2) {
            pen.leaf(b"after");
        }
        if pen.rng.percent(beside / 2) {
            pen.between(1);
        }
        pen.end(name);
    }
}

/// What may stand in an element of level 64, and what breaks off there.
const BRINK: &[&str] = &[
    "",
    " ",
    "<!--c-->",
    " <!-- x -->\n",
    "x",
    " x",
    "<!--c-->x",
    " <!----> x",
    "&lt;",
    " &amp; ",
    "&nbsp;",
    " &",
    "&#65;",
    " &l",
    "]]>",
    " ]]>",
    "x\u{1}",
    " \u{1}x",
    "x]]>",
    "\t\u{7f}",
    "<a/>",
    "<a></a>",
    "<a>",
    " <a />",
    "<a",
    "<a ",
    "<a /",
    "<a b",
    "<a=",
    "<a></b>",
    "<",
    "<!",
    "<!--",
    "<!-- --x",
    "<!-- x",
    "</",
    "</>",
    "]",
    "-->",
    ">",
    "<a//>",
    "<a/ >",
    "x<a",
    "x<a/>",
];

fn brink(pen: &mut Pen) {
    let names: Vec<&[u8]> = (0..64).map(|_| name(pen.rng)).collect();
    names.iter().for_each(|name| pen.start(name));
    let piece = pen.rng.pick(BRINK);
    pen.word(piece.as_bytes());
    names.iter().rev().for_each(|name| pen.end(name));
}

fn wide(pen: &mut Pen) {
    let few = name(pen.rng);
    pen.start(b"root");
    let kind = pen.rng.range(0, 3);
    for _ in 0..pen.rng.range(15, 90) {
        match kind {
            0 => pen.leaf(few),
            1 => {
                let name = name(pen.rng);
                pen.leaf(name);
                pen.between(1);
            }
            2 => {
                pen.leaf(few);
                pen.word(b"x");
            }
            _ => {
                let name = name(pen.rng);
                pen.start(name);
                pen.word(b"x");
                pen.end(name);
            }
        }
    }
    pen.end(b"root");
}

/// A family of names that are easily taken for one another.
pub fn family(rng: &mut Rng, kind: usize, number: usize) -> Vec<u8> {
    let begin = b"departure-board.of_the:night-trains.";
    match kind {
        // Each is a beginning of the next.
        0 => vec![b'a'; number + 1],
        // A long beginning shared, and few letters of their own.
        1 => [begin.to_vec(), base26(number)].concat(),
        // The same letters in another order.
        2 => permutation(number),
        // One letter, and the rest.
        3 => [b"t".to_vec(), base26(number)].concat(),
        // One bit apart: letters of both cases.
        4 => {
            let letters = b"abcdefg";
            let turn = |i: usize| letters[i] ^ (0x20 * (number >> i & 1) as u8);
            (0..letters.len()).map(turn).collect()
        }
        // Beginnings of one long name.
        5 => begin[..number % begin.len() + 1].to_vec(),
        // Any.
        _ => {
            let length = rng.range(1, 9);
            let first = rng.pick(b"abXY_:");
            let rest = (1..length).map(|_| rng.pick(b"abXY_:-.01")).collect::<Vec<u8>>();
            [vec![first], rest].concat()
        }
    }
}

pub const FAMILIES: usize = 7;

fn base26(mut number: usize) -> Vec<u8> {
    let mut letters = vec![];
    loop {
        letters.push(b'a' + (number % 26) as u8);
        number /= 26;
        if number == 0 {
            letters.reverse();
            return letters;
        }
    }
}

/// Permutation `number` of nine letters.
fn permutation(mut number: usize) -> Vec<u8> {
    let mut letters = b"abcdefghi".to_vec();
    let mut word = vec![];
    while !letters.is_empty() {
        word.push(letters.remove(number % letters.len()));
        number /= letters.len() + 1;
    }
    word
}

fn names(pen: &mut Pen) {
    let kind = pen.rng.range(0, FAMILIES - 1);
    let how_many = pen.rng.range(2, 30);
    let mixed = pen.rng.percent(25);
    let mut pool: Vec<Vec<u8>> = (0..how_many)
        .map(|number| {
            let other = pen.rng.range(0, FAMILIES - 1);
            family(pen.rng, if mixed { other } else { kind }, number)
        })
        .collect();
    if pen.rng.percent(30) {
        pool.reverse();
    }
    let mut open = vec![pool[0].clone()];
    pen.start(&pool[0]);
    for _ in 0..pen.rng.range(2, 40) {
        let name = pool[pen.rng.range(0, pool.len() - 1)].clone();
        match pen.rng.range(0, 9) {
            0..=5 => pen.leaf(&name),
            6..=7 => {
                pen.start(&name);
                open.push(name);
            }
            _ if open.len() > 1 => {
                let name = open.pop().unwrap();
                pen.end(&name);
            }
            _ => pen.word(b"x"),
        }
    }
    while let Some(name) = open.pop() {
        pen.end(&name);
    }
}

fn data(pen: &mut Pen) {
    pen.start(b"a");
    for _ in 0..pen.rng.range(0, 4) {
        let parts = pen.rng.range(0, 6);
        pen.between(parts);
        let name = name(pen.rng);
        match pen.rng.range(0, 2) {
            0 => pen.leaf(name),
            _ => {
                pen.start(name);
                let parts = pen.rng.range(0, 6);
                pen.between(parts);
                pen.end(name);
            }
        }
    }
    let parts = pen.rng.range(0, 6);
    pen.between(parts);
    pen.end(b"a");
}

const TINY: &[&str] = &[
    "<a/>",
    "<a></a>",
    "<a>x</a>",
    "<a> x </a>",
    "<a> </a>",
    "<a\t>\r\n</a\n>",
    " <a/> ",
    "<!----><a/>",
    "<a/><!--->-->",
    "<a><!--c--></a>",
    "<a>x<!--c-->y</a>",
    "<a> <!--c--> </a>",
    "<a><b/></a>",
    "<a><ab/></a>",
    "<a>x<b/>y</a>",
    "<a>&lt;</a>",
    "<a> &amp; </a>",
    "<a>]]</a>",
    "<a>]]&gt;</a>",
    "<a>]]<!---->></a>",
    "<a>\x7f</a>",
    "<ab></ab >",
    "<:/>",
    "<_.-:9/>",
    "<a><a><a/></a></a>",
    "<a>></a>",
    "<a>-->\"'</a>",
];

/// Pieces of markup in a row, which are seldom a text.
const PIECES: &[&str] = &[
    "<a>", "<a>", "</a>", "</a>", "<b/>", "<", ">", "/", "a", "b", " ", "\t", "!", "-", "--", "<!--", "-->",
    "&", "&lt;", ";", "]", "]]", "x", "</", "/>", "\x7f", "\n", "&am", "<a",
];

fn tiny(pen: &mut Pen) {
    match pen.rng.range(0, 9) {
        0..=5 => {
            let text = pen.rng.pick(TINY);
            pen.word(text.as_bytes());
        }
        6..=7 => {
            pen.word(b"<a>");
            for _ in 0..pen.rng.range(1, 4) {
                let piece = pen.rng.pick(PIECES);
                pen.word(piece.as_bytes());
            }
            pen.word(b"</a>");
        }
        _ => {
            for _ in 0..pen.rng.range(0, 6) {
                let piece = pen.rng.pick(PIECES);
                pen.word(piece.as_bytes());
            }
        }
    }
}

/// A text of a manner. It is of the profile but for the tiny ones and those at the
/// brink, which may be anything; a deep one may break the limit of levels.
pub fn text(rng: &mut Rng, manner: Manner) -> Vec<u8> {
    let white = match manner {
        Manner::Schedule => 0,
        Manner::Spaced => 90,
        _ => rng.pick(&[0, 5, 30]),
    };
    let pen = &mut Pen::new(rng, white);
    if manner != Manner::Tiny {
        pen.miscs();
    }
    match manner {
        Manner::Schedule => {
            let (trains, indented) = (pen.rng.range(1, 5), pen.rng.percent(70));
            schedule(pen, trains, indented)
        }
        Manner::Productions | Manner::Spaced => {
            let mut budget = pen.rng.range(0, 40);
            element(pen, &mut budget, 1)
        }
        Manner::Deep => {
            let levels = pen.rng.pick(&[40, 62, 63, 63, 64, 64, 64, 65, 65, 66, 70]);
            let beside = pen.rng.pick(&[0, 2, 10]);
            deep(pen, levels, beside)
        }
        Manner::Brink => brink(pen),
        Manner::Wide => wide(pen),
        Manner::Names => names(pen),
        Manner::Data => data(pen),
        Manner::Tiny => tiny(pen),
    }
    if manner != Manner::Tiny {
        pen.miscs();
    }
    std::mem::take(&mut pen.text)
}
