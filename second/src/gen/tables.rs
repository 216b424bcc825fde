//! Inputs for the table program: lawful tables, tables whose index is
//! refused, and tables broken in one way each.

use super::damage::{damage, Damage};
use super::lend::{lend, Plan, Room};
use super::rng::Rng;
use super::shape::{tree, Shape, Tags, Tree};
use super::small::plan;
use super::words::{list, Kind};
use crate::call::{Call, Search};
use crate::list::lists;
use crate::table::{BYTES, NODES};

/// A table as fields, before it is written as bytes.
struct Sheet {
    header: Vec<String>,
    rows: Vec<Vec<String>>,
}

impl Sheet {
    /// The table of a call's index. Numbers that a field cannot hold are cut.
    fn of(call: &Call) -> Sheet {
        let n = call.n();
        let (p, k) = (call.p as usize, call.ends.len());
        let words = lists(&call.ends, &call.occurrences);
        let field = |number: u32| number.min(99_999).to_string();
        let mut header = vec!["parent".to_string(), "tag".to_string()];
        for j in 0..k {
            header.push(if j < p { "+" } else { "-" }.to_string());
            header.push("#".to_string());
        }
        let rows = (0..n)
            .map(|v| {
                let mut row = vec![field(call.parents[v]), field(call.tags[v])];
                for (j, word) in words.iter().enumerate() {
                    let occurs = word.binary_search(&(v as u32)).is_ok();
                    row.push(if occurs { "1" } else { "0" }.to_string());
                    row.push(field(call.counts[j * n + v]));
                }
                row
            })
            .collect();
        Sheet { header, rows }
    }

    /// The bytes, each line ended by CR LF.
    fn bytes(&self) -> Vec<u8> {
        let mut text = self.header.join(",") + "\r\n";
        for row in &self.rows {
            text += &row.join(",");
            text += "\r\n";
        }
        text.into_bytes()
    }

    fn some_row(&mut self, rng: &mut Rng) -> &mut Vec<String> {
        let at = rng.range(0, self.rows.len() - 1);
        &mut self.rows[at]
    }

    /// A field that holds a parent, a tag or a count.
    fn some_number(&mut self, rng: &mut Rng) -> &mut String {
        let row = self.some_row(rng);
        let numbers: Vec<usize> = (0..row.len()).filter(|&f| f < 2 || f % 2 == 1).collect();
        let at = rng.pick(&numbers);
        &mut row[at]
    }

    /// A field that says whether a word occurs.
    fn some_occurrence(&mut self, rng: &mut Rng) -> &mut String {
        let row = self.some_row(rng);
        let at = 2 * rng.range(1, row.len() / 2 - 1);
        &mut row[at]
    }

    fn some_field(&mut self, rng: &mut Rng) -> &mut String {
        let row = self.some_row(rng);
        let at = rng.range(0, row.len() - 1);
        &mut row[at]
    }
}

/// A lawful index that a table can hold.
fn lawful_call(rng: &mut Rng) -> Call {
    loop {
        let tall = rng.percent(2);
        let mut plan = plan(rng, Search::Valid, tall);
        for tag in &mut plan.tree.tags {
            // Tags too large for a field become others that fit.
            if *tag > 99_999 {
                *tag = 1 + *tag % 99_999;
            }
        }
        if plan.tree.parents.len() <= NODES {
            return lend(rng, &plan, Room::Exact);
        }
    }
}

fn lawful(rng: &mut Rng) -> Sheet {
    Sheet::of(&lawful_call(rng))
}

/// A lawful index over a tree: each of p positive words at a share of the
/// nodes in a hundred, and q negative words below entities.
fn call_over(rng: &mut Rng, tree: Tree, share: usize, p: usize, q: usize) -> Call {
    let words = (0..p + q)
        .map(|j| {
            let kind = match j < p {
                true => Kind::Each(share),
                false => rng.pick(&[Kind::Noted, Kind::Lone]),
            };
            list(rng, &tree, kind)
        })
        .collect();
    let plan = Plan {
        search: Search::Valid,
        tree,
        words,
        p,
    };
    lend(rng, &plan, Room::Exact)
}

/// A lawful index of so many nodes.
fn long_call(rng: &mut Rng, n: usize, p: usize, q: usize) -> Call {
    let shape = rng.pick(&[
        Shape::Random,
        Shape::Deep,
        Shape::Schedule,
        Shape::Flat,
        Shape::OneLeg,
        Shape::Alike,
    ]);
    let tree = tree(rng, n, shape, Tags::Few(3), 50);
    call_over(rng, tree, 20, p, q)
}

fn long(rng: &mut Rng, n: usize) -> Sheet {
    let p = rng.range(1, 3);
    let q = rng.range(0, 2);
    Sheet::of(&long_call(rng, n, p, q))
}

/// A lawful table with large answers: most nodes hold every positive word and
/// have no child.
fn large(rng: &mut Rng) -> Sheet {
    let n = rng.range(NODES - 40, NODES);
    let shape = rng.weighted(&[
        (6, Shape::Flat),
        (2, Shape::Wide),
        (2, Shape::Schedule),
        (1, Shape::OneLeg),
        (1, Shape::Alike),
    ]);
    let tree = tree(rng, n, shape, Tags::Few(3), 50);
    let (p, q) = (rng.range(1, 3), rng.range(0, 1));
    let share = rng.range(90, 100);
    Sheet::of(&call_over(rng, tree, share, p, q))
}

/// A table that only the index check refuses.
fn refused(rng: &mut Rng) -> Vec<u8> {
    const KINDS: &[Damage] = &[
        Damage::RootEntry,
        Damage::ParentItself,
        Damage::ParentAbove,
        Damage::ParentOffTheClimb,
        Damage::TextRoot,
        Damage::TextParent,
        Damage::ChildOfText,
        Damage::OtherTree,
        Damage::Level65,
        Damage::CountSomewhere,
        Damage::CountFirst,
        Damage::CountLast,
        Damage::CountTwice,
        Damage::LastSeason,
        Damage::ExtraCounted,
        Damage::MovedCounted,
    ];
    loop {
        let kind = rng.pick(KINDS);
        let base = match kind {
            Damage::Level65 => {
                let plan = plan(rng, Search::Valid, true);
                lend(rng, &plan, Room::Exact)
            }
            _ => lawful_call(rng),
        };
        let mut call = base.clone();
        let done = damage(rng, &base, &mut call, kind);
        let bytes = Sheet::of(&call).bytes();
        if done && bytes.len() <= BYTES {
            return bytes;
        }
    }
}

/// A table of 256 nodes and 8 words with fields lengthened until it has
/// exactly so many bytes. No lawful index is that long, so the index is false.
fn of_length(rng: &mut Rng, length: usize) -> Vec<u8> {
    let p = rng.range(1, 8);
    let mut sheet = Sheet::of(&long_call(rng, NODES, p, 8 - p));
    let mut missing = length - sheet.bytes().len();
    // Tags first: they stay lawful. Then counts, then parents, from the end.
    let mut columns = vec![1];
    columns.extend((0..8).rev().map(|j| 3 + 2 * j));
    columns.push(0);
    for column in columns {
        for row in sheet.rows.iter_mut().rev() {
            let field = &mut row[column];
            let text = column == 1 && field == "0";
            let more = missing.min(5 - field.len());
            if more > 0 && !text {
                let digits = field.len() + more;
                let low = 10usize.pow(digits as u32 - 1);
                *field = rng.range(low, 10 * low - 1).to_string();
                missing -= more;
            }
        }
    }
    assert_eq!(missing, 0);
    sheet.bytes()
}

/// Cuts off the last line end.
fn without_last_end(mut bytes: Vec<u8>) -> Vec<u8> {
    bytes.truncate(bytes.len() - 2);
    bytes
}

fn insert(rng: &mut Rng, mut bytes: Vec<u8>, what: &[u8]) -> Vec<u8> {
    let at = rng.range(0, bytes.len());
    bytes.splice(at..at, what.iter().copied());
    bytes
}

/// Puts other bytes in the place of one line end.
fn other_end(rng: &mut Rng, mut bytes: Vec<u8>, end: &[u8]) -> Vec<u8> {
    let ends: Vec<usize> = (0..bytes.len()).filter(|&at| bytes[at] == b'\r').collect();
    let at = rng.pick(&ends);
    bytes.splice(at..at + 2, end.iter().copied());
    bytes
}

/// A lawful table with one field set to something else.
fn with_number(rng: &mut Rng, values: &[&str]) -> Vec<u8> {
    let mut sheet = lawful(rng);
    *sheet.some_number(rng) = rng.pick(values).to_string();
    sheet.bytes()
}

type Maker = fn(&mut Rng) -> Vec<u8>;

/// The ways to break a table, each with its name. Some turn out lawful: they
/// stand at a limit, on its good side.
pub const BROKEN: &[(&str, Maker)] = &[
    ("LF ends all lines", |rng| {
        let mut bytes = lawful(rng).bytes();
        bytes.retain(|&byte| byte != b'\r');
        bytes
    }),
    ("LF ends one line", |rng| {
        let bytes = lawful(rng).bytes();
        other_end(rng, bytes, b"\n")
    }),
    ("CR ends one line", |rng| {
        let bytes = lawful(rng).bytes();
        other_end(rng, bytes, b"\r")
    }),
    ("LF CR ends one line", |rng| {
        let bytes = lawful(rng).bytes();
        other_end(rng, bytes, b"\n\r")
    }),
    ("lone CR somewhere", |rng| {
        let bytes = lawful(rng).bytes();
        insert(rng, bytes, b"\r")
    }),
    ("lone LF somewhere", |rng| {
        let bytes = lawful(rng).bytes();
        insert(rng, bytes, b"\n")
    }),
    ("CR before one line end", |rng| {
        let bytes = lawful(rng).bytes();
        other_end(rng, bytes, b"\r\r\n")
    }),
    ("no last line end", |rng| without_last_end(lawful(rng).bytes())),
    ("half of the last line end", |rng| {
        let mut bytes = lawful(rng).bytes();
        bytes.pop();
        bytes
    }),
    ("LF for the last line end", |rng| {
        let mut bytes = without_last_end(lawful(rng).bytes());
        bytes.push(b'\n');
        bytes
    }),
    ("double last line end", |rng| {
        [lawful(rng).bytes(), b"\r\n".to_vec()].concat()
    }),
    ("triple last line end", |rng| {
        [lawful(rng).bytes(), b"\r\n\r\n".to_vec()].concat()
    }),
    ("empty", |_| vec![]),
    ("CR LF only", |_| b"\r\n".to_vec()),
    ("CR LF twice only", |_| b"\r\n\r\n".to_vec()),
    ("CR only", |rng| {
        rng.pick(&["\r", "\n", "\n\r", "\r\r\n"]).as_bytes().to_vec()
    }),
    ("an empty line between", |rng| {
        let bytes = lawful(rng).bytes();
        other_end(rng, bytes, b"\r\n\r\n")
    }),
    ("an empty first line", |rng| {
        [b"\r\n".to_vec(), lawful(rng).bytes()].concat()
    }),
    ("leading zero", |rng| {
        let mut sheet = lawful(rng);
        let zeros = rng.pick(&["0", "00", "0000"]);
        sheet.some_number(rng).insert_str(0, zeros);
        sheet.bytes()
    }),
    ("six digits", |rng| {
        with_number(rng, &["100000", "123456", "999999", "000001"])
    }),
    ("many digits", |rng| {
        with_number(rng, &["4294967296", "4294967297", "18446744073709551616"])
    }),
    ("five digits", |rng| {
        with_number(rng, &["99999", "10000", "65535", "65536"])
    }),
    ("signs, points and spaces", |rng| {
        with_number(
            rng,
            &[
                "+1", "-1", "-0", " 1", "1 ", "1.0", "1e1", "0x1", "\t1", "1;", "a",
            ],
        )
    }),
    ("quoted number", |rng| {
        let mut sheet = lawful(rng);
        let field = sheet.some_field(rng);
        *field = format!("\"{field}\"");
        sheet.bytes()
    }),
    ("quoted header", |rng| {
        let mut sheet = lawful(rng);
        let at = rng.range(0, sheet.header.len() - 1);
        sheet.header[at] = format!("\"{}\"", sheet.header[at]);
        sheet.bytes()
    }),
    ("byte-order mark", |rng| {
        [b"\xEF\xBB\xBF".to_vec(), lawful(rng).bytes()].concat()
    }),
    ("wrong header word", |rng| {
        let mut sheet = lawful(rng);
        let at = rng.range(0, sheet.header.len() - 1);
        let wrong = [
            "Parent", "PARENT", "parents", "tags", "Tag", "", " ", "#", "+", "-", "++", "+#", "0", "1",
        ];
        sheet.header[at] = rng.pick(&wrong).to_string();
        sheet.bytes()
    }),
    ("space in the header", |rng| {
        let mut sheet = lawful(rng);
        let at = rng.range(0, sheet.header.len() - 1);
        let word = sheet.header[at].clone();
        sheet.header[at] = if rng.percent(50) {
            format!(" {word}")
        } else {
            format!("{word} ")
        };
        sheet.bytes()
    }),
    ("header in another order", |rng| {
        let mut sheet = lawful(rng);
        let (a, b) = rng.pick(&[(0, 1), (2, 3), (1, 2), (0, 3)]);
        sheet.header.swap(a, b);
        sheet.bytes()
    }),
    ("header cut or lengthened", |rng| {
        let mut sheet = lawful(rng);
        match rng.range(0, 4) {
            0 => sheet.header.truncate(1),
            1 => sheet.header.truncate(3),
            2 => sheet.header.push("+".to_string()),
            3 => sheet.header.push(String::new()),
            _ => {
                sheet.header.pop();
            }
        }
        sheet.bytes()
    }),
    ("header missing", |rng| {
        let bytes = lawful(rng).bytes();
        let end = bytes.windows(2).position(|pair| pair == b"\r\n").unwrap();
        bytes[end + 2..].to_vec()
    }),
    ("header twice", |rng| {
        let mut sheet = lawful(rng);
        let at = rng.range(0, sheet.rows.len());
        sheet.rows.insert(at, sheet.header.clone());
        sheet.bytes()
    }),
    ("header only", |rng| {
        let mut sheet = lawful(rng);
        sheet.rows.clear();
        let bytes = sheet.bytes();
        if rng.percent(50) {
            without_last_end(bytes)
        } else {
            bytes
        }
    }),
    ("minus before plus", |rng| {
        let n = rng.range(1, 30);
        let (p, q) = (rng.range(1, 4), rng.range(1, 4));
        let mut sheet = Sheet::of(&long_call(rng, n, p, q));
        let at = 2 * rng.range(1, p);
        sheet.header[at] = "-".to_string();
        sheet.header[2 * (p + 1)] = "+".to_string();
        sheet.bytes()
    }),
    ("no positive word", |rng| {
        let mut sheet = lawful(rng);
        for word in sheet.header.iter_mut().filter(|word| *word == "+") {
            *word = "-".to_string();
        }
        sheet.bytes()
    }),
    ("no word", |rng| {
        let mut sheet = lawful(rng);
        sheet.header.truncate(2);
        sheet.rows.iter_mut().for_each(|row| row.truncate(2));
        sheet.bytes()
    }),
    ("nine words", |rng| {
        let n = rng.range(1, 30);
        let p = rng.range(1, 8);
        let mut sheet = Sheet::of(&long_call(rng, n, p, 8 - p));
        let sign = if p == 8 { rng.pick(&["+", "-"]) } else { "-" };
        sheet.header.extend([sign.to_string(), "#".to_string()]);
        for row in &mut sheet.rows {
            row.extend(["0".to_string(), "0".to_string()]);
        }
        sheet.bytes()
    }),
    ("eight words", |rng| {
        let n = rng.range(1, 30);
        let p = rng.range(1, 8);
        Sheet::of(&long_call(rng, n, p, 8 - p)).bytes()
    }),
    ("too few fields", |rng| {
        let mut sheet = lawful(rng);
        let row = sheet.some_row(rng);
        let fields = rng.range(0, row.len() - 1);
        row.truncate(fields);
        sheet.bytes()
    }),
    ("too many fields", |rng| {
        let mut sheet = lawful(rng);
        let row = sheet.some_row(rng);
        for _ in 0..rng.range(1, 2) {
            row.push(rng.pick(&["0", "1", ""]).to_string());
        }
        sheet.bytes()
    }),
    ("empty field", |rng| {
        let mut sheet = lawful(rng);
        sheet.some_field(rng).clear();
        sheet.bytes()
    }),
    ("semicolon for comma", |rng| {
        let mut bytes = lawful(rng).bytes();
        let commas: Vec<usize> = (0..bytes.len()).filter(|&at| bytes[at] == b',').collect();
        bytes[rng.pick(&commas)] = b';';
        bytes
    }),
    ("occurrence neither 0 nor 1", |rng| {
        let mut sheet = lawful(rng);
        let other = rng.pick(&["2", "9", "00", "01", "10", "11", "", "x", "+1", " 1", "/", "."]);
        *sheet.some_occurrence(rng) = other.to_string();
        sheet.bytes()
    }),
    ("occurrence turned over", |rng| {
        let mut sheet = lawful(rng);
        let field = sheet.some_occurrence(rng);
        *field = if field == "0" { "1" } else { "0" }.to_string();
        sheet.bytes()
    }),
    ("wrong count of the last word", |rng| {
        let mut sheet = lawful(rng);
        let row = sheet.some_row(rng);
        let count: usize = row.last().unwrap().parse().unwrap();
        *row.last_mut().unwrap() = (count + 1).to_string();
        sheet.bytes()
    }),
    ("255 nodes", |rng| long(rng, NODES - 1).bytes()),
    ("256 nodes", |rng| long(rng, NODES).bytes()),
    ("256 nodes, no last line end", |rng| {
        without_last_end(long(rng, NODES).bytes())
    }),
    ("257 nodes", |rng| long(rng, NODES + 1).bytes()),
    ("257 nodes, the last one garbage", |rng| {
        let mut sheet = long(rng, NODES + 1);
        *sheet.rows.last_mut().unwrap() = vec!["garbage".to_string()];
        sheet.bytes()
    }),
    ("256 nodes and an empty line", |rng| {
        [long(rng, NODES).bytes(), b"\r\n".to_vec()].concat()
    }),
    ("257 nodes and a lower broken line", |rng| {
        let mut sheet = long(rng, NODES + 1);
        let at = rng.range(0, NODES - 1);
        sheet.rows[at].pop();
        sheet.bytes()
    }),
    ("more than 257 nodes", |rng| {
        let n = rng.range(NODES + 2, 330);
        Sheet::of(&long_call(rng, n, 1, 1)).bytes()
    }),
    ("16,384 bytes", |rng| of_length(rng, BYTES)),
    ("16,385 bytes", |rng| of_length(rng, BYTES + 1)),
    ("16,384 bytes, no last line end", |rng| {
        without_last_end(of_length(rng, BYTES + 2))
    }),
    ("16,385 bytes, no last line end", |rng| {
        without_last_end(of_length(rng, BYTES + 3))
    }),
    ("16,384 bytes and a broken first line", |rng| {
        let mut bytes = of_length(rng, BYTES);
        bytes[0] = b'P';
        bytes
    }),
    ("16,385 bytes and a broken first line", |rng| {
        let mut bytes = of_length(rng, BYTES + 1);
        bytes[0] = b'P';
        bytes
    }),
    ("far more bytes", |rng| lawful(rng).bytes().repeat(600)),
    ("byte above 127 for another", |rng| {
        let mut bytes = lawful(rng).bytes();
        let at = rng.range(0, bytes.len() - 1);
        bytes[at] |= 128;
        bytes
    }),
    ("letters and digits of other scripts", |rng| {
        let bytes = lawful(rng).bytes();
        let what = rng.pick(&["é", "１", "٣", "\u{a0}", "\u{2028}", "\u{85}"]);
        insert(rng, bytes, what.as_bytes())
    }),
    ("control byte", |rng| {
        let bytes = lawful(rng).bytes();
        let what = rng.pick(&[0u8, 9, 11, 12, 26, 127]);
        insert(rng, bytes, &[what])
    }),
    ("bits flipped", |rng| {
        let mut bytes = lawful(rng).bytes();
        for _ in 0..rng.range(1, 3) {
            let at = rng.range(0, bytes.len() - 1);
            bytes[at] ^= 1 << rng.range(0, 7);
        }
        bytes
    }),
    ("bytes replaced", |rng| {
        let mut bytes = lawful(rng).bytes();
        for _ in 0..rng.range(1, 3) {
            let at = rng.range(0, bytes.len() - 1);
            bytes[at] = rng.pick(b"0123456789,,\r\n+-#\"ap");
        }
        bytes
    }),
    ("byte left out", |rng| {
        let mut bytes = lawful(rng).bytes();
        let at = rng.range(0, bytes.len() - 1);
        bytes.remove(at);
        bytes
    }),
    ("byte put in", |rng| {
        let bytes = lawful(rng).bytes();
        let what = rng.pick(b"0123456789,,\r\n+-#\"ap");
        insert(rng, bytes, &[what])
    }),
    ("cut off", |rng| {
        let mut bytes = lawful(rng).bytes();
        let length = rng.range(0, bytes.len() - 1);
        bytes.truncate(length);
        bytes
    }),
    ("lines exchanged", |rng| {
        let mut sheet = lawful(rng);
        let a = rng.range(0, sheet.rows.len() - 1);
        let b = rng.range(0, sheet.rows.len() - 1);
        sheet.rows.swap(a, b);
        sheet.bytes()
    }),
    ("two broken lines", |rng| {
        let mut sheet = lawful(rng);
        sheet.some_row(rng).pop();
        *sheet.some_field(rng) = "x".to_string();
        sheet.bytes()
    }),
    ("false index and a broken line", |rng| {
        let mut sheet = lawful(rng);
        sheet.rows[0][0] = "7".to_string();
        sheet.rows.last_mut().unwrap()[1] = "x".to_string();
        sheet.bytes()
    }),
];

/// Table input `number` of the seed, with the name of its kind. Of twenty in
/// a row five are lawful, three are lawful with large answers, four have a
/// refused index, and eight are broken, all ways in turn.
pub fn table_input(seed: u64, number: u64) -> (&'static str, Vec<u8>) {
    let rng = &mut Rng::new(seed, number);
    let (round, place) = (number / 20, number % 20);
    match place {
        0..=4 => ("lawful", lawful(rng).bytes()),
        5..=7 => ("large answers", large(rng).bytes()),
        8..=11 => ("refused", refused(rng)),
        _ => {
            let turn = (round * 8 + place - 12) % BROKEN.len() as u64;
            let (name, maker) = BROKEN[turn as usize];
            (name, maker(rng))
        }
    }
}
