//! The table program: bytes in, bytes out.
//!
//! 01: "RFC 4180 without quoted fields, lines ended by CR LF, the last end
//! optional. Line 1: `parent,tag` then for each word `+,#` or `-,#`, positive
//! words first, at least one positive, 1 to 8 words. Each further line is one
//! node: parent, tag, then for each word 1 or 0 (occurs here or not) and the
//! count. Fields are decimal numbers of 1 to 5 digits with no leading zero but
//! 0 itself. Up to 256 nodes, 16,384 bytes. ELCA and SLCA run on the positive
//! words, valid SLCA on all." "INPUT gives the first line, from 1, that breaks
//! these rules (the 257th node breaks them at its line), or place 0 where the
//! input exceeds 16,384 bytes; length is tested first."

use crate::call::{After, Call, Search, ACCEPTED, INPUT};
use crate::judge::judge;

pub const BYTES: usize = 16_384;
pub const NODES: usize = 256;

/// One node line.
struct Row {
    parent: u32,
    tag: u32,
    /// For each word whether it occurs here, and the count.
    words: Vec<(bool, u32)>,
}

struct Table {
    p: usize,
    q: usize,
    rows: Vec<Row>,
}

/// The lines. Only CR LF ends a line; a lone CR or LF is a byte of its line.
/// The last end is optional. There is always a first line, though it be empty.
fn lines(input: &[u8]) -> Vec<&[u8]> {
    let mut lines = Vec::new();
    let mut rest = input;
    while let Some(at) = rest.windows(2).position(|pair| pair == b"\r\n") {
        lines.push(&rest[..at]);
        rest = &rest[at + 2..];
    }
    if !rest.is_empty() || lines.is_empty() {
        lines.push(rest);
    }
    lines
}

fn fields(line: &[u8]) -> Vec<&[u8]> {
    line.split(|&byte| byte == b',').collect()
}

/// The numbers of positive and negative words in a lawful header line.
fn header(line: &[u8]) -> Option<(usize, usize)> {
    let fields = fields(line);
    if fields.len() < 2 || fields[0] != b"parent" || fields[1] != b"tag" {
        return None;
    }
    let (mut p, mut q) = (0, 0);
    for word in fields[2..].chunks(2) {
        match word {
            [b"+", b"#"] if q == 0 => p += 1,
            [b"-", b"#"] => q += 1,
            _ => return None,
        }
    }
    (p >= 1 && p + q <= 8).then_some((p, q))
}

/// "Decimal numbers of 1 to 5 digits with no leading zero but 0 itself."
fn number(field: &[u8]) -> Option<u32> {
    let digits = (1..=5).contains(&field.len()) && field.iter().all(u8::is_ascii_digit);
    let leading_zero = field.len() > 1 && field[0] == b'0';
    if !digits || leading_zero {
        return None;
    }
    Some(
        field
            .iter()
            .fold(0, |sum, &digit| sum * 10 + u32::from(digit - b'0')),
    )
}

fn row(line: &[u8], k: usize) -> Option<Row> {
    let fields = fields(line);
    if fields.len() != 2 + 2 * k {
        return None;
    }
    let mut words = Vec::new();
    for word in fields[2..].chunks(2) {
        let occurs = match word[0] {
            b"0" => false,
            b"1" => true,
            _ => return None,
        };
        words.push((occurs, number(word[1])?));
    }
    Some(Row {
        parent: number(fields[0])?,
        tag: number(fields[1])?,
        words,
    })
}

/// The table, or the place of INPUT.
fn read(input: &[u8]) -> Result<Table, usize> {
    if input.len() > BYTES {
        return Err(0);
    }
    let lines = lines(input);
    let (p, q) = header(lines[0]).ok_or(1usize)?;
    let mut rows = Vec::new();
    for (i, line) in lines.iter().enumerate().skip(1) {
        let number_of_line = i + 1;
        if rows.len() == NODES {
            return Err(number_of_line);
        }
        rows.push(row(line, p + q).ok_or(number_of_line)?);
    }
    Ok(Table { p, q, rows })
}

/// The call that a search makes of the table. Room is always enough.
fn call(table: &Table, search: Search) -> Call {
    let q = match search {
        Search::Valid => table.q,
        _ => 0,
    };
    let (n, k) = (table.rows.len(), table.p + q);
    let mut ends = Vec::new();
    let mut occurrences = Vec::new();
    let mut counts = Vec::new();
    for j in 0..k {
        for (v, row) in table.rows.iter().enumerate() {
            let (occurs, count) = row.words[j];
            if occurs {
                occurrences.push(v as u32);
            }
            counts.push(count);
        }
        ends.push(occurrences.len() as u32);
    }
    Call {
        search,
        p: table.p as u32,
        q: q as u32,
        parents: table.rows.iter().map(|row| row.parent).collect(),
        tags: table.rows.iter().map(|row| row.tag).collect(),
        ends,
        occurrences,
        counts,
        work: vec![0; (k + 2) * n],
        out: vec![0; n],
        own: vec![0; table.p * n],
    }
}

/// One line of output. An empty node field stands for a refusal or an empty
/// answer.
fn put(output: &mut Vec<u8>, name: &str, refusal: u32, place: usize, node: &str) {
    output.extend_from_slice(format!("{name},{refusal},{place},{node}\r\n").as_bytes());
}

/// The calls of ELCA, SLCA and valid SLCA that the input leads to, or the place
/// of INPUT.
pub fn calls(input: &[u8]) -> Result<[Call; 3], usize> {
    let table = read(input)?;
    Ok([Search::Elca, Search::Slca, Search::Valid].map(|search| call(&table, search)))
}

/// What the program prints for the input.
pub fn run(input: &[u8]) -> Vec<u8> {
    let mut output = b"search,refusal,place,node\r\n".to_vec();
    match calls(input) {
        Err(place) => put(&mut output, "input", INPUT, place, ""),
        Ok(calls) => {
            for call in calls {
                let After { reply, out, .. } = judge(&call);
                let place = reply.place as usize;
                let listed = match reply.refusal {
                    ACCEPTED => &out[..reply.total as usize],
                    _ => &[],
                };
                for node in listed {
                    put(
                        &mut output,
                        call.search.name(),
                        reply.refusal,
                        place,
                        &node.to_string(),
                    );
                }
                if listed.is_empty() {
                    put(&mut output, call.search.name(), reply.refusal, place, "");
                }
            }
        }
    }
    output
}
