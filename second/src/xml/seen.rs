//! What any parser of XML must see in a text: elements and data with their
//! places, or that it is no XML.

use super::chars::{is_name_char, is_name_start, is_white, REFERENCES, REFERRED};
use super::judge::BYTES;
use super::node::{Node, Outcome};
use super::read::read;

pub enum Seen {
    Whole(Vec<Node>),
    Broken,
}

/// Whether the byte begins something of XML that the profile leaves out:
/// another encoding, a processing instruction or the XML declaration, DOCTYPE
/// or CDATA, a character reference, an attribute. What stands before it begins
/// a text of the profile.
fn begins_more(text: &[u8], at: usize) -> bool {
    let before = &text[..at];
    match text.get(at) {
        None => false,
        Some(0 | 0x80..=0xFF) => true,
        Some(b'?') => before.ends_with(b"<"),
        Some(b'D' | b'[') => before.ends_with(b"<!"),
        Some(b'#') => before.ends_with(b"&"),
        Some(&byte) if is_name_start(byte) => {
            // '<' Name S: no end tag, since its name follows a slash.
            let white = before.iter().rev().take_while(|&&byte| is_white(byte)).count();
            let tag = &before[..at - white];
            let name = tag.iter().rev().take_while(|&&byte| is_name_char(byte)).count();
            white > 0 && name > 0 && tag[..tag.len() - name].ends_with(b"<")
        }
        Some(_) => false,
    }
}

/// What is seen, or nothing where XML and the profile may differ, or where the
/// text breaks a limit, which XML does not have.
pub fn seen(text: &[u8]) -> Option<Seen> {
    if text.len() > BYTES {
        return None;
    }
    match read(text) {
        Outcome::Whole(nodes) => Some(Seen::Whole(nodes)),
        Outcome::Markup(place) if !begins_more(text, place) => Some(Seen::Broken),
        _ => None,
    }
}

/// The characters of a node of data: its comments dropped, its references
/// replaced, and each CR LF or CR one LF, as XML's section 2.11 says.
pub fn characters(text: &[u8], node: &Node) -> Vec<u8> {
    let mut characters = vec![];
    let mut rest = &text[node.first..=node.last];
    while let Some(&byte) = rest.first() {
        let length = if rest.starts_with(b"<!--") {
            let end = rest[4..].windows(3).position(|three| three == b"-->");
            end.expect("a comment ends") + 7
        } else if let Some(i) = REFERENCES
            .iter()
            .position(|reference| rest.starts_with(reference))
        {
            characters.push(REFERRED[i]);
            REFERENCES[i].len()
        } else {
            characters.push(if byte == b'\r' { b'\n' } else { byte });
            1 + usize::from(rest.starts_with(b"\r\n"))
        };
        rest = &rest[length..];
    }
    characters
}
