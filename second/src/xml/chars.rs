//! The productions of single bytes, cut down to ASCII.

/// [2] Char ::= #x9 | #xA | #xD | [#x20-#x7F]
pub fn is_char(byte: u8) -> bool {
    matches!(byte, 0x9 | 0xA | 0xD | 0x20..=0x7F)
}

/// A byte of [3] S ::= (#x20 | #x9 | #xD | #xA)+
pub fn is_white(byte: u8) -> bool {
    matches!(byte, 0x20 | 0x9 | 0xD | 0xA)
}

/// [4] NameStartChar ::= ":" | [A-Z] | "_" | [a-z]
pub fn is_name_start(byte: u8) -> bool {
    matches!(byte, b':' | b'A'..=b'Z' | b'_' | b'a'..=b'z')
}

/// [4a] NameChar ::= NameStartChar | "-" | "." | [0-9]
pub fn is_name_char(byte: u8) -> bool {
    is_name_start(byte) || matches!(byte, b'-' | b'.' | b'0'..=b'9')
}

/// A byte of [14] CharData: a Char of [^<&].
pub fn is_data(byte: u8) -> bool {
    is_char(byte) && byte != b'<' && byte != b'&'
}

/// A byte of a comment's text: Char - '-'.
pub fn is_char_not_dash(byte: u8) -> bool {
    is_char(byte) && byte != b'-'
}

/// [68] EntityRef, of the five names that XML itself declares.
pub const REFERENCES: [&[u8]; 5] = [b"&amp;", b"&lt;", b"&gt;", b"&apos;", b"&quot;"];

/// The characters that these stand for, in the same order.
pub const REFERRED: [u8; 5] = [b'&', b'<', b'>', b'\'', b'"'];
