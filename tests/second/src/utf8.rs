//! The text of strings: UTF-8 in its shortest form, without surrogates, up to U+10FFFF.

const LAST_SURROGATE: u32 = 0xdfff;
const FIRST_SURROGATE: u32 = 0xd800;
const LAST_CHARACTER: u32 = 0x10_ffff;

/// What can be wrong with one sequence of bytes.
#[derive(Clone, Copy, Debug, PartialEq, Eq, PartialOrd, Ord)]
pub enum Utf8Fault {
    /// A shorter sequence says the same.
    Overlong,
    Surrogate,
    AboveUnicode,
    /// The first byte promises more bytes than follow.
    CutSequence,
    /// A byte that begins nothing.
    StrayByte,
}

/// How many bytes follow the first one of a sequence, the bits that the first one gives, and
/// the least number that needs so long a sequence. None for a byte that begins nothing.
fn opening(first: u8) -> Option<(usize, u8, u32)> {
    match first {
        0x00..=0x7f => Some((0, first, 0)),
        0xc0..=0xdf => Some((1, first & 0x1f, 0x80)),
        0xe0..=0xef => Some((2, first & 0x0f, 0x800)),
        0xf0..=0xf7 => Some((3, first & 0x07, 0x1_0000)),
        _ => None,
    }
}

/// Reads the sequence at the start of a text that is not empty: what is wrong with it, and how
/// many bytes belong to it.
fn first_sequence(text: &[u8]) -> (Option<Utf8Fault>, usize) {
    let Some((wanted, bits, least)) = opening(text[0]) else {
        return (Some(Utf8Fault::StrayByte), 1);
    };
    let following = text[1..].iter().take(wanted).take_while(|&&byte| byte & 0xc0 == 0x80);
    let (mut number, mut length) = (u32::from(bits), 1);
    for &byte in following {
        number = number << 6 | u32::from(byte & 0x3f);
        length += 1;
    }
    let fault = match number {
        _ if length <= wanted => Some(Utf8Fault::CutSequence),
        _ if number < least => Some(Utf8Fault::Overlong),
        FIRST_SURROGATE..=LAST_SURROGATE => Some(Utf8Fault::Surrogate),
        _ if number > LAST_CHARACTER => Some(Utf8Fault::AboveUnicode),
        _ => None,
    };
    (fault, length)
}

/// Everything that is wrong with a text, from its start to its end.
pub fn faults(text: &[u8]) -> Vec<Utf8Fault> {
    let mut found = Vec::new();
    let mut rest = text;
    while !rest.is_empty() {
        let (fault, length) = first_sequence(rest);
        found.extend(fault);
        rest = &rest[length..];
    }
    found
}
