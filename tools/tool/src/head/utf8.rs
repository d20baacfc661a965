//! UTF-8 by Unicode's table of well-formed byte sequences, with the byte at which a text is none.

/// Where a text breaks, in which way, and what was wanted there.
#[derive(Clone, Debug, PartialEq, Eq)]
pub struct Utf8Fault {
    pub at: usize,
    pub kind: &'static str,
    pub what: &'static str,
    pub wanted: &'static str,
}

pub const ZERO: &str = "unknown-zero-in-text";
pub const OVERLONG: &str = "unknown-overlong";
pub const SURROGATE: &str = "unknown-surrogate";
pub const TOO_HIGH: &str = "unknown-above-10ffff";
pub const BAD_LEAD: &str = "unknown-bad-lead";
pub const CUT: &str = "unknown-cut";

/// A row of the table: how many bytes follow the lead, and the range of the first of them.
struct Lead {
    more: usize,
    low: u8,
    high: u8,
}

fn lead_of(byte: u8) -> Option<Lead> {
    let (more, low, high) = match byte {
        0x01..=0x7f => (0, 0x80, 0xbf),
        0xc2..=0xdf => (1, 0x80, 0xbf),
        0xe0 => (2, 0xa0, 0xbf),
        0xed => (2, 0x80, 0x9f),
        0xe1..=0xef => (2, 0x80, 0xbf),
        0xf0 => (3, 0x90, 0xbf),
        0xf1..=0xf3 => (3, 0x80, 0xbf),
        0xf4 => (3, 0x80, 0x8f),
        _ => return None,
    };
    Some(Lead { more, low, high })
}

/// The first byte at which a text is no UTF-8; its length where the last character is cut.
pub fn fault(text: &[u8]) -> Option<Utf8Fault> {
    let mut at = 0;
    while let Some(&byte) = text.get(at) {
        let Some(lead) = lead_of(byte) else { return Some(bad_lead(byte, at)) };
        for behind in 1..=lead.more {
            let (low, high) = if behind == 1 { (lead.low, lead.high) } else { (0x80, 0xbf) };
            match text.get(at + behind) {
                Some(next) if (low..=high).contains(next) => {}
                next => return Some(bad_next(byte, next.copied(), at + behind)),
            }
        }
        at += lead.more + 1;
    }
    None
}

fn bad_lead(byte: u8, at: usize) -> Utf8Fault {
    let wanted = "the first byte of a character";
    let (kind, what, wanted) = match byte {
        0 => (ZERO, "a zero byte is none of its bytes", "any character but zero"),
        0xc0 | 0xc1 => {
            (OVERLONG, "a character is not in its shortest form", "a character in its shortest form")
        }
        0xf5..=0xf7 => (TOO_HIGH, "a character is above U+10FFFF", "a character up to U+10FFFF"),
        0x80..=0xbf => (BAD_LEAD, "a byte that only follows others begins a character", wanted),
        _ => (BAD_LEAD, "a byte that no character has", wanted),
    };
    Utf8Fault { at, kind, what, wanted }
}

/// A byte behind the lead is missing, follows no lead, or is out of the range that the lead leaves it.
fn bad_next(lead: u8, next: Option<u8>, at: usize) -> Utf8Fault {
    let is_follower = next.is_some_and(|byte| (0x80..=0xbf).contains(&byte));
    let (kind, what, wanted) = match lead {
        0xe0 if is_follower => (OVERLONG, "a character is not in its shortest form", "a0 to bf behind e0"),
        0xf0 if is_follower => (OVERLONG, "a character is not in its shortest form", "90 to bf behind f0"),
        0xed if is_follower => (SURROGATE, "a character is a surrogate", "80 to 9f behind ed"),
        0xf4 if is_follower => (TOO_HIGH, "a character is above U+10FFFF", "80 to 8f behind f4"),
        _ => (CUT, "a character is cut", "80 to bf, which go on with the character"),
    };
    Utf8Fault { at, kind, what, wanted }
}
