//! Signatures: complete types in a row.

pub const MAX_SIGNATURE_LENGTH: usize = 255;
pub const MAX_OPEN: usize = 32;

const BASIC: &[u8] = b"ybnqiuxtdsogh";

/// How many arrays and parentheses are open around a type.
#[derive(Clone, Copy, Default)]
struct Open {
    arrays: usize,
    parentheses: usize,
}

pub fn is_signature(text: &[u8]) -> bool {
    types_of(text).is_some()
}

/// The complete types that stand in a row; none where the text is no signature.
pub fn types_of(text: &[u8]) -> Option<Vec<&[u8]>> {
    if text.len() > MAX_SIGNATURE_LENGTH {
        return None;
    }
    let mut types = Vec::new();
    let mut rest = text;
    while !rest.is_empty() {
        let left = after_type(rest, Open::default())?;
        types.push(&rest[..rest.len() - left.len()]);
        rest = left;
    }
    Some(types)
}

/// What is left of `text` behind the one complete type at its start.
fn after_type(text: &[u8], open: Open) -> Option<&[u8]> {
    let (&first, rest) = text.split_first()?;
    match first {
        b'a' => after_array(rest, open),
        b'(' => after_struct(rest, open),
        b'v' => Some(rest),
        letter if BASIC.contains(&letter) => Some(rest),
        _ => None,
    }
}

/// `text` begins behind the `a`. The array stays open to the end of its element.
fn after_array(text: &[u8], open: Open) -> Option<&[u8]> {
    let inside = Open { arrays: open.arrays + 1, ..open };
    if inside.arrays > MAX_OPEN {
        return None;
    }
    match text.strip_prefix(b"{") {
        Some(rest) => after_dict_entry(rest, inside),
        None => after_type(text, inside),
    }
}

/// `text` begins behind the opening brace. Braces count as neither limit.
fn after_dict_entry(text: &[u8], open: Open) -> Option<&[u8]> {
    let (key, rest) = text.split_first()?;
    if !BASIC.contains(key) {
        return None;
    }
    after_type(rest, open)?.strip_prefix(b"}")
}

/// `text` begins behind the opening parenthesis.
fn after_struct(text: &[u8], open: Open) -> Option<&[u8]> {
    let inside = Open { parentheses: open.parentheses + 1, ..open };
    if inside.parentheses > MAX_OPEN {
        return None;
    }
    let mut rest = after_type(text, inside)?;
    loop {
        if let Some(left) = rest.strip_prefix(b")") {
            return Some(left);
        }
        rest = after_type(rest, inside)?;
    }
}
