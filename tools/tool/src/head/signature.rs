//! Signatures: complete types in a row, with the byte at which a text is none.

use forms::names::NameFault;

const MOST_BYTES: usize = 255;

/// The most arrays, and the most parentheses, that are open at a time. They bound the recursion here too.
const MOST_OPEN: usize = 32;

/// The types of one letter; all but the variant are basic.
const LETTERS: &[u8] = b"ybnqiuxtdsoghv";
const VARIANT: u8 = b'v';

#[derive(Clone, Copy, Default)]
struct Open {
    arrays: usize,
    parentheses: usize,
}

fn breach<T>(at: usize, wanted: &str) -> Result<T, NameFault> {
    Err(NameFault { at, wanted: wanted.to_string() })
}

/// The first byte at which a text is no signature; its length where only more bytes could mend it.
pub fn fault(text: &[u8]) -> Option<NameFault> {
    let found = row(text).err();
    let comes_first = |fault: &NameFault| fault.at < MOST_BYTES;
    if text.len() > MOST_BYTES && !found.as_ref().is_some_and(comes_first) {
        return breach::<()>(MOST_BYTES, "at most 255 bytes").err();
    }
    found
}

fn row(text: &[u8]) -> Result<(), NameFault> {
    let mut at = 0;
    while at < text.len() {
        at = one(text, at, Open::default())?;
    }
    Ok(())
}

/// Where the complete type ends that begins at a place.
fn one(text: &[u8], at: usize, open: Open) -> Result<usize, NameFault> {
    match text.get(at) {
        Some(b'a') if open.arrays == MOST_OPEN => breach(at, "at most 32 arrays open at a time"),
        Some(b'a') => element(text, at + 1, Open { arrays: open.arrays + 1, ..open }),
        Some(b'(') if open.parentheses == MOST_OPEN => breach(at, "at most 32 parentheses open at a time"),
        Some(b'(') => tuple(text, at + 1, Open { parentheses: open.parentheses + 1, ..open }),
        Some(b'{') => breach(at, "{ straight behind an a only"),
        Some(letter) if LETTERS.contains(letter) => Ok(at + 1),
        _ => breach(at, "a type"),
    }
}

/// What stands behind an `a`.
fn element(text: &[u8], at: usize, open: Open) -> Result<usize, NameFault> {
    if text.get(at) != Some(&b'{') {
        return one(text, at, open);
    }
    match text.get(at + 1) {
        Some(letter) if LETTERS.contains(letter) && *letter != VARIANT => {}
        _ => return breach(at + 1, "a basic type"),
    }
    let end = one(text, at + 2, open)?;
    match text.get(end) {
        Some(b'}') => Ok(end + 1),
        _ => breach(end, "}"),
    }
}

/// One or more types and their closing parenthesis.
fn tuple(text: &[u8], at: usize, open: Open) -> Result<usize, NameFault> {
    let mut at = one(text, at, open)?;
    while text.get(at) != Some(&b')') {
        let here = at;
        at = one(text, at, open).or_else(|fault| match fault.wanted.as_str() {
            "a type" if fault.at == here => breach(here, "a type or )"),
            _ => Err(fault),
        })?;
    }
    Ok(at + 1)
}

/// The first complete type of a good row, and the types behind it.
pub fn first(types: &[u8]) -> (&[u8], &[u8]) {
    let mut depth = 0_usize;
    for (at, letter) in types.iter().enumerate() {
        match letter {
            b'a' => continue,
            b'(' | b'{' => depth += 1,
            b')' | b'}' => depth = depth.saturating_sub(1),
            _ => {}
        }
        if depth == 0 {
            return types.split_at(at + 1);
        }
    }
    (types, &[])
}
