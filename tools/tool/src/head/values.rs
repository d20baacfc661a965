//! Unknown fields: a variant whose value is walked by its signature. Any fault in it is answer 7.

use super::boxes::shown;
use super::fields::{broken, Walk};
use super::{signature, utf8, HeadFault};
use forms::message::ByteOrder;
use forms::names::{self, Form};

/// The most arrays, structs, dict entries and variants that are open at once. They bound the recursion here too.
const MOST_OPEN: usize = 64;

/// The end of the innermost array that a value is part of, and how many are open around it.
#[derive(Clone, Copy)]
struct Room {
    end: usize,
    open: usize,
}

type End = Result<usize, HeadFault>;

/// Where the unknown field ends whose variant begins at a place. The variant is the first that is open.
pub fn unknown(walk: &mut Walk, code: u8, at: usize) -> End {
    let room = Room { end: walk.end, open: 1 };
    variant(walk, at, room).map_err(|fault| {
        let what = format!("in the unknown field {code} {}", fault.what);
        HeadFault { what, ..fault }
    })
}

pub fn type_name(letter: u8) -> &'static str {
    match letter {
        b'y' => "byte",
        b'b' => "boolean",
        b'n' => "int16",
        b'q' => "uint16",
        b'i' => "int32",
        b'u' => "uint32",
        b'x' => "int64",
        b't' => "uint64",
        b'd' => "double",
        b'h' => "descriptor",
        b's' => "string",
        b'o' => "object path",
        b'g' => "signature",
        _ => "container",
    }
}

/// Numbers have as many bytes as their alignment says.
fn alignment(letter: u8) -> usize {
    match letter {
        b'y' | b'g' | b'v' => 1,
        b'n' | b'q' => 2,
        b'x' | b't' | b'd' | b'(' | b'{' => 8,
        _ => 4,
    }
}

fn variant(walk: &mut Walk, at: usize, room: Room) -> End {
    let (from, to) = short_text(walk, at, room, "signature length")?;
    let head = walk.head;
    let text = &head[from..to];
    if let Some(fault) = signature::fault(text) {
        let what = format!("the text {} is no signature", shown(text));
        return Err(broken("unknown-not-a-signature", from + fault.at, what, fault.wanted));
    }
    zero(walk, to, "unknown-no-zero-after-signature", "signature")?;
    if text.is_empty() {
        return Err(broken("unknown-no-type", at, "the variant's signature is empty", "one complete type"));
    }
    let (one, more) = signature::first(text);
    if !more.is_empty() {
        let what = format!("the variant's signature {} has more than one type", shown(text));
        return Err(broken("unknown-several-types", from + one.len(), what, "the end of the signature"));
    }
    value(walk, one, to + 1, room)
}

/// Where the value of one complete type ends.
fn value(walk: &mut Walk, one: &[u8], at: usize, room: Room) -> End {
    let Some((&letter, inner)) = one.split_first() else { return Ok(at) };
    let at = padding(walk, at, alignment(letter), room)?;
    match letter {
        b's' | b'o' => long_text(walk, letter, at, room),
        b'g' => signature_value(walk, at, room),
        b'a' => array(walk, inner, at, room),
        b'(' | b'{' => {
            let types = inner.split_last().map_or(inner, |(_, types)| types);
            row(walk, types, at, opened(room, at)?)
        }
        b'v' => variant(walk, at, opened(room, at)?),
        b'b' => boolean(walk, at, room),
        letter => number(walk, letter, at, room),
    }
}

fn row(walk: &mut Walk, mut types: &[u8], mut at: usize, room: Room) -> End {
    while !types.is_empty() {
        let (one, more) = signature::first(types);
        at = value(walk, one, at, room)?;
        types = more;
    }
    Ok(at)
}

fn opened(room: Room, at: usize) -> Result<Room, HeadFault> {
    match room.open < MOST_OPEN {
        true => Ok(Room { open: room.open + 1, ..room }),
        false => {
            let what = "more than 64 arrays, structs, dict entries and variants are open at once";
            Err(broken("unknown-too-many-open", at, what, "at most 64 open at once"))
        }
    }
}

/// An array without elements is open too, and is padded to where the first would begin.
fn array(walk: &mut Walk, element: &[u8], at: usize, room: Room) -> End {
    need(walk, at, 4, room)?;
    let length = walk.order.number(walk.head, at) as usize;
    walk.boxes.put(at, at + 4, "array length", || length.to_string());
    let inner = opened(room, at)?;
    let letter = element.first().copied().unwrap_or_default();
    let from = padding(walk, at + 4, alignment(letter), room)?;
    if length > room.end - from {
        return Err(short(walk, at, room));
    }
    let inner = Room { end: from + length, ..inner };
    if letter == b'y' {
        walk.boxes.put(from, inner.end, "bytes", || shown(&walk.head[from..inner.end]));
        return Ok(inner.end);
    }
    let mut at = from;
    while at < inner.end {
        at = value(walk, element, at, inner)?;
    }
    Ok(at)
}

fn padding(walk: &mut Walk, at: usize, alignment: usize, room: Room) -> End {
    let next = at.next_multiple_of(alignment);
    if next > room.end {
        let what = format!("the padding from byte {at} on does not fit before byte {}", room.end);
        let wanted = format!("zeros up to byte {next}, inside the array");
        return Err(broken("unknown-cut-padding", walk.in_head(at), what, wanted));
    }
    walk.zeros(at, next, "unknown-padding", "before a value")?;
    Ok(next)
}

fn number(walk: &mut Walk, letter: u8, at: usize, room: Room) -> End {
    let to = at + alignment(letter);
    need(walk, at, to - at, room)?;
    let (bytes, order) = (&walk.head[at..to], walk.order);
    walk.boxes.put(at, to, type_name(letter), || number_words(letter, bytes, order));
    Ok(to)
}

fn number_words(letter: u8, bytes: &[u8], order: ByteOrder) -> String {
    let mut wide = [0; 8];
    for (at, &byte) in bytes.iter().take(8).enumerate() {
        let place = if order == ByteOrder::Little { at } else { bytes.len() - 1 - at };
        wide[place] = byte;
    }
    let number = u64::from_le_bytes(wide);
    match letter {
        b'n' => (number as i16).to_string(),
        b'i' => (number as i32).to_string(),
        b'x' => (number as i64).to_string(),
        b'd' => format!("{:e}", f64::from_bits(number)),
        _ => number.to_string(),
    }
}

fn boolean(walk: &mut Walk, at: usize, room: Room) -> End {
    let to = number(walk, b'b', at, room)?;
    let lowest = if walk.order == ByteOrder::Little { at } else { to - 1 };
    match (at..to).find(|&place| walk.head[place] > u8::from(place == lowest)) {
        None => Ok(to),
        Some(place) => {
            let what = format!("the boolean at byte {at} is neither 0 nor 1");
            let wanted = if place == lowest { "00 or 01" } else { "00" };
            Err(broken("unknown-boolean", place, what, wanted))
        }
    }
}

fn long_text(walk: &mut Walk, letter: u8, at: usize, room: Room) -> End {
    need(walk, at, 4, room)?;
    let length = walk.order.number(walk.head, at) as usize;
    walk.boxes.put(at, at + 4, "length", || length.to_string());
    let from = at + 4;
    if length >= room.end - from {
        return Err(short(walk, at, room));
    }
    let (head, to) = (walk.head, from + length);
    let text = &head[from..to];
    put_text(walk, from, to, type_name(letter));
    match letter {
        b'o' => path_rule(text, from)?,
        _ => utf8_rule(text, from)?,
    }
    zero(walk, to, "unknown-no-zero-after-text", "text")?;
    Ok(to + 1)
}

fn path_rule(text: &[u8], from: usize) -> Result<(), HeadFault> {
    match names::fault(Form::Path, text) {
        None => Ok(()),
        Some(fault) => {
            let what = format!("the text {} is no object path", shown(text));
            Err(broken("unknown-path", from + fault.at, what, fault.wanted))
        }
    }
}

fn utf8_rule(text: &[u8], from: usize) -> Result<(), HeadFault> {
    match utf8::fault(text) {
        None => Ok(()),
        Some(fault) => {
            let what = format!("a string is no UTF-8: {}", fault.what);
            Err(broken(fault.kind, from + fault.at, what, fault.wanted))
        }
    }
}

fn signature_value(walk: &mut Walk, at: usize, room: Room) -> End {
    let (from, to) = short_text(walk, at, room, "length")?;
    let text = &walk.head[from..to];
    if let Some(fault) = signature::fault(text) {
        let what = format!("the text {} is no signature", shown(text));
        return Err(broken("unknown-signature-value", from + fault.at, what, fault.wanted));
    }
    zero(walk, to, "unknown-no-zero-after-text", "text")?;
    Ok(to + 1)
}

/// A text whose length is one byte, as signatures have it, with room for its zero.
fn short_text(
    walk: &mut Walk,
    at: usize,
    room: Room,
    length_name: &str,
) -> Result<(usize, usize), HeadFault> {
    need(walk, at, 1, room)?;
    let length = usize::from(walk.head[at]);
    walk.boxes.put(at, at + 1, length_name, || length.to_string());
    let from = at + 1;
    if length >= room.end - from {
        return Err(short(walk, at, room));
    }
    put_text(walk, from, from + length, "signature");
    Ok((from, from + length))
}

fn put_text(walk: &mut Walk, from: usize, to: usize, name: &str) {
    let text = &walk.head[from..to];
    walk.boxes.put(from, to, name, || shown(text));
    walk.boxes.put(to, to + 1, "zero", String::new);
}

fn zero(walk: &Walk, at: usize, kind: &'static str, name: &str) -> Result<(), HeadFault> {
    match walk.head[at] {
        0 => Ok(()),
        _ => Err(broken(kind, at, format!("behind a {name}, as its length says, is no zero"), "00")),
    }
}

/// So many bytes of a value, inside the innermost array.
fn need(walk: &Walk, at: usize, count: usize, room: Room) -> Result<(), HeadFault> {
    match count <= room.end - at {
        true => Ok(()),
        false => Err(short(walk, walk.in_head(at), room)),
    }
}

/// What begins or is counted at a place does not end inside the innermost array.
fn short(walk: &Walk, at: usize, room: Room) -> HeadFault {
    let wanted = format!("what ends by byte {}", room.end);
    if room.end < walk.end {
        let what = format!("an array ends at byte {}, inside one of its elements", room.end);
        return broken("unknown-array-end", at, what, wanted);
    }
    broken("unknown-past-the-array", at, "the value runs past the end of the field array", wanted)
}
