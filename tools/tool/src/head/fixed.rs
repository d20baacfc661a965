//! The fixed part of a head: bytes 0 to 15, and answers 1 to 6.

use super::boxes::{shown_byte, Boxes};
use super::{type_word, HeadFault};
use forms::message::ByteOrder;

pub const LENGTH: usize = 16;

/// Where the length of the field array stands.
pub const ARRAY_LENGTH_AT: usize = 12;

/// The most bytes of the field array, and of a message.
const ARRAY_LIMIT: u32 = 2_032;
const MESSAGE_LIMIT: u64 = 134_217_728;

const PLACES: [(usize, usize, &str); 7] = [
    (0, 1, "order"),
    (1, 2, "type"),
    (2, 3, "flags"),
    (3, 4, "version"),
    (4, 8, "body length"),
    (8, 12, "serial"),
    (ARRAY_LENGTH_AT, LENGTH, "array length"),
];

#[derive(Clone, Copy, Debug)]
pub struct Fixed {
    pub order: ByteOrder,
    pub message_type: u8,
    pub flags: u8,
    pub body_length: u32,
    pub serial: u32,
    pub array_length: u32,
}

impl Fixed {
    /// Fixed part, field array and padding. Sums of 32-bit numbers do not wrap in 64 bits.
    pub fn head_length(&self) -> u64 {
        (LENGTH as u64 + u64::from(self.array_length)).next_multiple_of(8)
    }
}

/// The boxes of what is there of the fixed part.
pub fn put_boxes(bytes: &[u8], boxes: &mut Boxes) {
    for (from, to, name) in PLACES {
        let there = bytes.get(from..to.min(bytes.len())).unwrap_or_default();
        let whole = there.len() == to - from;
        boxes.put(from, from + there.len(), name, || if whole { words(bytes, from) } else { String::new() });
    }
}

/// What a part says. A number says nothing where its order is not known.
fn words(bytes: &[u8], from: usize) -> String {
    let order = ByteOrder::of_mark(bytes[0]);
    match from {
        0 => match order {
            Some(ByteOrder::Little) => "little".to_string(),
            Some(ByteOrder::Big) => "big".to_string(),
            None => shown_byte(bytes[0]),
        },
        1 => type_word(bytes[1]),
        2 => flag_words(bytes[2]),
        3 => bytes[3].to_string(),
        at => order.map_or(String::new(), |order| order.number(bytes, at).to_string()),
    }
}

fn flag_words(flags: u8) -> String {
    let named = [(1, "no reply expected"), (2, "no auto-start"), (4, "interactive"), (0xf8, "others")];
    let set: Vec<&str> = named.iter().filter(|(bits, _)| flags & bits != 0).map(|(_, word)| *word).collect();
    match set.is_empty() {
        true => "none".to_string(),
        false => set.join(", "),
    }
}

/// Tests the fixed part in the order of the rules. At least 16 bytes are there.
pub fn judge(bytes: &[u8]) -> Result<Fixed, HeadFault> {
    let broken =
        |answer, kind, at, what: String, wanted: &str| Err(HeadFault::new(answer, kind, at, what, wanted));
    let Some(order) = ByteOrder::of_mark(bytes[0]) else {
        let what = "byte 0 is neither l nor B, so the order of the bytes is unknown".to_string();
        return broken(1, "order", 0, what, "6c (little) or 42 (big)");
    };
    let number = |at| order.number(bytes, at);
    let (body_length, serial, array_length) = (number(4), number(8), number(ARRAY_LENGTH_AT));
    let fixed = Fixed { order, message_type: bytes[1], flags: bytes[2], body_length, serial, array_length };
    if bytes[3] != 1 {
        let what = format!("the version of the protocol is {}, not 1", bytes[3]);
        return broken(2, "version", 3, what, "01");
    }
    if fixed.message_type == 0 {
        let wanted = "01 to 04 (call, return, error, signal)";
        return broken(3, "type-zero", 1, "the type is 0, which no message has".to_string(), wanted);
    }
    if serial == 0 {
        return broken(4, "serial-zero", 8, "the serial is 0".to_string(), "any number but 0");
    }
    if array_length > ARRAY_LIMIT {
        let told = format!("the array of header fields has {array_length} bytes, and 2,032 are the most");
        let what = told + &other_order(array_length, ARRAY_LIMIT);
        return broken(5, "array-too-long", ARRAY_LENGTH_AT, what, "a number up to 2,032");
    }
    judge_length(fixed)
}

fn judge_length(fixed: Fixed) -> Result<Fixed, HeadFault> {
    let length = fixed.head_length() + u64::from(fixed.body_length);
    if length <= MESSAGE_LIMIT {
        return Ok(fixed);
    }
    let most = MESSAGE_LIMIT - fixed.head_length();
    let told = format!("the message has {length} bytes, and 134,217,728 are the most");
    let what = told + &other_order(fixed.body_length, most as u32);
    Err(HeadFault::new(6, "message-too-long", 4, what, format!("a number up to {most}")))
}

/// A length that is too large and would not be if its bytes had the other order.
fn other_order(number: u32, most: u32) -> String {
    match number.swap_bytes() {
        swapped if swapped <= most => format!("; in the other byte order the number is {swapped}"),
        _ => String::new(),
    }
}
