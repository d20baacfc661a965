//! Breaking good messages, in every way that answers 1 to 9 know.

use super::random::Random;
use super::{unknown, value_faults, vocabulary};
use crate::header::{letter_of, required_fields, FIRST_UNKNOWN, REPLY_SERIAL, SIGNATURE, UNIX_FDS};
use crate::message::{Marshalled, Message};
use crate::wire::{ByteOrder, MAX_MESSAGE_LENGTH};

/// The bytes of `message` with one fault or several.
pub fn broken(random: &mut Random, message: &Message) -> Vec<u8> {
    match random.below(27) {
        0..=4 => {
            let mut bytes = message.bytes();
            let faults = if random.chance(60) { 1 } else { random.between(2, 4) };
            for _ in 0..faults {
                break_fixed_part(random, message.order, &mut bytes);
            }
            bytes
        }
        5..=12 => break_array(random, message).bytes,
        13..=19 => with_bad_value(random, message.clone()).bytes(),
        20 => with_zero_inside(random, message),
        21 => with_length_into_padding(random, message),
        22..=23 => without_required_field(random, message.clone()).bytes(),
        24 => {
            let incomplete = without_required_field(random, message.clone());
            let spoiled = with_bad_value(random, incomplete);
            break_array(random, &spoiled).bytes
        }
        25 => {
            let incomplete = without_required_field(random, message.clone());
            with_bad_value(random, incomplete).bytes()
        }
        _ => with_random_bytes(random, message),
    }
}

/// The message with a fault in an unknown field. Sometimes a value is bad as well, or a required
/// field is missing: the first fault wins.
pub fn with_unknown_field(random: &mut Random, message: &Message) -> Message {
    let message = match random.below(10) {
        0 => with_bad_value(random, message.clone()),
        1 => without_required_field(random, message.clone()),
        _ => message.clone(),
    };
    value_faults::with_fault(random, &message)
}

/// The bytes of `message` with a single fault in the first 16, if any.
pub fn in_fixed_part(random: &mut Random, message: &Message) -> Vec<u8> {
    let mut bytes = message.bytes();
    break_fixed_part(random, message.order, &mut bytes);
    bytes
}

fn put_u32(order: ByteOrder, bytes: &mut [u8], at: usize, value: u32) {
    bytes[at..at + 4].copy_from_slice(&order.write_u32(value));
}

fn break_fixed_part(random: &mut Random, order: ByteOrder, bytes: &mut [u8]) {
    let head_length = 16 + u64::from(order.read_u32(bytes, 12)).next_multiple_of(8);
    let body_at_limit = MAX_MESSAGE_LENGTH.saturating_sub(head_length) as u32;
    match random.below(7) {
        0 => bytes[0] = random.pick(&[b'L', b'b', 0, 0xff, b'm', b'C']),
        1 => bytes[3] = random.pick(&[0, 2, 255]),
        2 => bytes[1] = 0,
        3 => put_u32(order, bytes, 8, 0),
        4 => put_u32(order, bytes, 12, random.pick(&[2_033, 2_034, 2_040, 65_536, u32::MAX, u32::MAX - 15])),
        5 => put_u32(order, bytes, 4, random.pick(&[body_at_limit + 1, body_at_limit + 8, u32::MAX])),
        _ => put_u32(order, bytes, 4, body_at_limit),
    }
}

/// Breaks the shape of the array at a known field. A message without one gets it first.
fn break_array(random: &mut Random, message: &Message) -> Marshalled {
    let has_known = message.fields.iter().any(|field| field.code < FIRST_UNKNOWN);
    let message = if has_known { message.clone() } else { message.clone().sender(":1.1") };
    if random.chance(12) {
        return with_repeated_field(random, message).marshal();
    }
    let mut built = message.marshal();
    if random.chance(25) {
        shift_array_length(random, message.order, &mut built);
        return built;
    }
    let is_known = |index: &usize| message.fields[*index].code < FIRST_UNKNOWN;
    let known: Vec<usize> = (0..message.fields.len()).filter(is_known).collect();
    let index = random.pick(&known);
    break_element(random, message.order, &mut built, index);
    built
}

fn with_repeated_field(random: &mut Random, mut message: Message) -> Message {
    let again = random.pick(&message.fields);
    let place = random.between(0, message.fields.len());
    message.fields.insert(place, again);
    message
}

/// A length that is a little off, without moving what follows.
fn shift_array_length(random: &mut Random, order: ByteOrder, built: &mut Marshalled) {
    let length = order.read_u32(&built.bytes, 12);
    let off_by = random.between(1, 12) as u32;
    let changed = if random.chance(50) { length.saturating_sub(off_by) } else { length + off_by };
    put_u32(order, &mut built.bytes, 12, changed);
}

fn break_element(random: &mut Random, order: ByteOrder, built: &mut Marshalled, index: usize) {
    let (start, end) = (built.fields[index].start, built.fields[index].end);
    let next = built.fields.get(index + 1).map_or(built.head_length, |field| field.start);
    let bytes = &mut built.bytes;
    let is_number = bytes[start + 2] == b'u';
    match random.below(9) {
        0 => bytes[start] = random.pick(&[0, 10, 11, 128, 255]),
        1 => bytes[start + 1] = random.pick(&[0, 2, 255]),
        2 => bytes[start + 2] = wrong_letter(random, bytes[start]),
        3 => bytes[start + 3] = random.pick(&[1, 0x80, 0xff]),
        4 if !is_number => bytes[end - 1] = random.pick(&[1, b'x', 0xff]),
        5 if !is_number => shift_value_length(random, order, bytes, start),
        6 | 7 if end < next => {
            let at = random.between(end, next - 1);
            bytes[at] = random.pick(&[1, 0x80, 0xff]);
        }
        _ => bytes[start] = 0,
    }
}

fn wrong_letter(random: &mut Random, code: u8) -> u8 {
    let right = letter_of(code);
    let letters: Vec<u8> = b"osguyvia\0".iter().copied().filter(|letter| Some(*letter) != right).collect();
    random.pick(&letters)
}

fn shift_value_length(random: &mut Random, order: ByteOrder, bytes: &mut [u8], start: usize) {
    let at = start + 4;
    let off_by = random.between(1, 9) as u32;
    let longer = random.chance(60);
    if bytes[start + 2] == b'g' {
        let length = u32::from(bytes[at]);
        bytes[at] = if longer { length + off_by } else { length.saturating_sub(off_by) }.min(255) as u8;
        return;
    }
    let length = order.read_u32(bytes, at);
    let changed = match random.below(8) {
        0 => u32::MAX,
        1 => u32::MAX - off_by,
        2 => 0x8000_0000 | length,
        _ if longer => length + off_by,
        _ => length.saturating_sub(off_by),
    };
    put_u32(order, bytes, at, changed);
}

/// Gives one field, of any code that has a rule, a value that breaks it.
fn with_bad_value(random: &mut Random, mut message: Message) -> Message {
    let code = random.between(1, usize::from(SIGNATURE)) as u8;
    let old_place = message.fields.iter().position(|field| field.code == code);
    message.fields.retain(|field| field.code != code);
    let mut spoiled = match code {
        REPLY_SERIAL => message.number(code, 0),
        _ => {
            let value = vocabulary::bad_value(random, code);
            message.bytes_field(code, &value)
        }
    };
    // The field was written last; it goes back to where the good one stood.
    if let Some(place) = old_place {
        let last = spoiled.fields.len() - 1;
        spoiled.fields[place..=last].rotate_right(1);
    }
    spoiled
}

/// A zero byte inside a value: well shaped, and then a bad value.
fn with_zero_inside(random: &mut Random, message: &Message) -> Vec<u8> {
    let mut built = message.marshal();
    if let Some((start, end)) = a_text_field(random, &built) {
        let first = if built.bytes[start + 2] == b'g' { start + 5 } else { start + 8 };
        if first < end - 1 {
            let at = random.between(first, end - 2);
            built.bytes[at] = 0;
        }
    }
    built.bytes
}

/// A length one or more too large whose zero is a padding byte: well shaped, and then bad.
fn with_length_into_padding(random: &mut Random, message: &Message) -> Vec<u8> {
    let mut built = message.marshal();
    for index in 0..built.fields.len().saturating_sub(1) {
        let (start, end, next) =
            (built.fields[index].start, built.fields[index].end, built.fields[index + 1].start);
        let is_text = is_known_text(&built.bytes[start..]);
        if is_text && end < next {
            let more = random.between(1, next - end) as u32;
            if built.bytes[start + 2] == b'g' {
                built.bytes[start + 4] = built.bytes[start + 4].saturating_add(more as u8);
            } else {
                let length = message.order.read_u32(&built.bytes, start + 4);
                put_u32(message.order, &mut built.bytes, start + 4, length + more);
            }
            return built.bytes;
        }
    }
    built.bytes
}

fn is_known_text(field: &[u8]) -> bool {
    field[0] < FIRST_UNKNOWN && field[2] != b'u'
}

fn a_text_field(random: &mut Random, built: &Marshalled) -> Option<(usize, usize)> {
    let texts: Vec<(usize, usize)> = built
        .fields
        .iter()
        .filter(|field| is_known_text(&built.bytes[field.start..]))
        .map(|field| (field.start, field.end))
        .collect();
    if texts.is_empty() {
        return None;
    }
    Some(random.pick(&texts))
}

/// Takes away a required field; types without any keep all, and 9 does not come.
pub fn without_required_field(random: &mut Random, mut message: Message) -> Message {
    let required = required_fields(message.message_type);
    if !required.is_empty() {
        let missing = random.pick(required);
        message.fields.retain(|field| field.code != missing);
        if random.chance(20) {
            message = message.number(UNIX_FDS, 1);
        }
        if random.chance(20) {
            message = unknown::add(random, message);
        }
    }
    message
}

/// One to three bytes of the head replaced by random ones.
fn with_random_bytes(random: &mut Random, message: &Message) -> Vec<u8> {
    let mut built = message.marshal();
    for _ in 0..random.between(1, 3) {
        let at = random.below(built.head_length);
        built.bytes[at] =
            if random.chance(50) { random.byte() } else { built.bytes[at] ^ (1 << random.below(8)) };
    }
    built.bytes
}
