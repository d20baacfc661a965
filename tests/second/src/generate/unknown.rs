//! Header fields of unknown codes in good messages.

use super::random::Random;
use super::values;
use crate::header::FIRST_UNKNOWN;
use crate::message::{Field, FieldValue, Message};
use crate::typed::Typed;
use crate::value::MAX_OPEN;
use crate::wire::{FIXED_LENGTH, MAX_ARRAY_LENGTH};

/// One field or several, at any places between the others; some codes come again.
pub fn add(random: &mut Random, mut message: Message) -> Message {
    let count = random.pick(&[1, 1, 1, 2, 3]);
    let mut code = code(random);
    for _ in 0..count {
        let value = FieldValue::Variant(variant(random));
        message = with_field(random, message, Field { code, letter: 0, value });
        if random.chance(60) {
            code = self::code(random);
        }
    }
    message
}

pub fn code(random: &mut Random) -> u8 {
    match random.below(5) {
        0 => FIRST_UNKNOWN,
        1 => 255,
        _ => random.between(usize::from(FIRST_UNKNOWN), 255) as u8,
    }
}

/// The field's own variant.
fn variant(random: &mut Random) -> Typed {
    match random.below(40) {
        0..=1 => values::deep(random, MAX_OPEN),
        2 => {
            let open = random.between(2, MAX_OPEN - 1);
            values::deep(random, open)
        }
        3 => Typed::variant(values::long(random)),
        4 => Typed::variant(values::wide(random)),
        5..=15 => Typed::variant(values::value(random, 0)),
        _ => {
            let depth = random.between(1, 4);
            Typed::variant(values::value(random, depth))
        }
    }
}

/// Puts a field somewhere, unless the array would then be too long.
pub fn with_field(random: &mut Random, message: Message, field: Field) -> Message {
    let mut longer = message.clone();
    let place = random.between(0, longer.fields.len());
    longer.fields.insert(place, field);
    if fits(&longer) {
        longer
    } else {
        message
    }
}

pub fn fits(message: &Message) -> bool {
    message.marshal().head_length <= FIXED_LENGTH + MAX_ARRAY_LENGTH as usize
}
