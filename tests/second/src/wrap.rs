//! Recorded bodies as values of an unknown header field, byte for byte.

use crate::header::{signature_of, FIRST_UNKNOWN};
use crate::message::Message;
use crate::signature::types_of;
use crate::wire::{FixedPart, FIXED_LENGTH, MAX_ARRAY_LENGTH};

/// A small call in the byte order of `message`, whose field 10 holds the body of it. None where
/// there is no body with a signature, or where it does not fit into the field array.
pub fn wrap(message: &[u8]) -> Option<Vec<u8>> {
    let fixed = FixedPart::read(message.get(..FIXED_LENGTH)?).ok()?;
    let (head, body) = message.split_at_checked(fixed.head_length() as usize)?;
    let signature = signature_of(head)?;
    let front = match types_of(&signature)?.len() {
        0 => return None,
        1 => front_of_one(&signature),
        _ => front_of_several(&signature),
    };
    let call = Message::call(1, "/", "M").order(fixed.order);
    let wrapped = call.raw(FIRST_UNKNOWN, &[front.as_slice(), body].concat()).marshal();
    (wrapped.head_length <= FIXED_LENGTH + MAX_ARRAY_LENGTH as usize).then_some(wrapped.bytes)
}

/// A body begins at a multiple of 8, and so must the value. Each variant round it takes three
/// bytes, so with some of them the body comes to stand where it has to.
fn front_of_one(signature: &[u8]) -> Vec<u8> {
    let mut front = [&[signature.len() as u8], signature, &[0]].concat();
    while !(1 + front.len()).is_multiple_of(8) {
        front.splice(0..0, *b"\x01v\0");
    }
    front
}

/// Several types stand between parentheses, which begin at a multiple of 8.
fn front_of_several(signature: &[u8]) -> Vec<u8> {
    let mut front = [&[signature.len() as u8 + 2], b"(".as_slice(), signature, b")\0"].concat();
    while !(1 + front.len()).is_multiple_of(8) {
        front.push(0);
    }
    front
}
