//! Unknown header fields: what the good ones in a message hold, and what a broken one was
//! refused for.

use crate::header::{self, HeadFault, Header, FIRST_UNKNOWN};
use crate::value::{UnknownField, ValueFault, MAX_OPEN};
use crate::wire::{ByteOrder, MAX_ARRAY_LENGTH};
use std::collections::BTreeSet;

/// All that a value can hold, by the letter with which its type begins.
const LETTERS: [(u8, &str); 17] = [
    (b'y', "a byte"),
    (b'b', "a boolean"),
    (b'n', "n"),
    (b'q', "q"),
    (b'i', "i"),
    (b'u', "u"),
    (b'x', "x"),
    (b't', "t"),
    (b'd', "d"),
    (b'h', "h"),
    (b's', "a string"),
    (b'o', "a path"),
    (b'g', "a signature"),
    (b'a', "an array"),
    (b'(', "parentheses"),
    (b'{', "a dict entry"),
    (b'v', "a variant inside"),
];
const EMPTY_ARRAY: &str = "unknown field, good with an empty array";
const ALL_OPEN: &str = "unknown field, good with 64 open";
const FIRST_CODE: &str = "unknown field, good with code 10";
const LAST_CODE: &str = "unknown field, good with code 255";
const SAME_CODE: &str = "unknown fields, good with the same code";
const SEVERAL_CODES: &str = "unknown fields, good with several codes";
const FULL_ARRAY: &str = "unknown field, good in an array of 2,032 bytes";
const BEFORE_8: &str = "unknown field, 7 before 8";
const BEFORE_9: &str = "unknown field, 7 before 9";
const WITH_8: &str = "unknown field, good beside 8";
const WITH_9: &str = "unknown field, good beside 9";

fn in_type(message_type: u8, order: ByteOrder) -> String {
    let kind = match message_type {
        1..=4 => format!("type {message_type}"),
        _ => "type 5 and up".to_string(),
    };
    format!("unknown field, good in {kind}, {order:?}")
}

fn with(what: &str) -> String {
    format!("unknown field, good with {what}")
}

fn refused_for(fault: ValueFault) -> String {
    let alone = if can_be_overlooked(fault) { " alone" } else { "" };
    format!("unknown field, 7 for {fault:?}{alone}")
}

/// Behind the other faults nobody could say where the walk should go on.
fn can_be_overlooked(fault: ValueFault) -> bool {
    !matches!(fault, ValueFault::NotASignature | ValueFault::PastTheArray)
}

/// Every case; a good set of captures meets each of them often.
pub fn cases() -> Vec<String> {
    let mut cases = Vec::new();
    for message_type in 1..=5 {
        cases.extend([ByteOrder::Little, ByteOrder::Big].map(|order| in_type(message_type, order)));
    }
    cases.extend(LETTERS.iter().map(|(_, what)| with(what)));
    cases.extend(ValueFault::ALL.into_iter().map(refused_for));
    let others = [EMPTY_ARRAY, ALL_OPEN, FIRST_CODE, LAST_CODE, SAME_CODE, SEVERAL_CODES, FULL_ARRAY];
    cases.extend(others.map(String::from));
    cases.extend([BEFORE_8, BEFORE_9, WITH_8, WITH_9].map(String::from));
    cases
}

/// The cases of a message whose head is good, each once.
pub fn of_message(message: &Header) -> Vec<String> {
    let fields = &message.unknown;
    if fields.is_empty() {
        return Vec::new();
    }
    let holds = |what: &dyn Fn(&UnknownField) -> bool| fields.iter().any(what);
    let codes: BTreeSet<u8> = fields.iter().map(|field| field.code).collect();
    let mut cases = vec![in_type(message.fixed.message_type, message.fixed.order)];
    let letters = LETTERS.iter().filter(|(letter, _)| holds(&|field| field.letters.contains(letter)));
    cases.extend(letters.map(|(_, what)| with(what)));
    let others = [
        (EMPTY_ARRAY, holds(&|field| field.has_empty_array)),
        (ALL_OPEN, holds(&|field| field.deepest == MAX_OPEN)),
        (FIRST_CODE, codes.contains(&FIRST_UNKNOWN)),
        (LAST_CODE, codes.contains(&255)),
        (SAME_CODE, codes.len() < fields.len()),
        (SEVERAL_CODES, codes.len() > 1),
        (FULL_ARRAY, message.fixed.array_length == MAX_ARRAY_LENGTH),
    ];
    cases.extend(others.iter().filter(|(_, is_so)| *is_so).map(|(case, _)| case.to_string()));
    cases
}

/// The case of a broken head in which unknown fields play a part. A fault in one of them counts
/// where the head would be good without it, or broken by 8 or 9.
pub fn of_head(head: &[u8], fault: HeadFault) -> Option<String> {
    let has_good = !header::unknown_fields(head).is_empty();
    match fault {
        HeadFault::BadValue(_) => has_good.then(|| WITH_8.to_string()),
        HeadFault::Missing(_) => has_good.then(|| WITH_9.to_string()),
        HeadFault::Malformed(header::Malformed::Unknown(fault)) => of_fault(head, fault),
        _ => None,
    }
}

fn of_fault(head: &[u8], fault: ValueFault) -> Option<String> {
    match Header::read_forgiving(head, Some(fault)) {
        Ok(_) => Some(refused_for(fault)),
        Err(HeadFault::BadValue(_)) => Some(BEFORE_8.to_string()),
        Err(HeadFault::Missing(_)) => Some(BEFORE_9.to_string()),
        Err(_) => (!can_be_overlooked(fault)).then(|| refused_for(fault)),
    }
}
