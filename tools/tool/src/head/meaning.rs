//! What the fields of a well-formed array say: answers 8 and 9, and the head that has neither.

use super::boxes::shown_byte;
use super::fields::{Found, Walk};
use super::fixed::Fixed;
use super::{signature, type_word, Head, HeadFault};
use forms::message::{
    field_kind, DESCRIPTORS, DESTINATION, ERROR, ERROR_NAME, INTERFACE, MEMBER, METHOD_CALL, METHOD_RETURN,
    PATH, REPLY_SERIAL, SENDER, SIGNAL, SIGNATURE,
};
use forms::names::{self, Form, NameFault};

/// The first field whose value breaks its rule.
pub fn bad_value(walk: &Walk, fields: &[Found]) -> Option<HeadFault> {
    fields.iter().find_map(|found| match found.field.code {
        REPLY_SERIAL if walk.order.number(walk.head, found.from) == 0 => Some(HeadFault::new(
            8,
            "bad-reply-serial",
            found.from,
            "the reply serial is 0",
            "any number but 0",
        )),
        code => bad_text(code, &walk.head[found.from..found.to], found.from),
    })
}

fn bad_text(code: u8, text: &[u8], from: usize) -> Option<HeadFault> {
    let (kind, rule, fault) = match code {
        PATH => ("bad-path", "object path", names::fault(Form::Path, text)),
        INTERFACE => ("bad-interface", "interface name", names::fault(Form::Interface, text)),
        MEMBER => ("bad-member", "member name", names::fault(Form::Member, text)),
        ERROR_NAME => ("bad-error-name", "interface name", names::fault(Form::Interface, text)),
        DESTINATION => ("bad-destination", "bus name", names::fault(Form::Bus, text)),
        SENDER => ("bad-sender", "bus name", names::fault(Form::Bus, text)),
        SIGNATURE => ("bad-signature", "signature", signature::fault(text)),
        _ => return None,
    };
    let fault = fault?;
    let name = field_kind(code).map_or("text", |kind| kind.name);
    let what = format!("the {name} is no {rule}: {}", how(text, &fault));
    Some(HeadFault::new(8, kind, from + fault.at, what, fault.wanted))
}

fn how(text: &[u8], fault: &NameFault) -> String {
    match text.get(fault.at) {
        _ if text.is_empty() => "it is empty".to_string(),
        Some(_) if fault.wanted.starts_with("at most 255") => format!("it has {} bytes", text.len()),
        Some(&byte) => format!("at its byte {} stands '{}'", fault.at, shown_byte(byte)),
        None => format!("it ends behind its {} bytes", text.len()),
    }
}

/// The fields that a type requires.
fn required(message_type: u8) -> &'static [u8] {
    match message_type {
        METHOD_CALL => &[PATH, MEMBER],
        METHOD_RETURN => &[REPLY_SERIAL],
        ERROR => &[ERROR_NAME, REPLY_SERIAL],
        SIGNAL => &[PATH, INTERFACE, MEMBER],
        _ => &[],
    }
}

/// The first required field that is absent. Behind the array is where it could stand.
pub fn missing(walk: &Walk, fixed: &Fixed, fields: &[Found]) -> Option<HeadFault> {
    let is_absent = |code: &&u8| !fields.iter().any(|found| found.field.code == **code);
    let code = *required(fixed.message_type).iter().find(is_absent)?;
    let name = field_kind(code).map_or("unknown", |kind| kind.name);
    let word = type_word(fixed.message_type);
    let article = if fixed.message_type == ERROR { "an" } else { "a" };
    let what = format!("{article} {word} has no {name}");
    let wanted = format!("field {code}, {name}: {article} {word} requires it");
    Some(HeadFault::new(9, "missing-field", walk.in_head(walk.end), what, wanted))
}

/// The head of fields that are all good.
pub fn head(walk: &Walk, fixed: &Fixed, fields: Vec<Found>) -> Head {
    let find = |code| fields.iter().find(|found| found.field.code == code);
    // Good names and signatures are plain ASCII, so nothing is lost.
    let text =
        |code| find(code).map(|found| String::from_utf8_lossy(&walk.head[found.from..found.to]).into_owned());
    let number = |code| find(code).map(|found| walk.order.number(walk.head, found.from));
    Head {
        order: fixed.order,
        message_type: fixed.message_type,
        flags: fixed.flags,
        serial: fixed.serial,
        body_length: fixed.body_length,
        head_length: walk.head.len(),
        path: text(PATH),
        interface: text(INTERFACE),
        member: text(MEMBER),
        error_name: text(ERROR_NAME),
        reply_serial: number(REPLY_SERIAL),
        destination: text(DESTINATION),
        sender: text(SENDER),
        signature: text(SIGNATURE),
        descriptors: number(DESCRIPTORS),
        fields: fields.into_iter().map(|found| found.field).collect(),
    }
}
