//! The tool's own reading of a message head, box by box, with the byte at which a broken one breaks.
//!
//! It is for words and pictures: what the guard does is the guard's answer. Where the two differ, the tool says so.

mod boxes;
mod fields;
mod fixed;
mod meaning;
pub mod signature;
pub mod utf8;
mod values;

use boxes::Boxes;
use fields::Walk;
use forms::message::{ByteOrder, ERROR, METHOD_RETURN, TYPES};

/// One box of a head: the bytes from `from` up to `to`, what they are called and what they say.
#[derive(Clone, Debug, PartialEq, Eq)]
pub struct Part {
    pub from: usize,
    pub to: usize,
    pub name: String,
    pub value: String,
}

/// Why a head is broken: the answer, the byte that decided, the name of its box, what is wrong in a sentence, and what was
/// wanted at that byte. `kind` tells the ways of one answer apart, for tests.
#[derive(Clone, Debug, PartialEq, Eq)]
pub struct HeadFault {
    pub answer: u32,
    pub at: usize,
    pub part: String,
    pub what: String,
    pub wanted: String,
    pub kind: &'static str,
}

/// A header field and where it stands, from its code to the end of its value.
#[derive(Clone, Debug, PartialEq, Eq)]
pub struct FieldAt {
    pub code: u8,
    pub from: usize,
    pub to: usize,
}

/// A head that has no fault.
#[derive(Clone, Debug, PartialEq, Eq)]
pub struct Head {
    pub order: ByteOrder,
    pub message_type: u8,
    pub flags: u8,
    pub serial: u32,
    pub body_length: u32,
    /// Fixed part, field array and padding.
    pub head_length: usize,
    pub path: Option<String>,
    pub interface: Option<String>,
    pub member: Option<String>,
    pub error_name: Option<String>,
    pub reply_serial: Option<u32>,
    pub destination: Option<String>,
    pub sender: Option<String>,
    pub signature: Option<String>,
    pub descriptors: Option<u32>,
    /// All fields in the order in which they stand, unknown ones too.
    pub fields: Vec<FieldAt>,
}

#[derive(Clone, Debug, PartialEq, Eq)]
pub enum Outcome {
    Good(Box<Head>),
    Broken(HeadFault),
    /// So many bytes are wanted before more can be said: 16, or the whole head.
    Unfinished {
        wanted: usize,
    },
}

/// A head as far as it can be read. The boxes lie one behind the other from byte 0 on; where a fault makes the rest
/// unreadable, the last box holds the rest of the head as it came.
#[derive(Clone, Debug, PartialEq, Eq)]
pub struct Reading {
    pub parts: Vec<Part>,
    pub outcome: Outcome,
}

/// All ways in which a head can break.
pub const KINDS: &[&str] = &[
    "order",
    "version",
    "type-zero",
    "serial-zero",
    "array-too-long",
    "message-too-long",
    "past-the-array",
    "ends-in-padding",
    "code-zero",
    "signature-length",
    "wrong-letter",
    "repeated-code",
    "no-zero-after-letter",
    "no-zero-after-value",
    "padding-between",
    "padding-after-array",
    "unknown-not-a-signature",
    "unknown-no-type",
    "unknown-several-types",
    "unknown-no-zero-after-signature",
    "unknown-past-the-array",
    "unknown-cut-padding",
    "unknown-padding",
    "unknown-too-many-open",
    "unknown-array-end",
    "unknown-boolean",
    utf8::ZERO,
    utf8::OVERLONG,
    utf8::SURROGATE,
    utf8::TOO_HIGH,
    utf8::BAD_LEAD,
    utf8::CUT,
    "unknown-path",
    "unknown-signature-value",
    "unknown-no-zero-after-text",
    "bad-path",
    "bad-interface",
    "bad-member",
    "bad-error-name",
    "bad-reply-serial",
    "bad-destination",
    "bad-sender",
    "bad-signature",
    "missing-field",
];

impl HeadFault {
    /// A fault whose box is not known yet.
    fn new(
        answer: u32,
        kind: &'static str,
        at: usize,
        what: impl Into<String>,
        wanted: impl Into<String>,
    ) -> HeadFault {
        HeadFault { answer, at, part: String::new(), what: what.into(), wanted: wanted.into(), kind }
    }
}

/// Reads the head at the front of `bytes`; what stands behind it is not looked at.
pub fn read(bytes: &[u8]) -> Reading {
    let mut boxes = Boxes::drawn();
    let mut outcome = outcome(bytes, &mut boxes);
    let parts = boxes.into_parts();
    if let Outcome::Broken(fault) = &mut outcome {
        fault.part = boxes::name_at(&parts, fault.at);
    }
    Reading { parts, outcome }
}

/// The head at the front of `bytes` where it is good, without its boxes.
pub fn good(bytes: &[u8]) -> Option<Box<Head>> {
    match outcome(bytes, &mut Boxes::none()) {
        Outcome::Good(head) => Some(head),
        _ => None,
    }
}

/// The fixed part is tested once it is there, and the fields once the whole head is.
fn outcome(bytes: &[u8], boxes: &mut Boxes) -> Outcome {
    fixed::put_boxes(bytes, boxes);
    if bytes.len() < fixed::LENGTH {
        return Outcome::Unfinished { wanted: fixed::LENGTH };
    }
    let fixed = match fixed::judge(bytes) {
        Ok(fixed) => fixed,
        Err(fault) => return Outcome::Broken(fault),
    };
    let length = fixed.head_length() as usize;
    let Some(head) = bytes.get(..length) else {
        boxes.put_rest(bytes.len());
        return Outcome::Unfinished { wanted: length };
    };
    let judged = judge_fields(&mut Walk::new(head, &fixed, boxes), &fixed);
    boxes.put_rest(length);
    match judged {
        Ok(head) => Outcome::Good(Box::new(head)),
        Err(fault) => Outcome::Broken(fault),
    }
}

/// A fault of the array anywhere comes before a bad value anywhere, and that before a missing field.
fn judge_fields(walk: &mut Walk, fixed: &fixed::Fixed) -> Result<Head, HeadFault> {
    let fields = walk.fields()?;
    let fault = meaning::bad_value(walk, &fields).or_else(|| meaning::missing(walk, fixed, &fields));
    match fault {
        Some(fault) => Err(fault),
        None => Ok(meaning::head(walk, fixed, fields)),
    }
}

/// The word of scripts for a type, or its number.
pub fn type_word(message_type: u8) -> String {
    match TYPES.iter().find(|(number, _)| *number == message_type) {
        Some((_, word)) => word.to_string(),
        None => format!("type {message_type}"),
    }
}

/// A head in one line, but for its destination.
pub fn summary(head: &Head) -> String {
    let mut words = vec![type_word(head.message_type)];
    let is_reply = head.message_type == METHOD_RETURN || head.message_type == ERROR;
    words.extend(head.error_name.clone().filter(|_| head.message_type == ERROR));
    match head.reply_serial.filter(|_| is_reply) {
        Some(serial) => words.push(format!("to serial {serial}")),
        None => words.extend(head.path.iter().cloned().chain(whole_member(head))),
    }
    format!("{}, serial {}", words.join(" "), head.serial)
}

/// Interface and member, of which either may be absent.
fn whole_member(head: &Head) -> Option<String> {
    let names: Vec<&str> =
        [&head.interface, &head.member].into_iter().flatten().map(String::as_str).collect();
    Some(names.join(".")).filter(|names| !names.is_empty())
}
