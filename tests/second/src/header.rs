//! The head of a message: its fixed part and its array of header fields.

use crate::answer::Answer;
use crate::names;
use crate::signature::is_signature;
use crate::value::{UnknownField, ValueFault, Walk};
use crate::wire::{round_up_to_8, ByteOrder, FixedPart, FIXED_LENGTH};

pub const PATH: u8 = 1;
pub const INTERFACE: u8 = 2;
pub const MEMBER: u8 = 3;
pub const ERROR_NAME: u8 = 4;
pub const REPLY_SERIAL: u8 = 5;
pub const DESTINATION: u8 = 6;
pub const SENDER: u8 = 7;
pub const SIGNATURE: u8 = 8;
pub const UNIX_FDS: u8 = 9;

/// From here on no code has a rule of its own.
pub const FIRST_UNKNOWN: u8 = 10;

pub const METHOD_CALL: u8 = 1;
pub const METHOD_RETURN: u8 = 2;
pub const ERROR: u8 = 3;
pub const SIGNAL: u8 = 4;

/// Why a head is broken. The cases of 7 and 8 are told apart so that tests can
/// see that each of them was met.
#[derive(Clone, Copy, Debug, PartialEq, Eq, PartialOrd, Ord)]
pub enum HeadFault {
    ByteOrder,
    Version,
    TypeZero,
    SerialZero,
    ArrayTooLong,
    MessageTooLong,
    Malformed(Malformed),
    BadValue(u8),
    Missing(u8),
}

/// The ways in which the field array can be malformed.
#[derive(Clone, Copy, Debug, PartialEq, Eq, PartialOrd, Ord)]
pub enum Malformed {
    PastTheArray,
    EndsInPadding,
    Code,
    SignatureLength,
    WrongLetter,
    RepeatedCode,
    NoZeroAfterLetter,
    NoZeroAfterValue,
    PaddingBetween,
    PaddingAfterArray,
    Unknown(ValueFault),
}

impl Malformed {
    /// All but the faults of unknown fields, so that a test can tell which it never met.
    pub const ALL: [Malformed; 10] = [
        Malformed::PastTheArray,
        Malformed::EndsInPadding,
        Malformed::Code,
        Malformed::SignatureLength,
        Malformed::WrongLetter,
        Malformed::RepeatedCode,
        Malformed::NoZeroAfterLetter,
        Malformed::NoZeroAfterValue,
        Malformed::PaddingBetween,
        Malformed::PaddingAfterArray,
    ];
}

impl HeadFault {
    pub fn answer(self) -> Answer {
        match self {
            HeadFault::ByteOrder => Answer::ByteOrder,
            HeadFault::Version => Answer::Version,
            HeadFault::TypeZero => Answer::TypeZero,
            HeadFault::SerialZero => Answer::SerialZero,
            HeadFault::ArrayTooLong => Answer::ArrayTooLong,
            HeadFault::MessageTooLong => Answer::MessageTooLong,
            HeadFault::Malformed(_) => Answer::ArrayMalformed,
            HeadFault::BadValue(_) => Answer::BadValue,
            HeadFault::Missing(_) => Answer::FieldMissing,
        }
    }
}

/// The type letter that a field code demands; none for an unknown code.
pub fn letter_of(code: u8) -> Option<u8> {
    match code {
        PATH => Some(b'o'),
        INTERFACE | MEMBER | ERROR_NAME | DESTINATION | SENDER => Some(b's'),
        REPLY_SERIAL | UNIX_FDS => Some(b'u'),
        SIGNATURE => Some(b'g'),
        _ => None,
    }
}

/// The field codes that a message type requires.
pub fn required_fields(message_type: u8) -> &'static [u8] {
    match message_type {
        METHOD_CALL => &[PATH, MEMBER],
        METHOD_RETURN => &[REPLY_SERIAL],
        ERROR => &[ERROR_NAME, REPLY_SERIAL],
        SIGNAL => &[PATH, INTERFACE, MEMBER],
        _ => &[],
    }
}

/// The value of one header field, not yet tested by its name rule.
#[derive(Clone, Debug, PartialEq, Eq)]
enum Value {
    Text(Vec<u8>),
    Number(u32),
}

/// One element of the field array, well shaped.
struct Element {
    code: u8,
    value: Value,
    end: usize,
}

/// A head that has none of faults 1 to 9, with what the guard asks of it.
#[derive(Clone, Debug, PartialEq, Eq)]
pub struct Header {
    pub fixed: FixedPart,
    pub path: Option<String>,
    pub interface: Option<String>,
    pub member: Option<String>,
    pub destination: Option<String>,
    pub reply_serial: Option<u32>,
    /// Fields that were passed over, for people and tests; the guard asks nothing of them.
    pub unknown: Vec<UnknownField>,
}

impl Header {
    /// Reads a whole head. All elements are tested for shape (7) before any value
    /// is tested (8), and all values before the required fields (9).
    pub fn read(head: &[u8]) -> Result<Header, HeadFault> {
        Header::read_forgiving(head, None)
    }

    /// Reads a head as if one fault of unknown fields were none, for tests that ask whether it
    /// is the only one.
    pub fn read_forgiving(head: &[u8], forgiven: Option<ValueFault>) -> Result<Header, HeadFault> {
        let fixed = FixedPart::read(head)?;
        let Fields { elements, unknown } =
            read_array(head, &fixed, forgiven).map_err(HeadFault::Malformed)?;
        for element in &elements {
            if !obeys_its_rule(element) {
                return Err(HeadFault::BadValue(element.code));
            }
        }
        for &code in required_fields(fixed.message_type) {
            if !elements.iter().any(|element| element.code == code) {
                return Err(HeadFault::Missing(code));
            }
        }
        Ok(Header {
            fixed,
            path: text_of(&elements, PATH),
            interface: text_of(&elements, INTERFACE),
            member: text_of(&elements, MEMBER),
            destination: text_of(&elements, DESTINATION),
            reply_serial: number_of(&elements, REPLY_SERIAL),
            unknown,
        })
    }
}

/// The text that broke a head with answer 8, and the code of its field. None where the value
/// was a number, or where nothing breaks its rule.
pub fn bad_text(head: &[u8]) -> Option<(u8, Vec<u8>)> {
    let fixed = FixedPart::read(head).ok()?;
    let Fields { elements, .. } = read_array(head, &fixed, None).ok()?;
    let bad = elements.into_iter().find(|element| !obeys_its_rule(element))?;
    match bad.value {
        Value::Text(text) => Some((bad.code, text)),
        Value::Number(_) => None,
    }
}

/// What the signature field of a head says of its body.
pub fn signature_of(head: &[u8]) -> Option<Vec<u8>> {
    let fixed = FixedPart::read(head).ok()?;
    let Fields { elements, .. } = read_array(head, &fixed, None).ok()?;
    text_of(&elements, SIGNATURE).map(String::into_bytes)
}

/// The unknown fields of a head whose array has no fault, whatever its values are.
pub fn unknown_fields(head: &[u8]) -> Vec<UnknownField> {
    let read = |fixed: FixedPart| read_array(head, &fixed, None).ok();
    FixedPart::read(head).ok().and_then(read).map_or(Vec::new(), |fields| fields.unknown)
}

/// The elements of a field array, known and unknown ones apart.
#[derive(Default)]
struct Fields {
    elements: Vec<Element>,
    unknown: Vec<UnknownField>,
}

impl Fields {
    /// Adds the known element at `at` and says where it ends.
    fn read_known(&mut self, order: ByteOrder, array: &[u8], at: usize) -> Result<usize, Malformed> {
        let element = read_element(order, array, at)?;
        if self.elements.iter().any(|earlier| earlier.code == element.code) {
            return Err(Malformed::RepeatedCode);
        }
        let end = element.end;
        self.elements.push(element);
        Ok(end)
    }

    /// Adds the unknown element that a walk goes through. Its code may have come before.
    fn read_unknown(&mut self, walk: Walk, at: usize) -> Result<usize, Malformed> {
        let (field, end) = walk.field(at).map_err(Malformed::Unknown)?;
        self.unknown.push(field);
        Ok(end)
    }
}

fn read_array(head: &[u8], fixed: &FixedPart, forgiven: Option<ValueFault>) -> Result<Fields, Malformed> {
    let end = FIXED_LENGTH + fixed.array_length as usize;
    let array = &head[..end];
    let mut fields = Fields::default();
    let mut at = FIXED_LENGTH;
    while at < end {
        at = match array[at] {
            FIRST_UNKNOWN.. => fields.read_unknown(Walk::new(fixed.order, array, forgiven), at)?,
            _ => fields.read_known(fixed.order, array, at)?,
        };
        if at < end {
            at = skip_padding(array, at)?;
        }
    }
    if head[end..].iter().any(|&byte| byte != 0) {
        return Err(Malformed::PaddingAfterArray);
    }
    Ok(fields)
}

/// Where the next element starts. The array's length leaves out the padding after
/// its last element, so here another element must follow.
fn skip_padding(array: &[u8], at: usize) -> Result<usize, Malformed> {
    let next = round_up_to_8(at as u64) as usize;
    if next >= array.len() {
        return Err(Malformed::EndsInPadding);
    }
    if array[at..next].iter().any(|&byte| byte != 0) {
        return Err(Malformed::PaddingBetween);
    }
    Ok(next)
}

fn read_element(order: ByteOrder, array: &[u8], at: usize) -> Result<Element, Malformed> {
    let Some(&[code, signature_length, letter, zero]) = array.get(at..at + 4) else {
        return Err(Malformed::PastTheArray);
    };
    let wanted = letter_of(code).ok_or(Malformed::Code)?;
    if signature_length != 1 {
        return Err(Malformed::SignatureLength);
    }
    if letter != wanted {
        return Err(Malformed::WrongLetter);
    }
    if zero != 0 {
        return Err(Malformed::NoZeroAfterLetter);
    }
    let at = at + 4;
    let (value, end) = match letter {
        b'u' => read_number(order, array, at)?,
        b'g' => {
            let length = *array.get(at).ok_or(Malformed::PastTheArray)?;
            read_text(array, at + 1, usize::from(length))?
        }
        _ => {
            array.get(at..at + 4).ok_or(Malformed::PastTheArray)?;
            read_text(array, at + 4, order.read_u32(array, at) as usize)?
        }
    };
    Ok(Element { code, value, end })
}

fn read_number(order: ByteOrder, array: &[u8], at: usize) -> Result<(Value, usize), Malformed> {
    array.get(at..at + 4).ok_or(Malformed::PastTheArray)?;
    Ok((Value::Number(order.read_u32(array, at)), at + 4))
}

/// `length` bytes from `at`, and the zero behind them.
fn read_text(array: &[u8], at: usize, length: usize) -> Result<(Value, usize), Malformed> {
    let text = array.get(at..at + length).ok_or(Malformed::PastTheArray)?;
    let zero = array.get(at + length).ok_or(Malformed::PastTheArray)?;
    if *zero != 0 {
        return Err(Malformed::NoZeroAfterValue);
    }
    Ok((Value::Text(text.to_vec()), at + length + 1))
}

/// Every field that is present is tested, whatever the type of the message.
fn obeys_its_rule(element: &Element) -> bool {
    match &element.value {
        Value::Number(number) => element.code != REPLY_SERIAL || *number != 0,
        Value::Text(text) => match element.code {
            PATH => names::is_path(text),
            INTERFACE => names::is_interface(text),
            MEMBER => names::is_member(text),
            ERROR_NAME => names::is_error_name(text),
            SIGNATURE => is_signature(text),
            _ => names::is_bus_name(text),
        },
    }
}

/// The text of a field; a good name is plain ASCII, so nothing is lost.
fn text_of(elements: &[Element], code: u8) -> Option<String> {
    elements.iter().find(|element| element.code == code).and_then(|element| match &element.value {
        Value::Text(text) => Some(String::from_utf8_lossy(text).into_owned()),
        Value::Number(_) => None,
    })
}

fn number_of(elements: &[Element], code: u8) -> Option<u32> {
    elements.iter().find(|element| element.code == code).and_then(|element| match element.value {
        Value::Number(number) => Some(number),
        Value::Text(_) => None,
    })
}
