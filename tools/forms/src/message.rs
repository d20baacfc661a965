//! Messages as their parts, and their bytes. Nothing here tests whether the parts keep the rules, so that broken messages can
//! be written too.

/// Numbers have the order that byte 0 names.
#[derive(Clone, Copy, Debug, PartialEq, Eq)]
pub enum ByteOrder {
    Little,
    Big,
}

impl ByteOrder {
    pub fn mark(self) -> u8 {
        match self {
            ByteOrder::Little => b'l',
            ByteOrder::Big => b'B',
        }
    }

    pub fn of_mark(mark: u8) -> Option<ByteOrder> {
        [ByteOrder::Little, ByteOrder::Big].into_iter().find(|order| order.mark() == mark)
    }

    pub fn bytes(self, number: u32) -> [u8; 4] {
        match self {
            ByteOrder::Little => number.to_le_bytes(),
            ByteOrder::Big => number.to_be_bytes(),
        }
    }

    /// The number at a place of which four bytes are there.
    pub fn number(self, bytes: &[u8], at: usize) -> u32 {
        let four = [bytes[at], bytes[at + 1], bytes[at + 2], bytes[at + 3]];
        match self {
            ByteOrder::Little => u32::from_le_bytes(four),
            ByteOrder::Big => u32::from_be_bytes(four),
        }
    }
}

/// A header field that the D-Bus Specification gives a meaning: its code, its name and the letter of its type.
#[derive(Clone, Copy, Debug, PartialEq, Eq)]
pub struct FieldKind {
    pub code: u8,
    pub name: &'static str,
    /// The key of a script's `message`.
    pub key: &'static str,
    pub letter: u8,
}

const fn kind(code: u8, name: &'static str, key: &'static str, letter: u8) -> FieldKind {
    FieldKind { code, name, key, letter }
}

pub const FIELDS: [FieldKind; 9] = [
    kind(1, "path", "path", b'o'),
    kind(2, "interface", "interface", b's'),
    kind(3, "member", "member", b's'),
    kind(4, "error name", "error", b's'),
    kind(5, "reply serial", "reply", b'u'),
    kind(6, "destination", "destination", b's'),
    kind(7, "sender", "sender", b's'),
    kind(8, "signature", "signature", b'g'),
    kind(9, "descriptors", "descriptors", b'u'),
];

pub const PATH: u8 = 1;
pub const INTERFACE: u8 = 2;
pub const MEMBER: u8 = 3;
pub const ERROR_NAME: u8 = 4;
pub const REPLY_SERIAL: u8 = 5;
pub const DESTINATION: u8 = 6;
pub const SENDER: u8 = 7;
pub const SIGNATURE: u8 = 8;
pub const DESCRIPTORS: u8 = 9;

pub fn field_kind(code: u8) -> Option<&'static FieldKind> {
    FIELDS.iter().find(|kind| kind.code == code)
}

pub const METHOD_CALL: u8 = 1;
pub const METHOD_RETURN: u8 = 2;
pub const ERROR: u8 = 3;
pub const SIGNAL: u8 = 4;

/// The words of scripts for the types.
pub const TYPES: [(u8, &str); 4] =
    [(METHOD_CALL, "call"), (METHOD_RETURN, "return"), (ERROR, "error"), (SIGNAL, "signal")];

#[derive(Clone, Debug, PartialEq, Eq)]
pub enum FieldValue {
    Text(Vec<u8>),
    Number(u32),
    /// All bytes behind the code, whatever they are.
    Raw(Vec<u8>),
}

#[derive(Clone, Debug, PartialEq, Eq)]
pub struct Field {
    pub code: u8,
    pub value: FieldValue,
}

#[derive(Clone, Debug, PartialEq, Eq)]
pub struct Message {
    pub order: ByteOrder,
    pub message_type: u8,
    pub flags: u8,
    pub version: u8,
    pub serial: u32,
    pub fields: Vec<Field>,
    pub body: Vec<u8>,
}

impl Message {
    pub fn new(message_type: u8, serial: u32) -> Message {
        let (order, fields, body) = (ByteOrder::Little, Vec::new(), Vec::new());
        Message { order, message_type, flags: 0, version: 1, serial, fields, body }
    }

    pub fn text(self, code: u8, value: &str) -> Message {
        self.field(code, FieldValue::Text(value.as_bytes().to_vec()))
    }

    pub fn number(self, code: u8, value: u32) -> Message {
        self.field(code, FieldValue::Number(value))
    }

    pub fn raw(self, code: u8, rest: &[u8]) -> Message {
        self.field(code, FieldValue::Raw(rest.to_vec()))
    }

    /// Fields are written in the order in which they come here.
    pub fn field(mut self, code: u8, value: FieldValue) -> Message {
        self.fields.push(Field { code, value });
        self
    }

    pub fn bytes(&self) -> Vec<u8> {
        let mut bytes = vec![self.order.mark(), self.message_type, self.flags, self.version];
        for number in [self.body.len() as u32, self.serial, 0] {
            bytes.extend(self.order.bytes(number));
        }
        for field in &self.fields {
            pad_to_8(&mut bytes);
            self.write_field(&mut bytes, field);
        }
        let array_length = self.order.bytes((bytes.len() - 16) as u32);
        bytes[12..16].copy_from_slice(&array_length);
        pad_to_8(&mut bytes);
        bytes.extend(&self.body);
        bytes
    }

    fn write_field(&self, bytes: &mut Vec<u8>, field: &Field) {
        let letter = field_kind(field.code).map_or(b's', |kind| kind.letter);
        bytes.push(field.code);
        match &field.value {
            FieldValue::Raw(rest) => bytes.extend(rest),
            FieldValue::Number(number) => {
                bytes.extend([1, b'u', 0]);
                bytes.extend(self.order.bytes(*number));
            }
            FieldValue::Text(text) => {
                bytes.extend([1, letter, 0]);
                match letter {
                    b'g' => bytes.push(text.len() as u8),
                    _ => bytes.extend(self.order.bytes(text.len() as u32)),
                }
                bytes.extend(text);
                bytes.push(0);
            }
        }
    }
}

fn pad_to_8(bytes: &mut Vec<u8>) {
    bytes.resize(bytes.len().next_multiple_of(8), 0);
}
