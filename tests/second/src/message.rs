//! Building messages, good ones and broken ones, for tests and generated captures.

use crate::header::{
    letter_of, DESTINATION, ERROR, ERROR_NAME, INTERFACE, MEMBER, METHOD_CALL, METHOD_RETURN, PATH,
    REPLY_SERIAL, SENDER, SIGNAL, SIGNATURE, UNIX_FDS,
};
use crate::typed::{Typed, Writer};
use crate::wire::{ByteOrder, FIXED_LENGTH};

#[derive(Clone, Debug, PartialEq, Eq)]
pub enum FieldValue {
    Text(Vec<u8>),
    Number(u32),
    /// A value of any type; the letter means nothing then.
    Variant(Typed),
    /// All bytes behind the code, whatever they are; nor does it here.
    Raw(Vec<u8>),
}

#[derive(Clone, Debug, PartialEq, Eq)]
pub struct Field {
    pub code: u8,
    pub letter: u8,
    pub value: FieldValue,
}

/// A message as its parts. Nothing here tests whether the parts keep the rules.
#[derive(Clone, Debug, PartialEq, Eq)]
pub struct Message {
    pub order: ByteOrder,
    pub message_type: u8,
    pub flags: u8,
    pub version: u8,
    pub serial: u32,
    pub fields: Vec<Field>,
    pub body: Vec<u8>,
}

/// The bytes of a message, with the ranges at which its fields stand.
#[derive(Clone, Debug, PartialEq, Eq)]
pub struct Marshalled {
    pub bytes: Vec<u8>,
    pub fields: Vec<std::ops::Range<usize>>,
    pub head_length: usize,
}

impl Message {
    pub fn new(message_type: u8, serial: u32) -> Message {
        Message {
            order: ByteOrder::Little,
            message_type,
            flags: 0,
            version: 1,
            serial,
            fields: Vec::new(),
            body: Vec::new(),
        }
    }

    pub fn call(serial: u32, path: &str, member: &str) -> Message {
        Message::new(METHOD_CALL, serial).text(PATH, path).text(MEMBER, member)
    }

    pub fn signal(serial: u32, path: &str, interface: &str, member: &str) -> Message {
        Message::new(SIGNAL, serial).text(PATH, path).text(INTERFACE, interface).text(MEMBER, member)
    }

    pub fn method_return(serial: u32, reply_serial: u32) -> Message {
        Message::new(METHOD_RETURN, serial).number(REPLY_SERIAL, reply_serial)
    }

    pub fn error(serial: u32, reply_serial: u32, name: &str) -> Message {
        Message::new(ERROR, serial).text(ERROR_NAME, name).number(REPLY_SERIAL, reply_serial)
    }

    pub fn text(self, code: u8, value: &str) -> Message {
        self.bytes_field(code, value.as_bytes())
    }

    pub fn bytes_field(mut self, code: u8, value: &[u8]) -> Message {
        let letter = letter_of(code).unwrap_or(b's');
        self.fields.push(Field { code, letter, value: FieldValue::Text(value.to_vec()) });
        self
    }

    pub fn number(mut self, code: u8, value: u32) -> Message {
        self.fields.push(Field { code, letter: b'u', value: FieldValue::Number(value) });
        self
    }

    /// A field with a variant of any type, good or broken.
    pub fn variant(mut self, code: u8, variant: Typed) -> Message {
        self.fields.push(Field { code, letter: 0, value: FieldValue::Variant(variant) });
        self
    }

    pub fn raw(mut self, code: u8, rest: &[u8]) -> Message {
        self.fields.push(Field { code, letter: 0, value: FieldValue::Raw(rest.to_vec()) });
        self
    }

    pub fn to(self, destination: &str) -> Message {
        self.text(DESTINATION, destination)
    }

    pub fn interface(self, interface: &str) -> Message {
        self.text(INTERFACE, interface)
    }

    pub fn sender(self, sender: &str) -> Message {
        self.text(SENDER, sender)
    }

    pub fn signature(self, signature: &str) -> Message {
        self.text(SIGNATURE, signature)
    }

    pub fn descriptors(self, count: u32) -> Message {
        self.number(UNIX_FDS, count)
    }

    pub fn flags(self, flags: u8) -> Message {
        Message { flags, ..self }
    }

    pub fn order(self, order: ByteOrder) -> Message {
        Message { order, ..self }
    }

    pub fn body(self, body: &[u8]) -> Message {
        Message { body: body.to_vec(), ..self }
    }

    pub fn bytes(&self) -> Vec<u8> {
        self.marshal().bytes
    }

    pub fn marshal(&self) -> Marshalled {
        let mut bytes = vec![self.order.mark(), self.message_type, self.flags, self.version];
        bytes.extend(self.order.write_u32(self.body.len() as u32));
        bytes.extend(self.order.write_u32(self.serial));
        bytes.extend([0; 4]);
        let mut fields = Vec::new();
        for field in &self.fields {
            pad_to_8(&mut bytes);
            let start = bytes.len();
            write_field(&mut bytes, self.order, field);
            fields.push(start..bytes.len());
        }
        let array_length = (bytes.len() - FIXED_LENGTH) as u32;
        bytes[12..16].copy_from_slice(&self.order.write_u32(array_length));
        pad_to_8(&mut bytes);
        let head_length = bytes.len();
        bytes.extend(&self.body);
        Marshalled { bytes, fields, head_length }
    }
}

fn pad_to_8(bytes: &mut Vec<u8>) {
    while !bytes.len().is_multiple_of(8) {
        bytes.push(0);
    }
}

fn write_field(bytes: &mut Vec<u8>, order: ByteOrder, field: &Field) {
    match &field.value {
        FieldValue::Number(number) => {
            bytes.extend([field.code, 1, field.letter, 0]);
            bytes.extend(order.write_u32(*number));
        }
        FieldValue::Text(text) => {
            bytes.extend([field.code, 1, field.letter, 0]);
            write_text(bytes, order, field.letter, text);
        }
        FieldValue::Variant(variant) => {
            // A field begins at a multiple of 8, so its bytes are the same wherever it stands.
            bytes.extend(Writer::field(order, field.code, variant).bytes);
        }
        FieldValue::Raw(rest) => {
            bytes.push(field.code);
            bytes.extend(rest);
        }
    }
}

/// The letter decides how a text's length is written; a wrong letter is kept as it is.
fn write_text(bytes: &mut Vec<u8>, order: ByteOrder, letter: u8, text: &[u8]) {
    if letter == b'g' {
        bytes.push(text.len() as u8);
    } else {
        bytes.extend(order.write_u32(text.len() as u32));
    }
    bytes.extend(text);
    bytes.push(0);
}
