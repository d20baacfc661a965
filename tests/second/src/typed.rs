//! Values of any type, good and broken ones, and how they are written.

use crate::value::alignment;
use crate::wire::ByteOrder;

/// A value with its type. Nothing here tests whether it keeps the rules.
#[derive(Clone, Debug, PartialEq, Eq)]
pub enum Typed {
    /// A number by its letter, `b` and `h` included.
    Number(u8, u64),
    /// A string, path or signature by its letter.
    Text(u8, Vec<u8>),
    /// The type of the elements, since there may be none.
    Array(Vec<u8>, Vec<Typed>),
    /// What stands between parentheses.
    Struct(Vec<Typed>),
    /// What stands between braces: the key and its value.
    Entry(Box<Typed>, Box<Typed>),
    /// A good one has the signature of its only value.
    Variant(Vec<u8>, Vec<Typed>),
}

impl Typed {
    pub fn text(letter: u8, text: &str) -> Typed {
        Typed::Text(letter, text.as_bytes().to_vec())
    }

    /// An array of at least one element.
    pub fn array(elements: Vec<Typed>) -> Typed {
        Typed::Array(elements[0].signature(), elements)
    }

    pub fn entry(key: Typed, value: Typed) -> Typed {
        Typed::Entry(Box::new(key), Box::new(value))
    }

    pub fn variant(value: Typed) -> Typed {
        Typed::Variant(value.signature(), vec![value])
    }

    pub fn signature(&self) -> Vec<u8> {
        match self {
            Typed::Number(letter, _) | Typed::Text(letter, _) => vec![*letter],
            Typed::Array(element, _) => [b"a", element.as_slice()].concat(),
            Typed::Struct(inside) => {
                let inside: Vec<u8> = inside.iter().flat_map(Typed::signature).collect();
                [b"(", inside.as_slice(), b")"].concat()
            }
            Typed::Entry(key, value) => {
                [b"{".to_vec(), key.signature(), value.signature(), b"}".to_vec()].concat()
            }
            Typed::Variant(..) => b"v".to_vec(),
        }
    }
}

/// Where something stands that can be broken without moving the rest.
#[derive(Clone, Copy, Debug, PartialEq, Eq)]
pub enum Site {
    Padding {
        start: usize,
        end: usize,
    },
    /// The zero behind the signature of a variant.
    SignatureEnd {
        at: usize,
    },
    /// The zero behind a string, path or signature.
    TextEnd {
        at: usize,
    },
    TextLength {
        at: usize,
    },
    ArrayLength {
        at: usize,
    },
}

/// Bytes that begin at a multiple of 8, with the places that can be broken.
pub struct Writer {
    pub order: ByteOrder,
    pub bytes: Vec<u8>,
    pub sites: Vec<Site>,
}

impl Writer {
    /// A whole header field.
    pub fn field(order: ByteOrder, code: u8, variant: &Typed) -> Writer {
        let mut writer = Writer { order, bytes: vec![code], sites: Vec::new() };
        writer.write(variant);
        writer
    }

    pub fn put_u32(&mut self, at: usize, number: u32) {
        self.bytes[at..at + 4].copy_from_slice(&self.order.write_u32(number));
    }

    fn pad(&mut self, boundary: usize) {
        let start = self.bytes.len();
        let end = start.next_multiple_of(boundary);
        self.bytes.resize(end, 0);
        if end > start {
            self.sites.push(Site::Padding { start, end });
        }
    }

    fn write(&mut self, value: &Typed) {
        match value {
            Typed::Number(letter, number) => self.write_number(*letter, *number),
            Typed::Text(letter, text) => self.write_text(*letter, text),
            Typed::Array(element, elements) => self.write_array(element, elements),
            Typed::Struct(inside) => {
                self.pad(8);
                inside.iter().for_each(|value| self.write(value));
            }
            Typed::Entry(key, value) => {
                self.pad(8);
                self.write(key);
                self.write(value);
            }
            Typed::Variant(signature, values) => {
                self.bytes.push(signature.len() as u8);
                self.bytes.extend(signature);
                self.sites.push(Site::SignatureEnd { at: self.bytes.len() });
                self.bytes.push(0);
                values.iter().for_each(|value| self.write(value));
            }
        }
    }

    /// A number has as many bytes as its alignment.
    fn write_number(&mut self, letter: u8, number: u64) {
        let length = alignment(letter);
        self.pad(length);
        match self.order {
            ByteOrder::Little => self.bytes.extend(&number.to_le_bytes()[..length]),
            ByteOrder::Big => self.bytes.extend(&number.to_be_bytes()[8 - length..]),
        }
    }

    fn write_text(&mut self, letter: u8, text: &[u8]) {
        self.pad(alignment(letter));
        if letter == b'g' {
            self.bytes.push(text.len() as u8);
        } else {
            self.sites.push(Site::TextLength { at: self.bytes.len() });
            self.bytes.extend(self.order.write_u32(text.len() as u32));
        }
        self.bytes.extend(text);
        self.sites.push(Site::TextEnd { at: self.bytes.len() });
        self.bytes.push(0);
    }

    fn write_array(&mut self, element: &[u8], elements: &[Typed]) {
        self.pad(4);
        let at = self.bytes.len();
        self.sites.push(Site::ArrayLength { at });
        self.bytes.extend([0; 4]);
        self.pad(alignment(element[0]));
        let start = self.bytes.len();
        elements.iter().for_each(|value| self.write(value));
        self.put_u32(at, (self.bytes.len() - start) as u32);
    }
}
