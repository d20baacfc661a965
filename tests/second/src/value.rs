//! Header fields that the rules do not know: their values are walked by their signatures and
//! then passed over.

use crate::names::is_path;
use crate::signature::{is_signature, types_of};
use crate::utf8::{self, Utf8Fault};
use crate::wire::ByteOrder;
use std::collections::BTreeSet;

/// The most containers round a value, itself included: a dict entry is one beside its array, and the
/// variant that every field is counts too.
pub const MAX_OPEN: usize = 64;

/// What can be wrong with a value or with the signature in front of it.
#[derive(Clone, Copy, Debug, PartialEq, Eq, PartialOrd, Ord)]
pub enum ValueFault {
    NotASignature,
    NoType,
    SeveralTypes,
    NoZeroAfterSignature,
    PastTheArray,
    /// The field array ends inside padding that leads up to a value or to where elements would begin.
    CutPadding,
    Padding,
    Boolean,
    NoZeroAfterText,
    ZeroInText,
    Text(Utf8Fault),
    NotAPath,
    NotASignatureValue,
    ArrayEnd,
    TooManyOpen,
}

impl ValueFault {
    /// All of them, so that a test can tell which it never met.
    pub const ALL: [ValueFault; 19] = [
        ValueFault::NotASignature,
        ValueFault::NoType,
        ValueFault::SeveralTypes,
        ValueFault::NoZeroAfterSignature,
        ValueFault::PastTheArray,
        ValueFault::CutPadding,
        ValueFault::Padding,
        ValueFault::Boolean,
        ValueFault::NoZeroAfterText,
        ValueFault::ZeroInText,
        ValueFault::Text(Utf8Fault::Overlong),
        ValueFault::Text(Utf8Fault::Surrogate),
        ValueFault::Text(Utf8Fault::AboveUnicode),
        ValueFault::Text(Utf8Fault::CutSequence),
        ValueFault::Text(Utf8Fault::StrayByte),
        ValueFault::NotAPath,
        ValueFault::NotASignatureValue,
        ValueFault::ArrayEnd,
        ValueFault::TooManyOpen,
    ];
}

type Walked = Result<(), ValueFault>;

/// What a field turned out to hold, for people and tests.
#[derive(Clone, Debug, Default, PartialEq, Eq)]
pub struct UnknownField {
    pub code: u8,
    /// The first letters of all types that were walked, `a`, `(` and `{` among them.
    pub letters: BTreeSet<u8>,
    pub has_empty_array: bool,
    /// The most that were open at once, the field's own variant included.
    pub deepest: usize,
}

/// The boundary to which a value is aligned. Numbers have the same length.
pub fn alignment(letter: u8) -> usize {
    match letter {
        b'n' | b'q' => 2,
        b'b' | b'i' | b'u' | b'h' | b's' | b'o' | b'a' => 4,
        b'x' | b't' | b'd' | b'(' | b'{' => 8,
        _ => 1,
    }
}

/// A walk through one field, from its code on.
pub struct Walk<'a> {
    order: ByteOrder,
    /// The message up to the end of its field array, since alignment counts from its first byte.
    bytes: &'a [u8],
    at: usize,
    open: usize,
    /// A fault to be overlooked, by which tests see whether it is the only one.
    forgiven: Option<ValueFault>,
    field: UnknownField,
}

impl<'a> Walk<'a> {
    pub fn new(order: ByteOrder, bytes: &'a [u8], forgiven: Option<ValueFault>) -> Walk<'a> {
        Walk { order, bytes, at: 0, open: 0, forgiven, field: UnknownField::default() }
    }

    /// Walks the field whose code stands at `at`; says what it holds and where it ends.
    pub fn field(mut self, at: usize) -> Result<(UnknownField, usize), ValueFault> {
        self.at = at;
        self.field.code = self.take(1)?[0];
        self.variant()?;
        Ok((self.field, self.at))
    }

    fn check(&self, holds: bool, fault: ValueFault) -> Walked {
        match holds || self.forgiven == Some(fault) {
            true => Ok(()),
            false => Err(fault),
        }
    }

    fn take(&mut self, length: usize) -> Result<&'a [u8], ValueFault> {
        let taken = self.bytes.get(self.at..self.at + length).ok_or(ValueFault::PastTheArray)?;
        self.at += length;
        Ok(taken)
    }

    fn take_u32(&mut self) -> Result<u32, ValueFault> {
        let four = self.take(4)?;
        Ok(self.order.read_u32(four, 0))
    }

    fn take_zero(&mut self, fault: ValueFault) -> Walked {
        let zero = self.take(1)?[0];
        self.check(zero == 0, fault)
    }

    fn pad(&mut self, boundary: usize) -> Walked {
        let next = self.at.next_multiple_of(boundary);
        if next > self.bytes.len() {
            self.check(false, ValueFault::CutPadding)?;
            self.at = self.bytes.len();
            return Ok(());
        }
        let padding = &self.bytes[self.at..next];
        self.check(padding.iter().all(|&byte| byte == 0), ValueFault::Padding)?;
        self.at = next;
        Ok(())
    }

    fn enter(&mut self) -> Walked {
        self.open += 1;
        self.field.deepest = self.field.deepest.max(self.open);
        self.check(self.open <= MAX_OPEN, ValueFault::TooManyOpen)
    }

    fn leave(&mut self) {
        self.open -= 1;
    }

    /// Walks a value of one complete type, or of a dict entry's type.
    fn value(&mut self, one_type: &[u8]) -> Walked {
        let letter = one_type[0];
        self.field.letters.insert(letter);
        self.pad(alignment(letter))?;
        match letter {
            b'a' => self.array(&one_type[1..]),
            b'(' | b'{' => self.group(&one_type[1..one_type.len() - 1]),
            b'v' => self.variant(),
            b's' => self.string(),
            b'o' => self.path(),
            b'g' => self.signature(),
            b'b' => self.boolean(),
            _ => self.take(alignment(letter)).map(|_| ()),
        }
    }

    fn variant(&mut self) -> Walked {
        self.enter()?;
        let length = self.take(1)?[0];
        let signature = self.take(usize::from(length))?;
        self.take_zero(ValueFault::NoZeroAfterSignature)?;
        let types = types_of(signature).ok_or(ValueFault::NotASignature)?;
        self.check(!types.is_empty(), ValueFault::NoType)?;
        self.check(types.len() <= 1, ValueFault::SeveralTypes)?;
        for one_type in types {
            self.value(one_type)?;
        }
        self.leave();
        Ok(())
    }

    /// The length leaves out the padding before the first element, which is there even where
    /// no element follows.
    fn array(&mut self, element: &[u8]) -> Walked {
        self.enter()?;
        let length = self.take_u32()?;
        self.pad(alignment(element[0]))?;
        let end = self.at + length as usize;
        self.field.has_empty_array |= length == 0;
        while self.at < end {
            self.value(element)?;
        }
        self.check(self.at == end, ValueFault::ArrayEnd)?;
        self.leave();
        Ok(())
    }

    /// What stands between parentheses or braces.
    fn group(&mut self, inside: &[u8]) -> Walked {
        self.enter()?;
        for one_type in types_of(inside).ok_or(ValueFault::NotASignature)? {
            self.value(one_type)?;
        }
        self.leave();
        Ok(())
    }

    fn boolean(&mut self) -> Walked {
        let number = self.take_u32()?;
        self.check(number <= 1, ValueFault::Boolean)
    }

    fn string(&mut self) -> Walked {
        let length = self.take_u32()?;
        let text = self.text(length as usize)?;
        self.check(!text.contains(&0), ValueFault::ZeroInText)?;
        for fault in utf8::faults(text) {
            self.check(false, ValueFault::Text(fault))?;
        }
        Ok(())
    }

    fn path(&mut self) -> Walked {
        let length = self.take_u32()?;
        let text = self.text(length as usize)?;
        self.check(is_path(text), ValueFault::NotAPath)
    }

    fn signature(&mut self) -> Walked {
        let length = self.take(1)?[0];
        let text = self.text(usize::from(length))?;
        self.check(is_signature(text), ValueFault::NotASignatureValue)
    }

    /// A text behind its length, and the zero behind it.
    fn text(&mut self, length: usize) -> Result<&'a [u8], ValueFault> {
        let text = self.take(length)?;
        self.take_zero(ValueFault::NoZeroAfterText)?;
        Ok(text)
    }
}
