//! The forms of names and the parts that a name is put together from, for making names and for
//! telling what is wrong with one. Whether a text is a name is asked of the rules themselves.

use crate::header::{DESTINATION, ERROR_NAME, INTERFACE, MEMBER, PATH, SENDER};
use crate::names;

#[derive(Clone, Copy, Debug, PartialEq, Eq)]
pub enum Form {
    Interface,
    ErrorName,
    Member,
    WellKnown,
    Unique,
    Path,
}

impl Form {
    pub const ALL: [Form; 6] =
        [Form::Interface, Form::ErrorName, Form::Member, Form::WellKnown, Form::Unique, Form::Path];

    /// The form that a header field asks for. A bus name is unique where a colon is in front.
    pub fn of_field(code: u8, text: &[u8]) -> Option<Form> {
        match code {
            PATH => Some(Form::Path),
            INTERFACE => Some(Form::Interface),
            MEMBER => Some(Form::Member),
            ERROR_NAME => Some(Form::ErrorName),
            DESTINATION | SENDER if text.first() == Some(&b':') => Some(Form::Unique),
            DESTINATION | SENDER => Some(Form::WellKnown),
            _ => None,
        }
    }

    pub fn name(self) -> &'static str {
        match self {
            Form::Interface => "interface",
            Form::ErrorName => "error name",
            Form::Member => "member",
            Form::WellKnown => "well-known name",
            Form::Unique => "unique name",
            Form::Path => "path",
        }
    }

    pub fn is_kept_by(self, text: &[u8]) -> bool {
        match self {
            Form::Interface => names::is_interface(text),
            Form::ErrorName => names::is_error_name(text),
            Form::Member => names::is_member(text),
            Form::WellKnown => names::is_well_known(text),
            Form::Unique => names::is_unique(text),
            Form::Path => names::is_path(text),
        }
    }

    /// What stands in front of the first element.
    pub fn mark(self) -> Option<u8> {
        match self {
            Form::Unique => Some(b':'),
            Form::Path => Some(b'/'),
            _ => None,
        }
    }

    /// What stands between two elements.
    pub fn separator(self) -> Option<u8> {
        match self {
            Form::Member => None,
            Form::Path => Some(b'/'),
            _ => Some(b'.'),
        }
    }

    pub fn fewest_elements(self) -> usize {
        match self {
            Form::Member | Form::Path => 1,
            _ => 2,
        }
    }

    /// Whether the byte may stand inside an element.
    pub fn is_character(self, byte: u8) -> bool {
        self.separator() != Some(byte) && self.has_elements_like(&[b'a', byte, b'a'])
    }

    pub fn is_led_by_digits(self) -> bool {
        self.has_elements_like(b"1a")
    }

    fn has_elements_like(self, element: &[u8]) -> bool {
        self.is_kept_by(&self.join(&vec![element.to_vec(); self.fewest_elements()]))
    }

    pub fn join(self, elements: &[Vec<u8>]) -> Vec<u8> {
        [self.mark().as_slice(), &elements.join(self.separator().as_slice())].concat()
    }

    /// The elements of a text, good or bad; none where the mark is missing in front of them.
    pub fn split(self, text: &[u8]) -> Option<Vec<Vec<u8>>> {
        let rest = text.strip_prefix(self.mark().as_slice())?;
        Some(rest.split(|byte| self.separator() == Some(*byte)).map(<[u8]>::to_vec).collect())
    }
}
