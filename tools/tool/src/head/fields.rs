//! The field array of a head: where each field stands, and answer 7.

use super::boxes::{shown, shown_byte, Boxes};
use super::fixed::{self, Fixed};
use super::{values, FieldAt, HeadFault};
use forms::message::{field_kind, ByteOrder, FieldKind};

/// A field, and where its value stands: the text, the number, or all that is behind the code of an unknown field.
pub struct Found {
    pub field: FieldAt,
    pub from: usize,
    pub to: usize,
}

/// A whole head and the boxes made so far.
pub struct Walk<'a> {
    pub head: &'a [u8],
    pub order: ByteOrder,
    /// The end of the field array. Behind it is padding only.
    pub end: usize,
    pub boxes: &'a mut Boxes,
}

impl<'a> Walk<'a> {
    /// The head is whole, so that the end of the array lies in it or at its end.
    pub fn new(head: &'a [u8], fixed: &Fixed, boxes: &'a mut Boxes) -> Walk<'a> {
        Walk { head, order: fixed.order, end: fixed::LENGTH + fixed.array_length as usize, boxes }
    }

    pub fn fields(&mut self) -> Result<Vec<Found>, HeadFault> {
        let (mut found, mut at) = (Vec::new(), fixed::LENGTH);
        while at < self.end {
            let field = self.field(at, &found)?;
            at = field.field.to;
            found.push(field);
            if at < self.end {
                at = self.padding_between(at)?;
            }
        }
        self.zeros(at, self.head.len(), "padding-after-array", "behind the array")?;
        Ok(found)
    }

    fn padding_between(&mut self, at: usize) -> Result<usize, HeadFault> {
        let next = at.next_multiple_of(8);
        if next >= self.end {
            let what = format!("the last field ends at byte {at}, and the array only at byte {}", self.end);
            return Err(broken("ends-in-padding", at, what, "the end of the array"));
        }
        self.zeros(at, next, "padding-between", "between two fields")?;
        Ok(next)
    }

    /// Padding, which is zeros.
    pub fn zeros(
        &mut self,
        from: usize,
        to: usize,
        kind: &'static str,
        place: &str,
    ) -> Result<(), HeadFault> {
        self.boxes.put(from, to, "padding", String::new);
        match (from..to).find(|&at| self.head[at] != 0) {
            Some(at) => Err(broken(kind, at, format!("the padding {place} is not zero"), "00")),
            None => Ok(()),
        }
    }

    fn field(&mut self, at: usize, before: &[Found]) -> Result<Found, HeadFault> {
        let code = self.head[at];
        let kind = field_kind(code);
        self.boxes.put(at, at + 1, "code", || match (code, kind) {
            (0, _) => "0".to_string(),
            (_, Some(kind)) => kind.name.to_string(),
            (_, None) => "unknown".to_string(),
        });
        if code == 0 {
            return Err(broken("code-zero", at, "the code of a field is 0", "a code, 01 to ff"));
        }
        let (from, to, end) = match kind {
            None => {
                let end = values::unknown(self, code, at + 1)?;
                (at + 1, end, end)
            }
            Some(kind) if before.iter().any(|other| other.field.code == code) => {
                let what = format!("{} stands there twice", named(kind));
                return Err(broken("repeated-code", at, what, "a code that no field before it has"));
            }
            Some(kind) => self.known(kind, at)?,
        };
        Ok(Found { field: FieldAt { code, from: at, to: end }, from, to })
    }

    /// Where the value of a known field stands, and where the field ends.
    fn known(&mut self, kind: &FieldKind, at: usize) -> Result<(usize, usize, usize), HeadFault> {
        self.letter(kind, at)?;
        let at = at + 4;
        match kind.letter {
            b'u' => {
                let number = self.number(kind, at)?;
                self.boxes.put(at, at + 4, kind.name, || number.to_string());
                Ok((at, at + 4, at + 4))
            }
            b'g' => {
                let length = usize::from(self.byte(kind, at)?);
                self.boxes.put(at, at + 1, "length", || length.to_string());
                self.text(kind, at, at + 1, length)
            }
            _ => {
                let length = self.number(kind, at)? as usize;
                self.boxes.put(at, at + 4, "length", || length.to_string());
                self.text(kind, at, at + 4, length)
            }
        }
    }

    /// The three bytes behind the code: the number 1, the letter, a zero.
    fn letter(&mut self, kind: &FieldKind, at: usize) -> Result<(), HeadFault> {
        let letter = char::from(kind.letter);
        let name = format!("type '{letter}'");
        self.boxes.put(at + 1, self.end.min(at + 4), &name, || values::type_name(kind.letter).to_string());
        let told = named(kind);
        let length = self.byte(kind, at + 1)?;
        if length != 1 {
            let what = format!("the signature of {told} has the length {length}, not 1");
            return Err(broken("signature-length", at + 1, what, "01"));
        }
        let has = self.byte(kind, at + 2)?;
        if has != kind.letter {
            let what = format!("{told} has the type '{}', not '{letter}'", shown_byte(has));
            return Err(broken("wrong-letter", at + 2, what, format!("{:02x} ({letter})", kind.letter)));
        }
        if self.byte(kind, at + 3)? != 0 {
            let what = format!("behind the letter of {told} is no zero");
            return Err(broken("no-zero-after-letter", at + 3, what, "00"));
        }
        Ok(())
    }

    /// A text whose length stands at `length_at`, and its zero.
    fn text(
        &mut self,
        kind: &FieldKind,
        length_at: usize,
        from: usize,
        length: usize,
    ) -> Result<(usize, usize, usize), HeadFault> {
        let room = self.end - from;
        if length >= room {
            let what =
                format!("{} has {length} bytes and a zero, and the array has only {room} more", named(kind));
            let wanted = match room {
                0 => "a longer array".to_string(),
                room => format!("a number up to {}", room - 1),
            };
            return Err(broken("past-the-array", length_at, what, wanted));
        }
        let to = from + length;
        let text = &self.head[from..to];
        self.boxes.put(from, to, kind.name, || shown(text));
        self.boxes.put(to, to + 1, "zero", String::new);
        if self.head[to] != 0 {
            let what = format!("behind the text of {}, as its length says, is no zero", named(kind));
            return Err(broken("no-zero-after-value", to, what, "00"));
        }
        Ok((from, to, to + 1))
    }

    fn byte(&self, kind: &FieldKind, at: usize) -> Result<u8, HeadFault> {
        if at < self.end {
            return Ok(self.head[at]);
        }
        Err(self.past(kind))
    }

    fn number(&self, kind: &FieldKind, at: usize) -> Result<u32, HeadFault> {
        if at + 4 <= self.end {
            return Ok(self.order.number(self.head, at));
        }
        Err(self.past(kind))
    }

    /// The field wants more bytes than the array has.
    fn past(&self, kind: &FieldKind) -> HeadFault {
        let what = format!("inside {} the array ends", named(kind));
        broken("past-the-array", self.in_head(self.end), what, "more bytes of the field, inside the array")
    }

    /// A byte of the head; for one behind it the array's length, which says that there are no more.
    pub fn in_head(&self, at: usize) -> usize {
        match at < self.head.len() {
            true => at,
            false => fixed::ARRAY_LENGTH_AT,
        }
    }
}

fn named(kind: &FieldKind) -> String {
    format!("field {}, {},", kind.code, kind.name)
}

pub fn broken(
    kind: &'static str,
    at: usize,
    what: impl Into<String>,
    wanted: impl Into<String>,
) -> HeadFault {
    HeadFault::new(7, kind, at, what, wanted)
}
