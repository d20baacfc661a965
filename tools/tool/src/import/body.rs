//! The few values that are read in bodies: what the bus was asked for, and what it said.

use forms::message::ByteOrder;
use forms::policy::{Gid, Uid};

/// A body whose values are read from the front. What does not fit is none.
pub struct Body<'a> {
    order: ByteOrder,
    bytes: &'a [u8],
    at: usize,
}

/// Who a peer is, as far as the bus said it.
#[derive(Clone, Debug, Default, PartialEq, Eq)]
pub struct Credentials {
    pub uid: Option<Uid>,
    pub gids: Option<Vec<Gid>>,
}

impl<'a> Body<'a> {
    pub fn new(order: ByteOrder, bytes: &'a [u8]) -> Body<'a> {
        Body { order, bytes, at: 0 }
    }

    fn align(&mut self, to: usize) {
        self.at = self.at.next_multiple_of(to);
    }

    fn take(&mut self, length: usize) -> Option<&'a [u8]> {
        let taken = self.bytes.get(self.at..)?.get(..length)?;
        self.at += length;
        Some(taken)
    }

    pub fn number(&mut self) -> Option<u32> {
        self.align(4);
        let four = self.take(4)?;
        Some(self.order.number(four, 0))
    }

    pub fn text(&mut self) -> Option<&'a str> {
        let length = self.number()? as usize;
        let text = self.take(length)?;
        self.take(1)?;
        std::str::from_utf8(text).ok()
    }

    fn signature(&mut self) -> Option<&'a [u8]> {
        let length = self.take(1)?[0] as usize;
        let text = self.take(length)?;
        self.take(1)?;
        Some(text)
    }

    /// An array of numbers.
    fn numbers(&mut self) -> Option<Vec<u32>> {
        let length = self.number()? as usize;
        let bytes = self.take(length)?;
        Some(bytes.chunks_exact(4).map(|four| self.order.number(four, 0)).collect())
    }

    /// The dictionary that GetConnectionCredentials gives. An entry of a type that none of its keys has ends the reading.
    pub fn credentials(&mut self) -> Credentials {
        let mut found = Credentials::default();
        let Some(length) = self.number() else { return found };
        self.align(8);
        let end = self.at.saturating_add(length as usize);
        while self.at < end {
            if self.credential(&mut found).is_none() {
                break;
            }
        }
        found
    }

    fn credential(&mut self, found: &mut Credentials) -> Option<()> {
        self.align(8);
        let key = self.text()?;
        match (key, self.signature()?) {
            ("UnixUserID", b"u") => found.uid = Some(Uid(self.number()?)),
            ("UnixGroupIDs", b"au") => found.gids = Some(self.numbers()?.into_iter().map(Gid).collect()),
            (_, b"u" | b"i" | b"b" | b"h") => drop(self.number()?),
            (_, b"s" | b"o") => drop(self.text()?),
            (_, b"ay" | b"au") => {
                let length = self.number()? as usize;
                self.take(length)?;
            }
            (_, b"x" | b"t" | b"d") => {
                self.align(8);
                self.take(8)?;
            }
            _ => return None,
        }
        Some(())
    }
}
