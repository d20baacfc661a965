//! A peer's byte stream: the message that is being read, or the head that broke it.

use crate::header::{HeadFault, Header};
use crate::wire::{FixedPart, FIXED_LENGTH};

/// What a byte did to the stream it joined.
#[derive(Clone, Debug, PartialEq, Eq)]
pub enum Step {
    /// The message goes on.
    Continues,
    /// The byte broke the head; the stream is closed for good.
    Broke(HeadFault),
    /// The byte was the last of this message.
    Ended(Header),
}

#[derive(Clone, Debug, Default, PartialEq, Eq)]
pub struct Stream {
    /// Bytes taken of the unfinished or broken message, body bytes too.
    count: u64,
    /// The head bytes among them.
    head: Vec<u8>,
    /// The head once it is whole and has no fault.
    header: Option<Header>,
    closed: bool,
}

impl Stream {
    pub fn is_closed(&self) -> bool {
        self.closed
    }

    pub fn count(&self) -> u64 {
        self.count
    }

    /// The head bytes of the unfinished or broken message.
    pub fn head(&self) -> &[u8] {
        &self.head
    }

    /// How many bytes the current message still needs, if its fixed part is there.
    pub fn wanted(&self) -> Option<u64> {
        let fixed = FixedPart::read(self.head.get(..FIXED_LENGTH)?).ok()?;
        Some(fixed.message_length() - self.count)
    }

    /// Takes one byte of an open stream.
    pub fn take(&mut self, byte: u8) -> Step {
        self.count += 1;
        if self.header.is_none() {
            self.head.push(byte);
            if let Err(fault) = self.test_head() {
                self.closed = true;
                return Step::Broke(fault);
            }
        }
        match &self.header {
            Some(header) if header.fixed.message_length() == self.count => {
                let header = header.clone();
                *self = Stream::default();
                Step::Ended(header)
            }
            _ => Step::Continues,
        }
    }

    /// Faults 1 to 6 are found at byte 16, faults 7 to 9 at the last byte of the head.
    fn test_head(&mut self) -> Result<(), HeadFault> {
        if self.head.len() < FIXED_LENGTH {
            return Ok(());
        }
        let fixed = FixedPart::read(&self.head)?;
        if self.count == fixed.head_length() {
            self.header = Some(Header::read(&self.head)?);
        }
        Ok(())
    }
}
