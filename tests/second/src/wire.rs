//! Numbers on the wire, and the fixed 16 bytes with which every message begins.

use crate::header::HeadFault;

pub const FIXED_LENGTH: usize = 16;
pub const MAX_ARRAY_LENGTH: u32 = 2_032;
pub const MAX_MESSAGE_LENGTH: u64 = 134_217_728;
pub const NO_REPLY_EXPECTED: u8 = 1;

#[derive(Clone, Copy, Debug, PartialEq, Eq)]
pub enum ByteOrder {
    Little,
    Big,
}

impl ByteOrder {
    pub fn of_mark(mark: u8) -> Option<ByteOrder> {
        match mark {
            b'l' => Some(ByteOrder::Little),
            b'B' => Some(ByteOrder::Big),
            _ => None,
        }
    }

    pub fn mark(self) -> u8 {
        match self {
            ByteOrder::Little => b'l',
            ByteOrder::Big => b'B',
        }
    }

    /// Reads the number at `at`; the caller knows that four bytes stand there.
    pub fn read_u32(self, bytes: &[u8], at: usize) -> u32 {
        let four = [bytes[at], bytes[at + 1], bytes[at + 2], bytes[at + 3]];
        match self {
            ByteOrder::Little => u32::from_le_bytes(four),
            ByteOrder::Big => u32::from_be_bytes(four),
        }
    }

    pub fn write_u32(self, value: u32) -> [u8; 4] {
        match self {
            ByteOrder::Little => value.to_le_bytes(),
            ByteOrder::Big => value.to_be_bytes(),
        }
    }
}

/// Rounds up to the next multiple of 8, the alignment of header fields.
pub fn round_up_to_8(length: u64) -> u64 {
    length.div_ceil(8) * 8
}

/// What the first 16 bytes say, once none of answers 1 to 6 applies.
#[derive(Clone, Copy, Debug, PartialEq, Eq)]
pub struct FixedPart {
    pub order: ByteOrder,
    pub message_type: u8,
    pub flags: u8,
    pub body_length: u32,
    pub serial: u32,
    pub array_length: u32,
}

impl FixedPart {
    /// Tests answers 1 to 6 in their order.
    pub fn read(head: &[u8]) -> Result<FixedPart, HeadFault> {
        let order = ByteOrder::of_mark(head[0]).ok_or(HeadFault::ByteOrder)?;
        let fixed = FixedPart {
            order,
            message_type: head[1],
            flags: head[2],
            body_length: order.read_u32(head, 4),
            serial: order.read_u32(head, 8),
            array_length: order.read_u32(head, 12),
        };
        let version = head[3];
        if version != 1 {
            return Err(HeadFault::Version);
        }
        if fixed.message_type == 0 {
            return Err(HeadFault::TypeZero);
        }
        if fixed.serial == 0 {
            return Err(HeadFault::SerialZero);
        }
        if fixed.array_length > MAX_ARRAY_LENGTH {
            return Err(HeadFault::ArrayTooLong);
        }
        if fixed.message_length() > MAX_MESSAGE_LENGTH {
            return Err(HeadFault::MessageTooLong);
        }
        Ok(fixed)
    }

    /// The head ends with the padding behind the field array.
    pub fn head_length(&self) -> u64 {
        FIXED_LENGTH as u64 + round_up_to_8(u64::from(self.array_length))
    }

    pub fn message_length(&self) -> u64 {
        self.head_length() + u64::from(self.body_length)
    }

    pub fn expects_reply(&self) -> bool {
        self.flags & NO_REPLY_EXPECTED == 0
    }
}
