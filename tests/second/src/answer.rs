//! The answer numbers of the paper, and who receives a passed message.

/// Every answer a call can give, with the paper's number as its value.
/// Number 51 is left out: it speaks of guard memory, and there is none here.
#[derive(Clone, Copy, Debug, PartialEq, Eq, PartialOrd, Ord)]
pub enum Answer {
    Done = 0,
    ByteOrder = 1,
    Version = 2,
    TypeZero = 3,
    SerialZero = 4,
    ArrayTooLong = 5,
    MessageTooLong = 6,
    ArrayMalformed = 7,
    BadValue = 8,
    FieldMissing = 9,
    Unfinished = 10,
    UnknownType = 20,
    DestinationIsNobody = 21,
    SendDenied = 22,
    ReceiveDenied = 23,
    ReplyNotAwaited = 24,
    AlreadyWaits = 25,
    TooManyWaits = 26,
    NoSuchPeer = 30,
    NotAName = 31,
    OwnDenied = 32,
    OwnedByAnother = 33,
    TooManyNames = 34,
    NotItsName = 35,
    ConnectDenied = 36,
    TooManyGids = 37,
    SlotsFull = 38,
    NumbersUsedUp = 39,
    StreamClosed = 40,
    TickTooLow = 41,
    BadImage = 50,
    /// The last two come from the converter alone.
    TooLarge = 53,
    BadList = 54,
}

/// The answers that each call can give.
pub const ANSWERS_OF_CALLS: [(&str, &[u32]); 7] = [
    ("start", &[0]),
    ("connect", &[0, 36, 37, 38, 39, 50]),
    ("own", &[0, 30, 31, 32, 33, 34, 50]),
    ("release", &[0, 30, 31, 35]),
    ("piece", &[0, 1, 2, 3, 4, 5, 6, 7, 8, 9, 10, 20, 21, 22, 23, 24, 25, 26, 30, 40, 50]),
    ("disconnect", &[0, 30]),
    ("tick", &[0, 41]),
];

impl Answer {
    pub fn number(self) -> u32 {
        self as u32
    }

    pub fn ends_an_offer(self) -> bool {
        ends_an_offer(self.number())
    }
}

/// Offering a piece goes on after every answer but these.
pub fn ends_an_offer(number: u32) -> bool {
    matches!(number, 1..=9 | 30..=51)
}

/// Who gets a message that passed.
#[derive(Clone, Copy, Debug, PartialEq, Eq)]
pub enum Receiver {
    Nobody,
    Bus,
    Peer(u32),
    Slots(u16),
}
