//! Recordings as `dbus-monitor --pcap` and `busctl capture` write them: one packet is one message.

use super::pcapng::Blocks;
use forms::message::ByteOrder;

/// The number of D-Bus among the kinds of traffic that such a file can hold.
pub const DBUS_LINK: u32 = 231;

/// A message as it was recorded.
#[derive(Clone, Copy, Debug, PartialEq, Eq)]
pub struct Packet<'a> {
    /// Where its record begins in the file.
    pub at: usize,
    pub bytes: &'a [u8],
    /// How long it was; a recording may keep less.
    pub length: u32,
}

/// Where a recording is broken, and how.
#[derive(Clone, Debug, PartialEq, Eq)]
pub struct PcapFault {
    pub at: usize,
    pub what: String,
}

impl PcapFault {
    pub fn new(at: usize, what: impl Into<String>) -> PcapFault {
        PcapFault { at, what: what.into() }
    }
}

/// What is left to read, and where that is in the file. Nothing is copied, so a length costs nothing until it is tested.
#[derive(Clone, Debug)]
pub struct Rest<'a> {
    pub file: &'a [u8],
    pub at: usize,
    pub order: ByteOrder,
}

impl<'a> Rest<'a> {
    pub fn is_empty(&self) -> bool {
        self.at == self.file.len()
    }

    pub fn take(&mut self, length: u32, what: &str) -> Result<&'a [u8], PcapFault> {
        let left = &self.file[self.at..];
        let Some(taken) = left.get(..length as usize) else {
            let what = format!("{what} has {length} bytes, and only {} are left", left.len());
            return Err(PcapFault::new(self.at, what));
        };
        self.at += taken.len();
        Ok(taken)
    }

    pub fn number(&mut self, what: &str) -> Result<u32, PcapFault> {
        let four = self.take(4, what)?;
        Ok(self.order.number(four, 0))
    }

    /// Two bytes behind each other.
    pub fn short(&mut self, what: &str) -> Result<u16, PcapFault> {
        let two = self.take(2, what)?;
        Ok(match self.order {
            ByteOrder::Little => u16::from_le_bytes([two[0], two[1]]),
            ByteOrder::Big => u16::from_be_bytes([two[0], two[1]]),
        })
    }
}

pub fn check_link(link: u32, at: usize) -> Result<(), PcapFault> {
    match link {
        DBUS_LINK => Ok(()),
        link => Err(PcapFault::new(at, format!("traffic of link type {link}, wanted {DBUS_LINK}, D-Bus"))),
    }
}

/// The packets of a file, one by one; the first fault is the last item.
pub enum Packets<'a> {
    Classic(Classic<'a>),
    Blocks(Blocks<'a>),
    /// Behind a fault nothing is read.
    Ended,
}

/// Both numbers that a classic file may begin with: its times are in microseconds or in nanoseconds.
const MAGICS: [u32; 2] = [0xa1b2_c3d4, 0xa1b2_3c4d];

/// The first number of the other form, which is the same in both byte orders.
const BLOCKS_MAGIC: [u8; 4] = [0x0a, 0x0d, 0x0d, 0x0a];

impl<'a> Packets<'a> {
    pub fn open(file: &'a [u8]) -> Result<Packets<'a>, PcapFault> {
        let mut rest = Rest { file, at: 0, order: ByteOrder::Little };
        let magic = rest.take(4, "the first number of a recording")?;
        if magic == BLOCKS_MAGIC {
            return Ok(Packets::Blocks(Blocks::open(file)));
        }
        let is_order = |order: &ByteOrder| MAGICS.contains(&order.number(magic, 0));
        match [ByteOrder::Little, ByteOrder::Big].into_iter().find(is_order) {
            Some(order) => Classic::open(Rest { order, ..rest }).map(Packets::Classic),
            None => Err(PcapFault::new(0, "this is no pcap file: none begins with these four bytes")),
        }
    }

    fn read(&mut self) -> Option<Result<Packet<'a>, PcapFault>> {
        match self {
            Packets::Classic(classic) => classic.read(),
            Packets::Blocks(blocks) => blocks.read().transpose(),
            Packets::Ended => None,
        }
    }
}

impl<'a> Iterator for Packets<'a> {
    type Item = Result<Packet<'a>, PcapFault>;

    fn next(&mut self) -> Option<Self::Item> {
        let next = self.read();
        if matches!(next, None | Some(Err(_))) {
            *self = Packets::Ended;
        }
        next
    }
}

/// The classic form: a header of 24 bytes, then records, each with four numbers in front.
pub struct Classic<'a> {
    rest: Rest<'a>,
}

impl<'a> Classic<'a> {
    fn open(mut rest: Rest<'a>) -> Result<Classic<'a>, PcapFault> {
        let version = (rest.short("the version")?, rest.short("the version")?);
        if version != (2, 4) {
            let what = format!("a pcap file of version {}.{}, wanted 2.4", version.0, version.1);
            return Err(PcapFault::new(4, what));
        }
        rest.take(12, "the header")?;
        let at = rest.at;
        // The upper bits say how frames are checked on lines that have such checks.
        check_link(rest.number("the link type")? & 0x0fff_ffff, at)?;
        Ok(Classic { rest })
    }

    fn read(&mut self) -> Option<Result<Packet<'a>, PcapFault>> {
        (!self.rest.is_empty()).then(|| self.read_record())
    }

    fn read_record(&mut self) -> Result<Packet<'a>, PcapFault> {
        let at = self.rest.at;
        self.rest.take(8, "the time of a record")?;
        let kept = self.rest.number("the length of a record")?;
        let length = self.rest.number("the length of a message")?;
        packet(at, &mut self.rest, kept, length)
    }
}

/// The bytes of a message, of which a recording keeps at most all.
pub fn packet<'a>(at: usize, rest: &mut Rest<'a>, kept: u32, length: u32) -> Result<Packet<'a>, PcapFault> {
    if kept > length {
        return Err(PcapFault::new(at, format!("a record keeps {kept} bytes of a message of {length}")));
    }
    Ok(Packet { at, bytes: rest.take(kept, "a record")?, length })
}
