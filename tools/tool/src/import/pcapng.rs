//! The block form of recordings (pcapng): sections, their interfaces, and packets.

use super::pcap::{check_link, packet, Packet, PcapFault, Rest};
use forms::message::ByteOrder;

/// The same in both byte orders, since it stands before the byte order is known.
const SECTION: u32 = 0x0a0d_0d0a;
const INTERFACE: u32 = 1;
const OLD_PACKET: u32 = 2;
const SIMPLE_PACKET: u32 = 3;
const PACKET: u32 = 6;

/// What tells the byte order of a section.
const ORDER_MAGIC: u32 = 0x1a2b_3c4d;

pub struct Blocks<'a> {
    rest: Rest<'a>,
    /// Of each interface of the section the most bytes that it keeps of a message; 0 is no limit.
    interfaces: Vec<u32>,
}

impl<'a> Blocks<'a> {
    pub fn open(file: &'a [u8]) -> Blocks<'a> {
        Blocks { rest: Rest { file, at: 0, order: ByteOrder::Little }, interfaces: Vec::new() }
    }

    /// The next packet; blocks of other kinds are passed over.
    pub fn read(&mut self) -> Result<Option<Packet<'a>>, PcapFault> {
        while !self.rest.is_empty() {
            if let Some(packet) = self.read_block()? {
                return Ok(Some(packet));
            }
        }
        Ok(None)
    }

    fn read_block(&mut self) -> Result<Option<Packet<'a>>, PcapFault> {
        let at = self.rest.at;
        let kind = self.rest.number("the kind of a block")?;
        if kind == SECTION {
            self.rest.order = section_order(&self.rest)?;
        }
        let length = self.rest.number("the length of a block")?;
        if length < 12 || !length.is_multiple_of(4) {
            return Err(PcapFault::new(at + 4, format!("a block cannot have {length} bytes")));
        }
        let body_at = self.rest.at;
        self.rest.take(length - 12, "the block")?;
        let last = self.rest.number("the length behind a block")?;
        if last != length {
            let what = format!("a block has the length {length} in front and {last} behind");
            return Err(PcapFault::new(self.rest.at - 4, what));
        }
        // What a block says must stand between its two lengths.
        let inside = &self.rest.file[..self.rest.at - 4];
        let mut body = Rest { file: inside, at: body_at, order: self.rest.order };
        match kind {
            SECTION => self.read_section(&mut body).map(|()| None),
            INTERFACE => self.read_interface(&mut body).map(|()| None),
            OLD_PACKET | PACKET => self.read_packet(at, &mut body, kind == OLD_PACKET).map(Some),
            SIMPLE_PACKET => self.read_simple(at, &mut body).map(Some),
            _ => Ok(None),
        }
    }

    fn read_section(&mut self, body: &mut Rest) -> Result<(), PcapFault> {
        body.take(4, "the byte order")?;
        let at = body.at;
        let major = body.short("the version")?;
        self.interfaces.clear();
        match major {
            1 => Ok(()),
            major => Err(PcapFault::new(at, format!("a pcapng section of version {major}, wanted 1"))),
        }
    }

    fn read_interface(&mut self, body: &mut Rest) -> Result<(), PcapFault> {
        let at = body.at;
        check_link(body.short("the link type")?.into(), at)?;
        body.take(2, "an interface")?;
        self.interfaces.push(body.number("the most bytes of a record")?);
        Ok(())
    }

    fn read_packet(&self, at: usize, body: &mut Rest<'a>, is_old: bool) -> Result<Packet<'a>, PcapFault> {
        let number_at = body.at;
        // The old kind has two numbers of two bytes here: the interface, and how many packets were lost.
        let interface = match is_old {
            true => u32::from(body.short("the interface")?),
            false => body.number("the interface")?,
        };
        body.take(if is_old { 2 } else { 0 }, "the count of lost packets")?;
        if interface as usize >= self.interfaces.len() {
            let what = format!("a packet of interface {interface}, which is not there");
            return Err(PcapFault::new(number_at, what));
        }
        body.take(8, "the time of a packet")?;
        let kept = body.number("the length of a record")?;
        let length = body.number("the length of a message")?;
        packet(at, body, kept, length)
    }

    /// A packet of the first interface that says only how long the message was.
    fn read_simple(&self, at: usize, body: &mut Rest<'a>) -> Result<Packet<'a>, PcapFault> {
        let Some(&most) = self.interfaces.first() else {
            return Err(PcapFault::new(at, "a packet before the first interface"));
        };
        let length = body.number("the length of a message")?;
        let kept = if most == 0 { length } else { length.min(most) };
        packet(at, body, kept, length)
    }
}

/// The byte order of a section whose kind was read: its magic stands behind its length.
fn section_order(rest: &Rest) -> Result<ByteOrder, PcapFault> {
    let mut ahead = rest.clone();
    ahead.take(4, "the length of a block")?;
    let at = ahead.at;
    let magic = ahead.take(4, "the byte order")?;
    let is_order = |order: &ByteOrder| order.number(magic, 0) == ORDER_MAGIC;
    let found = [ByteOrder::Little, ByteOrder::Big].into_iter().find(is_order);
    found.ok_or_else(|| PcapFault::new(at, "a section whose byte order is unknown"))
}
