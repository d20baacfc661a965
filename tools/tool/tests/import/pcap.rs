//! Recordings are read in both forms and byte orders, and broken ones are refused at the byte.

use crate::recording::Recording;
use forms::message::ByteOrder;
use tool::import::pcap::{Packet, Packets, PcapFault};

const ORDERS: [ByteOrder; 2] = [ByteOrder::Little, ByteOrder::Big];

fn read(file: &[u8]) -> Result<Vec<(Vec<u8>, u32)>, PcapFault> {
    let kept = |packet: Packet| (packet.bytes.to_vec(), packet.length);
    Packets::open(file)?.map(|packet| packet.map(kept)).collect()
}

fn fault(file: &[u8]) -> (usize, String) {
    let fault = read(file).unwrap_err();
    (fault.at, fault.what)
}

#[test]
fn both_orders_and_both_clocks_are_read() {
    for order in ORDERS {
        for magic in [0xa1b2_c3d4, 0xa1b2_3c4d] {
            let file = Recording::with(order, magic, 231).bytes(b"abc").bytes(b"").record(b"de", 5).file;
            let wanted = vec![(b"abc".to_vec(), 3), (Vec::new(), 0), (b"de".to_vec(), 5)];
            assert_eq!(read(&file), Ok(wanted));
        }
    }
}

#[test]
fn a_packet_says_where_its_record_begins() {
    let file = Recording::new().bytes(b"abc").bytes(b"d").file;
    let places: Vec<usize> = Packets::open(&file).unwrap().map(|packet| packet.unwrap().at).collect();
    assert_eq!(places, [24, 43]);
}

#[test]
fn a_header_alone_has_no_packets() {
    let file = Recording::new().file;
    assert_eq!(read(&file), Ok(Vec::new()));
    for length in 0..file.len() {
        let (at, what) = fault(&file[..length]);
        assert!(at <= length && what.ends_with("are left"), "{length}: {at}: {what}");
    }
}

#[test]
fn other_files_are_refused() {
    assert_eq!(fault(b"MZ\x90\0 and so on").0, 0);
    let mut version = Recording::new().file;
    version[6] = 5;
    assert_eq!(fault(&version), (4, "a pcap file of version 2.5, wanted 2.4".to_string()));
    let ethernet = Recording::with(ByteOrder::Big, 0xa1b2_c3d4, 1).file;
    assert_eq!(fault(&ethernet), (20, "traffic of link type 1, wanted 231, D-Bus".to_string()));
    // What stands in the upper bits is about checks of frames.
    assert_eq!(read(&Recording::with(ByteOrder::Little, 0xa1b2_c3d4, 0xf000_00e7).file), Ok(Vec::new()));
    assert_eq!(fault(&Recording::with(ByteOrder::Little, 0xa1b2_c3d4, 0x0100_00e7).file).0, 20);
}

#[test]
fn a_record_that_ends_too_early_is_refused_wherever_it_ends() {
    let file = Recording::new().bytes(b"first").bytes(b"last").file;
    for length in 46..file.len() {
        let mut packets = Packets::open(&file[..length]).unwrap();
        assert_eq!(packets.next().unwrap().unwrap().bytes, b"first");
        let fault = packets.next().unwrap().unwrap_err();
        assert!((45..=length).contains(&fault.at), "{length}: {fault:?}");
        assert_eq!(packets.next(), None, "behind a fault nothing is read");
    }
}

#[test]
fn lengths_that_cannot_be_are_refused() {
    let mut huge = Recording::new().file;
    for number in [0, 0, u32::MAX, u32::MAX] {
        huge.extend(u32::to_le_bytes(number));
    }
    let told = "a record has 4294967295 bytes, and only 0 are left".to_string();
    assert_eq!(fault(&huge), (40, told));
    let file = Recording::new().record(b"abcd", 3).file;
    assert_eq!(fault(&file), (24, "a record keeps 4 bytes of a message of 3".to_string()));
}

// ---- the block form

/// A file of blocks.
struct Blocks {
    file: Vec<u8>,
    order: ByteOrder,
}

impl Blocks {
    fn new(order: ByteOrder) -> Blocks {
        Blocks { file: Vec::new(), order }.section(order)
    }

    fn block(mut self, kind: u32, body: &[u8]) -> Blocks {
        let body = [body, &vec![0; body.len().next_multiple_of(4) - body.len()]].concat();
        let length = self.order.bytes(body.len() as u32 + 12);
        self.file.extend(self.order.bytes(kind));
        self.file.extend(length);
        self.file.extend(body);
        self.file.extend(length);
        self
    }

    fn numbers(&self, numbers: &[u32]) -> Vec<u8> {
        numbers.iter().flat_map(|&number| self.order.bytes(number)).collect()
    }

    fn shorts(&self, shorts: [u16; 2]) -> Vec<u8> {
        let bytes = |short: u16| match self.order {
            ByteOrder::Little => short.to_le_bytes(),
            ByteOrder::Big => short.to_be_bytes(),
        };
        shorts.into_iter().flat_map(bytes).collect()
    }

    fn section(self, order: ByteOrder) -> Blocks {
        let blocks = Blocks { order, ..self };
        let body =
            [blocks.numbers(&[0x1a2b_3c4d]), blocks.shorts([1, 0]), blocks.numbers(&[u32::MAX; 2])].concat();
        blocks.block(0x0a0d_0d0a, &body)
    }

    fn interface(self, link: u16, most: u32) -> Blocks {
        let body = [self.shorts([link, 0]), self.numbers(&[most])].concat();
        self.block(1, &body)
    }

    fn packet(self, interface: u32, kept: u32, length: u32, bytes: &[u8]) -> Blocks {
        let body = [&self.numbers(&[interface, 1, 2, kept, length]), bytes].concat();
        self.block(6, &body)
    }

    fn old_packet(self, interface: u16, bytes: &[u8]) -> Blocks {
        let length = bytes.len() as u32;
        let body = [&self.shorts([interface, 9]), &self.numbers(&[1, 2, length, length]), bytes].concat();
        self.block(2, &body)
    }

    fn simple(self, length: u32, bytes: &[u8]) -> Blocks {
        let body = [&self.numbers(&[length]), bytes].concat();
        self.block(3, &body)
    }
}

#[test]
fn blocks_are_read_in_both_orders() {
    for order in ORDERS {
        let blocks = Blocks::new(order)
            .interface(231, 4096)
            .block(4, b"names")
            .packet(0, 3, 3, b"abc")
            .packet(0, 2, 7, b"de")
            .old_packet(0, b"f")
            .simple(2, b"gh")
            .block(0x8000_0001, b"");
        let wanted = [(&b"abc"[..], 3), (b"de", 7), (b"f", 1), (b"gh", 2)];
        assert_eq!(read(&blocks.file), Ok(wanted.map(|(bytes, length)| (bytes.to_vec(), length)).to_vec()));
    }
}

#[test]
fn a_section_has_its_own_order_and_interfaces() {
    let blocks = Blocks::new(ByteOrder::Little).interface(231, 0).packet(0, 1, 1, b"a");
    let both = blocks.section(ByteOrder::Big).interface(231, 0).interface(231, 0).packet(1, 1, 1, b"b");
    assert_eq!(read(&both.file).unwrap().len(), 2);
    let orphan = Blocks::new(ByteOrder::Little).interface(231, 0).section(ByteOrder::Big);
    let at = orphan.file.len() + 8;
    let told = "a packet of interface 0, which is not there".to_string();
    assert_eq!(fault(&orphan.packet(0, 1, 1, b"b").file), (at, told));
}

#[test]
fn a_simple_packet_keeps_what_its_interface_keeps() {
    let cut = Blocks::new(ByteOrder::Big).interface(231, 2).simple(5, b"ab");
    assert_eq!(read(&cut.file), Ok(vec![(b"ab".to_vec(), 5)]));
    let none = Blocks::new(ByteOrder::Big);
    let at = none.file.len();
    assert_eq!(fault(&none.simple(1, b"a").file), (at, "a packet before the first interface".to_string()));
    let short = Blocks::new(ByteOrder::Big).interface(231, 0);
    let at = short.file.len() + 12;
    let told = "a record has 5 bytes, and only 4 are left".to_string();
    assert_eq!(fault(&short.simple(5, b"abcd").file), (at, told));
}

#[test]
fn broken_blocks_are_refused() {
    let good = Blocks::new(ByteOrder::Little).interface(231, 0).packet(0, 3, 3, b"abc").file;
    let at = good.len() - 36;
    for length in [0u32, 8, 11, 13, 35] {
        let mut file = good.clone();
        file[at + 4..at + 8].copy_from_slice(&length.to_le_bytes());
        assert_eq!(fault(&file), (at + 4, format!("a block cannot have {length} bytes")));
    }
    let mut longer = good.clone();
    longer[at + 4..at + 8].copy_from_slice(&u32::MAX.wrapping_sub(3).to_le_bytes());
    assert_eq!(fault(&longer).0, at + 8);
    let mut behind = good.clone();
    behind[at + 32] += 4;
    assert_eq!(fault(&behind), (at + 32, "a block has the length 36 in front and 40 behind".to_string()));
    // The bytes of a packet end before the length behind its block.
    let mut over = good.clone();
    over[at + 20..at + 28].copy_from_slice(&[5, 0, 0, 0, 5, 0, 0, 0]);
    let (place, what) = fault(&over);
    assert_eq!((place, what.as_str()), (at + 28, "a record has 5 bytes, and only 4 are left"));
    for length in 1..good.len() {
        let result = read(&good[..length]);
        assert!(result.is_err() || [28, 48].contains(&length), "{length}: {result:?}");
    }
}

#[test]
fn sections_that_are_not_known_are_refused() {
    let wrong = Blocks::new(ByteOrder::Big).interface(1, 0);
    assert_eq!(fault(&wrong.file), (36, "traffic of link type 1, wanted 231, D-Bus".to_string()));
    let mut order = Blocks::new(ByteOrder::Big).file;
    order[8] = 0;
    assert_eq!(fault(&order), (8, "a section whose byte order is unknown".to_string()));
    let mut version = Blocks::new(ByteOrder::Big).file;
    version[13] = 2;
    assert_eq!(fault(&version), (12, "a pcapng section of version 2, wanted 1".to_string()));
}
