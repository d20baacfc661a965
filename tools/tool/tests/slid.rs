//! Slid rows: a byte lost or doubled is found again.

mod cases;

use cases::{call_c, with, without};
use forms::message::{ByteOrder, Message};
use tool::head::{self, Outcome};
use tool::slid::{candidates, neighbour, sentence, Change, Neighbour};

const ORDERS: [ByteOrder; 2] = [ByteOrder::Little, ByteOrder::Big];

fn call(order: ByteOrder) -> Message {
    let message = Message { order, ..Message::new(1, 3) };
    message.text(1, "/org/theatre/Fans").text(2, "org.theatre.Fans").text(3, "Stop").text(6, "org.theatre")
}

fn found(bytes: &[u8]) -> Neighbour {
    let found = neighbour(bytes).unwrap_or_else(|| panic!("nothing near {}", forms::hex::show(bytes)));
    assert_eq!(head::read(&found.bytes), found.reading);
    assert!(matches!(found.reading.outcome, Outcome::Good(_)));
    let again = match found.change {
        Change::PutIn { at, byte } => with(bytes, at, byte),
        Change::TakenOut { at, byte } => {
            assert_eq!(bytes[at], byte);
            without(bytes, at)
        }
    };
    assert_eq!(again, found.bytes);
    found
}

/// The first four bytes are known to the last bit, so each that is lost comes back.
#[test]
fn lost_in_front() {
    for order in ORDERS {
        let bytes = call(order).bytes();
        for at in [0, 1, 3] {
            let found = found(&without(&bytes, at));
            assert_eq!(found.bytes, bytes, "{at} {order:?}");
            assert_eq!(found.change, Change::PutIn { at, byte: bytes[at] });
        }
    }
}

/// Where two readings are as likely, at the bytes of the serial, either may come; what stands behind is the same.
#[test]
fn lost_flags_and_numbers() {
    let bytes =
        Message { flags: 1, serial: 0x0000_0102, body: vec![7; 5], ..call(ByteOrder::Little) }.bytes();
    for at in 4..16 {
        let short = without(&bytes, at);
        let Some(found) = neighbour(&short) else { panic!("{at}") };
        let Outcome::Good(head) = &found.reading.outcome else { panic!("{at}") };
        assert_eq!(head.path.as_deref(), Some("/org/theatre/Fans"), "{at}");
        assert_eq!(head.head_length + 5, bytes.len(), "{at}");
        assert!(found.bytes == bytes || (8..10).contains(&at), "{at} {:?}", found.change);
    }
    let found = found(&without(&bytes, 2));
    assert_eq!(found.change, Change::PutIn { at: 2, byte: 0 });
}

#[test]
fn doubled() {
    for order in ORDERS {
        let bytes = call(order).bytes();
        for at in 0..=16 {
            let found = found(&with(&bytes, at, 0x5a));
            assert_eq!(found.bytes, bytes, "{at} {order:?}");
            assert_eq!(found.change, Change::TakenOut { at, byte: 0x5a });
        }
    }
    // A doubled byte is taken out where it stands first.
    let found = found(&with(&call_c(), 0, b'l'));
    assert_eq!(found.change, Change::TakenOut { at: 0, byte: b'l' });
}

/// From code to length, and in the padding behind.
#[test]
fn slid_fields() {
    for order in ORDERS {
        let bytes = [call(order).bytes(), call_c()].concat();
        let Outcome::Good(head) = head::read(&bytes).outcome else { panic!() };
        for field in &head.fields {
            // A big-endian length without its last byte is another length, and swallows what follows.
            let front = if order == ByteOrder::Big { 7 } else { 8 };
            for at in field.from..field.from + front {
                assert_eq!(found(&without(&bytes, at)).bytes, bytes, "{at} {order:?}");
                assert_eq!(found(&with(&bytes, at, 0x5a)).bytes, bytes, "{at} {order:?}");
            }
        }
        for field in head.fields.iter().filter(|field| !field.to.is_multiple_of(8)) {
            assert_eq!(found(&without(&bytes, field.to)).bytes, bytes, "{} {order:?}", field.to);
            assert_eq!(found(&with(&bytes, field.to, 0x5a)).bytes, bytes, "{} {order:?}", field.to);
        }
    }
}

#[test]
fn nothing_near() {
    assert_eq!(neighbour(&call_c()), None);
    assert_eq!(neighbour(&call_c()[..20]), None);
    assert_eq!(neighbour(&[]), None);
    assert_eq!(neighbour(b"AUTH EXTERNAL 31303030\r\nBEGIN\r\n"), None);
    assert_eq!(neighbour(&Message::new(1, 1).text(1, "/").text(3, "Get-Speed").bytes()), None);
}

/// Both a call and a signal would be good; the one that is more usual is told.
#[test]
fn the_usual_byte() {
    let signal = Message::new(4, 1).text(1, "/p").text(2, "org.i").text(3, "M").bytes();
    assert_eq!(found(&without(&signal, 1)).change, Change::PutIn { at: 1, byte: 1 });
    let reply = Message::new(2, 1).number(5, 2).bytes();
    assert_eq!(found(&without(&reply, 1)).change, Change::PutIn { at: 1, byte: 2 });
}

/// A code that is lost is found again, and is one that the type of the message has.
#[test]
fn the_usual_code() {
    let reply = Message::new(2, 1).number(5, 2).text(6, "a.b").bytes();
    let stream = [reply.clone(), call_c()].concat();
    assert_eq!(found(&without(&stream, 24)).change, Change::PutIn { at: 24, byte: 6 });
    let call = Message::new(1, 1).text(1, "/").text(3, "M").number(9, 1).bytes();
    let stream = [call, reply].concat();
    assert_eq!(found(&without(&stream, 48)).change, Change::PutIn { at: 48, byte: 9 });
}

/// With a byte too many in front the field is another good one, an array where a struct was, and only the next breaks.
#[test]
fn a_field_before_the_deciding_one() {
    let signature = format!("({})", "y".repeat(95));
    let value = [&[97], signature.as_bytes(), &[0; 1 + 4 + 95]].concat();
    let bytes = Message::new(5, 1).number(5, 2).raw(98, &value).bytes();
    let more = with(&[bytes.clone(), call_c()].concat(), 24, 0x5a);
    let Outcome::Broken(fault) = head::read(&more).outcome else { panic!() };
    assert_eq!((fault.at, fault.kind), (136, "code-zero"));
    assert_eq!(found(&more).change, Change::TakenOut { at: 24, byte: 0x5a });
}

/// Numbers that are the same in both orders do not tell which it was.
#[test]
fn the_usual_order() {
    let stream = [Message::new(5, 0x0100_0001).bytes(), call_c()].concat();
    assert_eq!(found(&stream[1..]).change, Change::PutIn { at: 0, byte: b'l' });
}

/// The longest head of all, and a byte too many.
#[test]
fn the_longest_head() {
    let bytes = cases::long_path(2_023);
    assert_eq!(bytes.len(), 2_048);
    assert_eq!(found(&with(&bytes, 0, 7)).bytes, bytes);
    assert_eq!(found(&bytes[1..]).bytes, bytes);
}

/// A body length that lost a byte is the one after which the bytes end, or after which another message begins.
#[test]
fn the_end_of_the_message() {
    let message = Message { body: vec![9; 0x21], ..call(ByteOrder::Little) };
    let one = without(&message.bytes(), 4);
    assert_eq!(found(&one).change, Change::PutIn { at: 4, byte: 0x21 });
    let two = [one.clone(), call_c()].concat();
    assert_eq!(found(&two).change, Change::PutIn { at: 4, byte: 0x21 });
    // What begins like a message inside the body has another type or version.
    for inside in [&b"l\x01\0\0"[..], b"l\x09\0\x01"] {
        let mut message = message.clone();
        message.body[5..9].copy_from_slice(inside);
        assert_eq!(found(&without(&message.bytes(), 4)).change, Change::PutIn { at: 4, byte: 0x21 });
    }
    let cut = &one[..one.len() - 1];
    assert!(matches!(found(cut).change, Change::PutIn { at: 4..=8, .. }));
}

#[test]
fn sentences() {
    let call = Message::new(1, 1).text(1, "/f").text(3, "GetSpeed").bytes();
    let told = |bytes: &[u8]| sentence(&found(bytes));
    assert_eq!(
        told(&without(&call, 1)),
        "with one byte put in at 1 (01), this reads as: call path=/f member=GetSpeed"
    );
    assert_eq!(
        told(&with(&call, 0, 0)),
        "with the byte at 0 (00) taken out, this reads as: call path=/f member=GetSpeed"
    );
    let reply = Message::new(3, 1)
        .number(5, 2)
        .text(4, "a.b")
        .text(6, ":1.2")
        .text(7, "s.t")
        .text(8, "s")
        .number(9, 0);
    let words = "error error=a.b reply=2 destination=:1.2 sender=s.t signature=s descriptors=0";
    assert!(told(&without(&reply.bytes(), 0)).ends_with(words));
    assert!(told(&with(&Message::new(7, 1).text(1, "/").bytes(), 0, 0)).ends_with("reads as: type 7 path=/"));
}

/// Long heads of the smallest fields, broken at the end and in every length.
#[test]
fn bounded_work() {
    let mut message = Message::new(1, 1);
    for _ in 0..252 {
        message = message.raw(10, b"\x01y\0\0");
    }
    let good = message.clone().raw(8, &[1, b'g', 0, 0, 0]).bytes();
    let bad = message.raw(0, &[0; 4]).bytes();
    let stream = [bad.clone(), vec![b'l'; 1 << 20]].concat();
    let mut texts = Message::new(1, 1);
    for _ in 0..30 {
        texts = texts.raw(77, &[&b"\x02as\0\0\0\0\x18\0\0\0"[..], &b"\x03\0\0\0abc\0".repeat(3)].concat());
    }
    let mut most = 0;
    for bytes in [&good, &bad, &stream, &texts.bytes()] {
        for slide in [bytes.clone(), without(bytes, 9), with(bytes, 13, 7), without(bytes, 1000)] {
            let reading = head::read(&slide);
            if let Outcome::Broken(fault) = &reading.outcome {
                most = most.max(candidates(&slide, &reading.parts, fault).len());
            }
        }
    }
    assert!((1_000..12_000).contains(&most), "{most} readings of at most 2,049 bytes");
}
