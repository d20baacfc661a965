//! Bodies of messages as values of an unknown header field.

mod common;

use common::judge;
use second::header::{Header, FIRST_UNKNOWN};
use second::message::Message;
use second::typed::{Typed, Writer};
use second::wire::ByteOrder;
use second::wrap::wrap;

/// The body that a library would write: the value at a multiple of 8.
fn body_of(order: ByteOrder, value: &Typed) -> Vec<u8> {
    let group = Typed::variant(Typed::Struct(vec![value.clone()]));
    let bytes = Writer::field(order, 0, &group).bytes;
    let front = 1 + 1 + value.signature().len() + 2 + 1;
    bytes[front.next_multiple_of(8)..].to_vec()
}

#[test]
fn bodies_stand_as_they_are() {
    let entry = Typed::entry(Typed::text(b's', "key"), Typed::variant(Typed::Number(b't', 7)));
    let mut values: Vec<Typed> = b"ybnqiuxtdh".iter().map(|&letter| Typed::Number(letter, 1)).collect();
    values.extend([Typed::text(b's', "text"), Typed::text(b'o', "/"), Typed::text(b'g', "ay")]);
    values.extend([Typed::array(vec![entry; 3]), Typed::variant(Typed::Number(b'x', 1))]);
    values.push(Typed::Array(b"t".to_vec(), Vec::new()));
    for order in [ByteOrder::Little, ByteOrder::Big] {
        for value in &values {
            let body = body_of(order, value);
            let signature = String::from_utf8(value.signature()).expect("a signature is ASCII");
            let recorded = Message::call(9, "/", "M").order(order).signature(&signature).body(&body);
            let wrapped = wrap(&recorded.bytes()).expect("it can be wrapped");
            assert_eq!(judge(&wrapped), (0, wrapped.len(), None), "{signature}");
            let header = Header::read(&wrapped).expect("the head is good");
            assert_eq!((header.unknown[0].code, header.fixed.order), (FIRST_UNKNOWN, order));
            assert!(header.unknown[0].letters.contains(&signature.as_bytes()[0]));
            let end = 16 + header.fixed.array_length as usize;
            assert!(wrapped[..end].ends_with(&body));
            assert!((end - body.len()).is_multiple_of(8));
        }
    }
}

#[test]
fn several_types() {
    let recorded = Message::call(1, "/", "M").signature("yau").body(b"\x05\0\0\0\x04\0\0\0\x01\0\0\0");
    let wrapped = wrap(&recorded.bytes()).expect("it can be wrapped");
    assert_eq!(judge(&wrapped), (0, wrapped.len(), None));
    assert_eq!(wrapped[48..56], *b"\x0a\x05(yau)\0");
}

#[test]
fn broken_bodies_break_the_call() {
    let with = |body: &[u8]| {
        let recorded = Message::call(1, "/", "M").signature("b").body(body).bytes();
        judge(&wrap(&recorded).expect("it can be wrapped")).0
    };
    assert_eq!((with(&[1, 0, 0, 0]), with(&[2, 0, 0, 0])), (0, 7));
    assert_eq!((with(&[1, 0, 0]), with(&[1, 0, 0, 0, 0])), (7, 7));
}

#[test]
fn what_cannot_be_wrapped() {
    let call = || Message::call(1, "/", "M");
    assert_eq!(wrap(&call().bytes()), None);
    assert_eq!(wrap(&call().signature("").bytes()), None);
    assert_eq!(wrap(&call().body(b"no signature").bytes()), None);
    assert_eq!(wrap(b"short"), None);
    let text = |length: usize| {
        let body = [(length as u32).to_le_bytes().as_slice(), &vec![b'x'; length], &[0]].concat();
        wrap(&call().signature("s").body(&body).bytes())
    };
    // Three variants more put the body 16 bytes behind the code: 32, 16, the length and a zero.
    let longest = 2_032 - 32 - 16 - 5;
    assert_eq!(text(longest).map(|wrapped| judge(&wrapped)), Some((0, 2_048, None)));
    assert_eq!(text(longest + 1), None);
}
