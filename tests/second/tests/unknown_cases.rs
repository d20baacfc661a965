//! What coverage sees of unknown header fields.

mod common;

use common::{image_of, OPEN};
use second::capture::{self, Call, Capture};
use second::coverage::Coverage;
use second::header::{Header, MEMBER, METHOD_CALL, PATH, SENDER};
use second::message::Message;
use second::policy::Uid;
use second::typed::Typed;
use second::unknown_cases::{cases, of_head, of_message};
use second::value::ValueFault;
use second::wire::ByteOrder;

fn call() -> Message {
    Message::call(1, "/", "M")
}

fn byte() -> Typed {
    Typed::variant(Typed::Number(b'y', 1))
}

fn boolean(number: u64) -> Typed {
    Typed::variant(Typed::Number(b'b', number))
}

/// The cases of a message, whose head is good or broken, without the words they have in common.
fn shown(message: &Message) -> Vec<String> {
    let bytes = message.bytes();
    let shown = match Header::read(&bytes) {
        Ok(header) => of_message(&header),
        Err(fault) => of_head(&bytes, fault).into_iter().collect(),
    };
    assert!(shown.iter().all(|case| cases().contains(case)), "{shown:?}");
    shown.iter().map(|case| case.replace("unknown field, ", "").replace("unknown fields, ", "")).collect()
}

#[test]
fn good_fields() {
    assert!(shown(&call()).is_empty());
    let first = shown(&call().variant(10, byte()));
    assert_eq!(first, ["good in type 1, Little", "good with a byte", "good with code 10"]);
    let last = shown(&Message::new(7, 1).order(ByteOrder::Big).variant(255, Typed::variant(byte())));
    let inside = ["good with a byte", "good with a variant inside", "good with code 255"];
    assert_eq!(last, [["good in type 5 and up, Big"].as_slice(), &inside].concat());
    let twice = shown(&call().variant(12, byte()).variant(12, byte()));
    assert_eq!(twice, ["good in type 1, Little", "good with a byte", "good with the same code"]);
    let others = shown(&call().variant(12, byte()).variant(13, byte()));
    assert_eq!(others, ["good in type 1, Little", "good with a byte", "good with several codes"]);
}

#[test]
fn containers() {
    let with = |value: Typed| shown(&call().variant(50, Typed::variant(value)))[1..].join(", ");
    let entry = Typed::entry(Typed::text(b's', "k"), byte());
    assert_eq!(
        with(Typed::array(vec![entry])),
        "good with a byte, good with a string, good with an array, good with a dict entry, good with a variant inside"
    );
    let group = Typed::Struct(vec![Typed::text(b'o', "/"), Typed::text(b'g', ""), Typed::Number(b'd', 0)]);
    assert_eq!(with(group), "good with d, good with a path, good with a signature, good with parentheses");
    let empty = Typed::Array(b"(sv)".to_vec(), Vec::new());
    assert_eq!(with(empty), "good with an array, good with an empty array");
    let deep = (0..62).fold(byte(), |inside, _| Typed::variant(inside));
    assert_eq!(with(deep), "good with a byte, good with a variant inside, good with 64 open");
}

#[test]
fn full_arrays() {
    let with_text = |length| Typed::variant(Typed::text(b's', &"x".repeat(length)));
    let full = shown(&call().variant(50, with_text(2_032 - 32 - 9)));
    assert_eq!(full[1..], ["good with a string", "good in an array of 2,032 bytes"]);
    let shorter = shown(&call().variant(50, with_text(2_032 - 32 - 10)));
    assert_eq!(shorter[1..], ["good with a string"]);
}

#[test]
fn single_faults() {
    assert_eq!(shown(&call().variant(10, boolean(2))), ["7 for Boolean alone"]);
    assert_eq!(shown(&call().variant(10, boolean(2)).variant(10, boolean(3))), ["7 for Boolean alone"]);
    assert_eq!(shown(&call().variant(10, Typed::Variant(Vec::new(), Vec::new()))), ["7 for NoType alone"]);
    assert_eq!(shown(&call().raw(10, b"\x02at\0\0\0\0\0\0\0\0")), ["7 for CutPadding alone"]);
    assert_eq!(shown(&call().raw(10, b"\x01z\0")), ["7 for NotASignature"]);
    assert_eq!(shown(&call().raw(10, b"\x01u\0")), ["7 for PastTheArray"]);
    let short = b"\x02au\0\0\0\0\x07\0\0\0\x01\0\0\0\x01\0\0\0";
    assert_eq!(shown(&call().raw(10, short)), ["7 for ArrayEnd alone"]);
    let two_types = Typed::Variant(b"yu".to_vec(), vec![Typed::Number(b'y', 1), Typed::Number(b'u', 1)]);
    assert_eq!(shown(&call().variant(10, two_types)), ["7 for SeveralTypes alone"]);
    let deep = (0..65).fold(byte(), |inside, _| Typed::variant(inside));
    assert_eq!(shown(&call().variant(10, deep)), ["7 for TooManyOpen alone"]);
    // Two kinds of faults: neither alone decided.
    let two = Typed::variant(Typed::Struct(vec![Typed::Number(b'b', 2), Typed::text(b's', "\0")]));
    assert!(shown(&call().variant(10, two)).is_empty());
    assert!(shown(&call().variant(10, boolean(2)).variant(0, byte())).is_empty());
    let cut = b"\x02au\0\0\0\0\x09\0\0\0\x01\0\0\0\x01\0\0\0";
    assert_eq!(shown(&call().raw(10, cut)), ["7 for PastTheArray"]);
}

#[test]
fn together_with_eight_and_nine() {
    let incomplete = || Message::new(METHOD_CALL, 1).text(PATH, "/");
    assert_eq!(shown(&incomplete().variant(10, boolean(2))), ["7 before 9"]);
    assert_eq!(shown(&incomplete().variant(10, boolean(1))), ["good beside 9"]);
    assert_eq!(shown(&call().text(SENDER, "x").variant(10, boolean(2))), ["7 before 8"]);
    assert_eq!(shown(&call().text(SENDER, "x").variant(10, boolean(1))), ["good beside 8"]);
    assert!(shown(&incomplete()).is_empty());
    assert!(shown(&call().text(MEMBER, "M").variant(10, boolean(1))).is_empty());
}

/// A capture is counted call by call, and each message at its last byte.
#[test]
fn counted_in_captures() {
    let mut calls = vec![Call::Connect { uid: Uid(1), gids: Vec::new() }];
    let good = call().variant(10, byte()).bytes();
    calls.extend(good.chunks(5).map(|part| Call::Piece { peer: 1, bytes: part.to_vec() }));
    calls.push(Call::Piece { peer: 1, bytes: call().variant(10, boolean(2)).bytes() });
    let mut coverage = Coverage::default();
    coverage.add(&capture::write(&Capture { image: image_of(OPEN), calls }));
    let report = coverage.report();
    for line in ["good with a byte: 1", "good with code 10: 1", "7 for Boolean alone: 1"] {
        assert!(report.contains(&format!("case unknown field, {line}\n")), "{report}");
    }
    assert_eq!(of_head(&good, second::header::HeadFault::ByteOrder), None);
    assert_eq!(cases().iter().filter(|case| case.contains("7 for")).count(), ValueFault::ALL.len());
}
