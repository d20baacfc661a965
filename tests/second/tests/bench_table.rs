//! The worked table T1 to T12 and the line called Run.

mod common;

use common::{policy, Bench, OPEN};
use second::message::Message;
use second::signature::is_signature;

const CALL_C: [u8; 48] = [
    0x6c, 0x01, 0x00, 0x01, 0x00, 0x00, 0x00, 0x00, 0x01, 0x00, 0x00, 0x00, 0x1a, 0x00, 0x00, 0x00, //
    0x01, 0x01, 0x6f, 0x00, 0x01, 0x00, 0x00, 0x00, 0x2f, 0x00, 0x00, 0x00, 0x00, 0x00, 0x00, 0x00, //
    0x03, 0x01, 0x73, 0x00, 0x01, 0x00, 0x00, 0x00, 0x4d, 0x00, 0x00, 0x00, 0x00, 0x00, 0x00, 0x00,
];

const NO_TRANSACTIONS: &str = "connect default allow any\nown default allow any";

/// The fixed 16 bytes of a message of type 5.
fn fixed(message_type: u8, body: u32, array: u32) -> Vec<u8> {
    let mut bytes = vec![b'l', message_type, 0, 1];
    bytes.extend(body.to_le_bytes());
    bytes.extend(1_u32.to_le_bytes());
    bytes.extend(array.to_le_bytes());
    bytes
}

#[test]
fn call_c_is_what_the_builder_makes() {
    assert_eq!(Message::call(1, "/", "M").bytes(), CALL_C);
}

#[test]
fn t1_and_t2() {
    let mut bench = Bench::with_peers(OPEN, 1);
    assert_eq!(bench.piece_line(1, &[]), "piece 10 0 0 0 0 0 0");
    assert_eq!(bench.piece_line(1, &CALL_C[..15]), "piece 10 15 0 0 0 0 0");
    assert_eq!(bench.piece_line(1, &[]), "piece 10 0 0 0 0 0 0");
    assert_eq!(bench.piece_line(1, &CALL_C[15..]), "piece 0 33 1 0 0 1 0");
}

#[test]
fn t3_and_t4() {
    let mut denied = Bench::with_peers(NO_TRANSACTIONS, 1);
    assert_eq!(denied.piece_line(1, &CALL_C), "piece 22 48 0 0 0 2 0");
    let mut allowed = Bench::with_peers(&format!("{NO_TRANSACTIONS}\ntransaction default allow send any"), 1);
    assert_eq!(allowed.piece_line(1, &CALL_C), "piece 0 48 1 0 0 1 0");
}

#[test]
fn t5() {
    let mut broken = CALL_C;
    broken[0] = 0x4c;
    assert_eq!(Bench::with_peers(OPEN, 1).piece_line(1, &broken), "piece 1 16 0 0 0 0 0");
}

#[test]
fn t6() {
    let line = |array| Bench::with_peers(OPEN, 1).piece_line(1, &fixed(1, 0, array));
    assert_eq!(line(2_032), "piece 10 16 0 0 0 0 0");
    assert_eq!(line(2_033), "piece 5 16 0 0 0 0 0");
}

#[test]
fn t7() {
    let line = |body| Bench::with_peers(OPEN, 1).piece_line(1, &fixed(5, body, 0));
    assert_eq!(line(134_217_712), "piece 10 16 0 0 0 0 0");
    assert_eq!(line(134_217_713), "piece 6 16 0 0 0 0 0");
}

#[test]
fn t8() {
    let rules = "transaction mandatory deny send any\ntransaction user 1000 allow send any";
    let mut bench = Bench::with_peers(&format!("{NO_TRANSACTIONS}\n{rules}"), 1);
    assert_eq!(bench.piece_line(1, &CALL_C), "piece 22 48 0 0 0 1 0");
}

#[test]
fn t9() {
    let matcher = &policy("own default allow prefix org.foo").own[0].name;
    assert!(matcher.matches("org.foo"));
    assert!(matcher.matches("org.foo.bar"));
    assert!(!matcher.matches("org.foobar"));
    let mut bench = Bench::with_peers("connect default allow any\nown default allow prefix org.foo", 1);
    assert_eq!(bench.own_line(1, "org.foo"), "own 0 1 0");
    assert_eq!(bench.own_line(1, "org.foo.bar"), "own 0 1 0");
    assert_eq!(bench.own_line(1, "org.foobar"), "own 32 2 0");
}

#[test]
fn t10_and_t11() {
    for good in ["", "a{sv}"] {
        assert!(is_signature(good.as_bytes()));
    }
    for bad in ["{sv}", "()", "a", "a{vs}"] {
        assert!(!is_signature(bad.as_bytes()));
    }
    let arrays = |depth: usize| "a".repeat(depth) + "y";
    assert!(is_signature(arrays(32).as_bytes()));
    assert!(!is_signature(arrays(33).as_bytes()));
}

/// A signature stands in a head: where it is good, a message of type 5 is dropped with 20.
#[test]
fn t10_and_t11_in_a_head() {
    let line =
        |signature: &str| Bench::with_peers(OPEN, 1).message_line(1, Message::new(5, 1).signature(signature));
    assert_eq!(line(""), "piece 20 24 0 0 0 0 0");
    assert_eq!(line("a{sv}"), "piece 20 32 0 0 0 0 0");
    assert_eq!(line("{sv}"), "piece 8 32 0 0 0 0 0");
    assert_eq!(line(&("a".repeat(32) + "y")), "piece 20 56 0 0 0 0 0");
    assert_eq!(line(&("a".repeat(33) + "y")), "piece 8 56 0 0 0 0 0");
}

#[test]
fn t12() {
    let rules = "transaction default allow send any name=org.a.x
        transaction default deny send any name=org.b.y
        transaction default allow receive any";
    let mut bench = Bench::with_peers(&format!("{NO_TRANSACTIONS}\n{rules}"), 2);
    let call = |serial, to: &str| Message::call(serial, "/", "M").to(to);
    assert_eq!(bench.own_line(2, "org.a.x"), "own 0 1 0");
    assert_eq!(bench.message_line(1, call(1, "org.a.x")), "piece 0 64 2 2 0 1 2");
    assert_eq!(bench.own_line(2, "org.b.y"), "own 0 1 0");
    for to in ["org.a.x", "org.b.y", ":1.2"] {
        assert_eq!(bench.message_line(1, call(2, to)), "piece 22 64 0 0 0 1 1");
    }
}

#[test]
fn run_line() {
    let mut bench = Bench::with_peers(OPEN, 2);
    let call = |serial| Message::call(serial, "/", "M").to(":1.2");
    for serial in 1..=16 {
        assert_eq!(bench.message_line(1, call(serial)), "piece 0 64 2 2 0 1 1");
    }
    assert_eq!(bench.message_line(1, call(17)), "piece 26 64 0 0 0 1 1");
    let reply = || Message::method_return(9, 3).to(":1.1");
    assert_eq!(bench.message_line(2, reply()), "piece 0 40 2 1 0 0 0");
    assert_eq!(bench.message_line(2, reply()), "piece 24 40 0 0 0 0 0");
    assert_eq!(bench.message_line(1, call(17)), "piece 0 64 2 2 0 1 1");
    assert_eq!(bench.message_line(1, call(18)), "piece 26 64 0 0 0 1 1");
}
