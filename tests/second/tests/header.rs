//! The message head: answers 1 to 9, where each is found, and which of them wins.

mod common;

use common::{judge, Bench, OPEN};
use second::header::{HeadFault, Malformed, *};
use second::message::{FieldValue, Message};
use second::wire::ByteOrder;

fn breaks_with(bytes: &[u8], fault: HeadFault, taken: usize) {
    assert_eq!(judge(bytes), (fault.answer().number(), taken, Some(fault)));
}

fn malformed(bytes: &[u8], how: Malformed, taken: usize) {
    breaks_with(bytes, HeadFault::Malformed(how), taken);
}

fn call_c() -> Message {
    Message::call(1, "/", "M")
}

/// Call C with byte `at` changed.
fn c_with(at: usize, byte: u8) -> Vec<u8> {
    let mut bytes = call_c().bytes();
    bytes[at] = byte;
    bytes
}

#[test]
fn fixed_part_in_order() {
    let mut bytes = c_with(12, 0xff);
    bytes[0..16].copy_from_slice(&[0x4c, 0, 0, 2, 0xff, 0xff, 0xff, 0xff, 0, 0, 0, 0, 0xff, 0xff, 0, 0]);
    breaks_with(&bytes, HeadFault::ByteOrder, 16);
    bytes[0] = b'l';
    breaks_with(&bytes, HeadFault::Version, 16);
    bytes[3] = 1;
    breaks_with(&bytes, HeadFault::TypeZero, 16);
    bytes[1] = 1;
    breaks_with(&bytes, HeadFault::SerialZero, 16);
    bytes[8] = 1;
    breaks_with(&bytes, HeadFault::ArrayTooLong, 16);
    bytes[12..16].copy_from_slice(&[0, 0, 0, 0]);
    breaks_with(&bytes, HeadFault::MessageTooLong, 16);
    breaks_with(&c_with(3, 0), HeadFault::Version, 16);
}

#[test]
fn fault_is_found_at_byte_16_only() {
    let mut bench = Bench::with_peers(OPEN, 1);
    assert_eq!(bench.answers(1, &[0; 15]), (10, 15));
    assert_eq!(bench.answers(1, &[0; 15]), (1, 1));
    assert_eq!(bench.answers(1, &[0; 15]), (40, 0));
    assert_eq!(bench.answers(1, &[]), (40, 0));
    assert_eq!(bench.guard.disconnect(1).bytes, 16);
}

#[test]
fn message_limit() {
    let body_for = |order: ByteOrder, array: u32, body: u32| {
        let mut bytes = Message::new(METHOD_CALL, 1).order(order).bytes();
        bytes[4..8].copy_from_slice(&order.write_u32(body));
        bytes[12..16].copy_from_slice(&order.write_u32(array));
        bytes
    };
    for order in [ByteOrder::Little, ByteOrder::Big] {
        for array in [1_u32, 8, 2_031, 2_032] {
            let limit = 134_217_728 - 16 - array.next_multiple_of(8);
            assert_eq!(judge(&body_for(order, array, limit)), (10, 16, None));
            breaks_with(&body_for(order, array, limit + 1), HeadFault::MessageTooLong, 16);
            breaks_with(&body_for(order, array, u32::MAX), HeadFault::MessageTooLong, 16);
        }
        breaks_with(&body_for(order, 2_033, 0), HeadFault::ArrayTooLong, 16);
        breaks_with(&body_for(order, u32::MAX, 0), HeadFault::ArrayTooLong, 16);
    }
}

#[test]
fn array_of_2032_bytes() {
    let path = |length: usize| "/".to_string() + &"x".repeat(length - 1);
    // 2,032 bytes: 12 of member M with padding come to 16; the path has 8 and a zero around it.
    let message = Message::new(METHOD_CALL, 1).text(MEMBER, "M").text(PATH, &path(2_007));
    assert_eq!(message.bytes().len(), 2_048);
    assert_eq!(message.bytes()[12..16], 2_032_u32.to_le_bytes());
    assert_eq!(judge(&message.bytes()), (0, 2_048, None));
    let longer = Message::new(METHOD_CALL, 1).text(MEMBER, "M").text(PATH, &path(2_008));
    breaks_with(&longer.bytes(), HeadFault::ArrayTooLong, 16);
}

#[test]
fn elements_past_the_array() {
    for (length, taken) in [(25_u8, 48), (24, 40), (23, 40), (20, 40), (19, 40), (17, 40)] {
        malformed(&c_with(12, length), Malformed::PastTheArray, taken);
    }
    for (length, taken) in [(16_u8, 32), (15, 32), (11, 32)] {
        malformed(&c_with(12, length), Malformed::EndsInPadding, taken);
    }
    for (length, taken) in [(9_u8, 32), (8, 24), (7, 24), (4, 24), (3, 24), (1, 24)] {
        malformed(&c_with(12, length), Malformed::PastTheArray, taken);
    }
    for length in 27..=32_u8 {
        malformed(&c_with(12, length), Malformed::EndsInPadding, 48);
    }
    malformed(&c_with(39, 0xff), Malformed::PastTheArray, 48);
    malformed(&c_with(36, 3), Malformed::PastTheArray, 48);
}

#[test]
fn an_array_of_one_path_lacks_the_member() {
    let mut bytes = call_c().bytes();
    bytes[12] = 10;
    breaks_with(&bytes, HeadFault::Missing(MEMBER), 32);
    bytes[12] = 0;
    breaks_with(&bytes, HeadFault::Missing(PATH), 16);
}

#[test]
fn malformed_elements() {
    malformed(&c_with(32, 0), Malformed::Code, 48);
    malformed(&c_with(33, 0), Malformed::SignatureLength, 48);
    malformed(&c_with(33, 2), Malformed::SignatureLength, 48);
    malformed(&c_with(34, b'o'), Malformed::WrongLetter, 48);
    malformed(&c_with(18, b's'), Malformed::WrongLetter, 48);
    malformed(&c_with(35, 1), Malformed::NoZeroAfterLetter, 48);
    malformed(&c_with(41, 1), Malformed::NoZeroAfterValue, 48);
    malformed(&c_with(25, 1), Malformed::NoZeroAfterValue, 48);
    for at in 26..32 {
        malformed(&c_with(at, 1), Malformed::PaddingBetween, 48);
    }
    for at in 42..48 {
        malformed(&c_with(at, 1), Malformed::PaddingAfterArray, 48);
    }
    malformed(&call_c().text(MEMBER, "M").bytes(), Malformed::RepeatedCode, 64);
    malformed(&call_c().text(MEMBER, "1").bytes(), Malformed::RepeatedCode, 64);
}

#[test]
fn every_wrong_letter() {
    for code in 1..=9_u8 {
        for letter in 0..=255_u8 {
            let mut message = Message::new(5, 1);
            message.fields.push(second::message::Field { code, letter, value: FieldValue::Number(1) });
            let fault = judge(&message.bytes()).2;
            let is_wrong = fault == Some(HeadFault::Malformed(Malformed::WrongLetter));
            assert_eq!(is_wrong, letter_of(code) != Some(letter), "{code} {letter}");
        }
    }
}

#[test]
fn signature_field_runs_past_the_array() {
    let bytes = call_c().signature("ay").bytes();
    assert_eq!(judge(&bytes).0, 0);
    let length_at = bytes.len() - 4;
    assert_eq!(bytes[length_at], 2);
    let mut longer = bytes.clone();
    longer[length_at] = 3;
    malformed(&longer, Malformed::PastTheArray, 56);
    let mut shorter = bytes.clone();
    shorter[length_at] = 1;
    malformed(&shorter, Malformed::NoZeroAfterValue, 56);
}

#[test]
fn length_one_too_large_on_padding_is_a_bad_value() {
    breaks_with(&c_with(20, 2), HeadFault::BadValue(PATH), 48);
    breaks_with(&c_with(20, 7), HeadFault::BadValue(PATH), 48);
    malformed(&c_with(20, 8), Malformed::NoZeroAfterValue, 48);
}

#[test]
fn bad_values() {
    let with = |code: u8, value: &str| {
        let mut message = Message::new(5, 1).number(UNIX_FDS, 0);
        message = if value.is_empty() { message.text(code, "") } else { message.text(code, value) };
        judge(&message.bytes()).2
    };
    let bad: [(u8, &[&str]); 7] = [
        (PATH, &["", "x", "/a/", "//", "/a-b", "/a\0b"]),
        (INTERFACE, &["", "a", "a.1", "a-b.c", ":1.1"]),
        (MEMBER, &["", "a.b", "1", "a-b"]),
        (ERROR_NAME, &["", "a", "a.", "a-b.c"]),
        (DESTINATION, &["", "org", ":1", "a..b", "::1.1"]),
        (SENDER, &["", "org", ":1", "1.a"]),
        (SIGNATURE, &["a", "()", "{sv}", "z", "y\0"]),
    ];
    for (code, values) in bad {
        for value in values {
            assert_eq!(with(code, value), Some(HeadFault::BadValue(code)), "{code} {value}");
        }
    }
    assert_eq!(with(SIGNATURE, ""), None);
    breaks_with(&call_c().number(REPLY_SERIAL, 0).bytes(), HeadFault::BadValue(REPLY_SERIAL), 56);
    assert_eq!(judge(&call_c().number(REPLY_SERIAL, 7).number(UNIX_FDS, u32::MAX).bytes()).0, 0);
}

#[test]
fn values_of_255_and_256_bytes() {
    let long = |start: &str, length: usize| start.to_string() + &"x".repeat(length - start.len());
    let fields =
        [(INTERFACE, "a.b"), (MEMBER, "M"), (ERROR_NAME, "a.b"), (DESTINATION, "a.b"), (SENDER, ":1.b")];
    for (code, start) in fields {
        let fault = |length| judge(&Message::new(6, 1).text(code, &long(start, length)).bytes()).2;
        assert_eq!(fault(255), None);
        assert_eq!(fault(256), Some(HeadFault::BadValue(code)));
    }
    let path = Message::new(6, 1).text(PATH, &long("/", 256));
    assert_eq!(judge(&path.bytes()).2, None);
    let signature = Message::new(6, 1).signature(&"y".repeat(255));
    assert_eq!(judge(&signature.bytes()).2, None);
}

#[test]
fn seven_before_eight_before_nine() {
    let bad_value_first = Message::new(METHOD_CALL, 1).text(PATH, "x").text(0, "y");
    malformed(&bad_value_first.bytes(), Malformed::Code, 48);
    let bad_value_and_missing = Message::new(METHOD_CALL, 1).text(PATH, "x");
    breaks_with(&bad_value_and_missing.bytes(), HeadFault::BadValue(PATH), 32);
    let padding = Message::new(METHOD_CALL, 1).text(PATH, "x");
    let mut bytes = padding.bytes();
    bytes[31] = 1;
    malformed(&bytes, Malformed::PaddingAfterArray, 32);
}

#[test]
fn required_fields_by_type() {
    let all = [(1_u8, vec![PATH, MEMBER]), (2, vec![REPLY_SERIAL]), (3, vec![ERROR_NAME, REPLY_SERIAL])];
    for (message_type, required) in all.into_iter().chain([(4, vec![PATH, INTERFACE, MEMBER])]) {
        for missing in &required {
            let mut message = Message::new(message_type, 1).text(SENDER, ":1.1");
            for &code in required.iter().filter(|code| *code != missing) {
                message = match code {
                    PATH => message.text(code, "/"),
                    MEMBER => message.text(code, "M"),
                    REPLY_SERIAL => message.number(code, 1),
                    _ => message.text(code, "a.b"),
                };
            }
            let bytes = message.bytes();
            breaks_with(&bytes, HeadFault::Missing(*missing), bytes.len());
        }
    }
}

#[test]
fn unknown_types() {
    for message_type in 5..=255 {
        let message = Message::new(message_type, 1).body(b"body");
        assert_eq!(judge(&message.bytes()), (20, 20, None));
        breaks_with(&message.number(REPLY_SERIAL, 0).bytes(), HeadFault::BadValue(REPLY_SERIAL), 24);
    }
}

#[test]
fn both_orders_and_bodies() {
    for order in [ByteOrder::Little, ByteOrder::Big] {
        let message = call_c().interface("a.b").sender("a.b").signature("ay").flags(0xfe).order(order);
        for body in [0, 1, 7, 8, 300] {
            let bytes = message.clone().body(&vec![0xff; body]).bytes();
            assert_eq!(judge(&bytes), (0, bytes.len(), None));
            let longer = [bytes.as_slice(), &[b'l'; 5]].concat();
            assert_eq!(judge(&longer), (0, bytes.len(), None));
        }
    }
}

#[test]
fn a_broken_head_wins_over_the_end_of_the_message() {
    let reply_without_serial = Message::new(METHOD_RETURN, 1).to(":1.9");
    let bytes = reply_without_serial.bytes();
    breaks_with(&bytes, HeadFault::Missing(REPLY_SERIAL), bytes.len());
    let with_body = reply_without_serial.body(b"never read").bytes();
    breaks_with(&with_body, HeadFault::Missing(REPLY_SERIAL), bytes.len());
}
