//! Broken heads: at least one for each way to break, with the byte that decides and the box that holds it.

// Each file of tests uses a part of this.
#![allow(dead_code)]

use forms::message::{ByteOrder, Message};

pub struct Case {
    pub kind: &'static str,
    pub answer: u32,
    pub at: usize,
    pub part: &'static str,
    pub bytes: Vec<u8>,
}

fn case(kind: &'static str, answer: u32, at: usize, part: &'static str, bytes: Vec<u8>) -> Case {
    Case { kind, answer, at, part, bytes }
}

/// The bytes without the one at a place.
pub fn without(bytes: &[u8], at: usize) -> Vec<u8> {
    let mut bytes = bytes.to_vec();
    bytes.remove(at);
    bytes
}

/// The bytes with one more at a place.
pub fn with(bytes: &[u8], at: usize, byte: u8) -> Vec<u8> {
    let mut bytes = bytes.to_vec();
    bytes.insert(at, byte);
    bytes
}

/// Call C of the worked table.
pub fn call_c() -> Vec<u8> {
    Message::new(1, 1).text(1, "/").text(3, "M").bytes()
}

/// Call C with other bytes from a place on.
pub fn c_with(at: usize, with: &[u8]) -> Vec<u8> {
    let mut bytes = call_c();
    bytes[at..at + with.len()].copy_from_slice(with);
    bytes
}

/// A head of type 5 with one unknown field; `rest` is all behind its code, which stands at 16.
pub fn unknown(rest: &[u8]) -> Vec<u8> {
    Message::new(5, 1).raw(42, rest).bytes()
}

/// An unknown field of one letter: its value begins at 20.
pub fn of_letter(letter: u8, value: &[u8]) -> Vec<u8> {
    unknown(&[&[1, letter, 0], value].concat())
}

/// An unknown string: its bytes begin at 24.
pub fn of_string(text: &[u8]) -> Vec<u8> {
    of_letter(b's', &[&(text.len() as u32).to_le_bytes(), text, &[0]].concat())
}

/// So many variants in each other, the field's own among them, and a byte in the last.
pub fn variants(count: usize) -> Vec<u8> {
    unknown(&[[1, b'v', 0].repeat(count - 1), vec![1, b'y', 0, 7]].concat())
}

/// A fixed part without fields.
pub fn bare(message_type: u8, body_length: u32, array_length: u32) -> Vec<u8> {
    let mut bytes = vec![b'l', message_type, 0, 1];
    for number in [body_length, 1, array_length] {
        bytes.extend(number.to_le_bytes());
    }
    bytes
}

fn big(bytes: &[u8]) -> Vec<u8> {
    Message { order: ByteOrder::Big, ..Message::new(5, 1) }.raw(42, bytes).bytes()
}

pub fn all() -> Vec<Case> {
    [of_fixed_part(), of_array(), of_unknown(), of_unknown_texts(), of_values(), of_missing()]
        .into_iter()
        .flatten()
        .collect()
}

fn of_fixed_part() -> Vec<Case> {
    vec![
        case("order", 1, 0, "order", c_with(0, b"L")),
        case("version", 2, 3, "version", c_with(3, &[2])),
        case("version", 2, 3, "version", c_with(1, &[0, 0, 0])),
        case("type-zero", 3, 1, "type", c_with(1, &[0])),
        case("type-zero", 3, 1, "type", c_with(1, &[0, 0, 1, 0, 0, 0, 0, 0])),
        case("serial-zero", 4, 8, "serial", c_with(8, &[0])),
        case("serial-zero", 4, 8, "serial", c_with(8, &[0, 0, 0, 0, 0xff, 0xff])),
        case("array-too-long", 5, 12, "array length", bare(5, 134_217_713, 2_033)),
        case("array-too-long", 5, 12, "array length", bare(5, 0, u32::MAX)),
        case("message-too-long", 6, 4, "body length", bare(5, 134_217_713, 0)),
        case("message-too-long", 6, 4, "body length", bare(5, 134_217_705, 1)),
        case("message-too-long", 6, 4, "body length", bare(5, u32::MAX, 2_032)),
    ]
}

fn of_array() -> Vec<Case> {
    let twice = Message::new(5, 1).text(1, "/").text(1, "/").bytes();
    let number_cut = Message::new(5, 1).raw(5, &[1, b'u', 0, 1, 0, 0]).bytes();
    let signature = Message::new(5, 1).raw(8, &[1, b'g', 0, 1, b'y']).bytes();
    let mut cases = vec![
        case("past-the-array", 7, 20, "length", c_with(20, &[18])),
        case("bad-path", 8, 25, "path", c_with(20, &[17])),
        case("past-the-array", 7, 20, "length", c_with(20, &[0xff; 4])),
        case("past-the-array", 7, 36, "length", c_with(36, &[2])),
        case("past-the-array", 7, 23, "rest", number_cut),
        case("past-the-array", 7, 20, "length", signature),
        case("ends-in-padding", 7, 42, "rest", c_with(12, &[27])),
        case("ends-in-padding", 7, 42, "rest", c_with(12, &[32])),
        case("ends-in-padding", 7, 26, "rest", c_with(12, &[16])),
        case("code-zero", 7, 32, "code", c_with(32, &[0])),
        case("signature-length", 7, 17, "type 'o'", c_with(17, &[2])),
        case("signature-length", 7, 33, "type 's'", c_with(33, &[0])),
        case("wrong-letter", 7, 18, "type 'o'", c_with(18, b"s")),
        case("repeated-code", 7, 32, "code", twice),
        case("no-zero-after-letter", 7, 19, "type 'o'", c_with(19, &[1])),
        case("no-zero-after-value", 7, 25, "zero", c_with(25, &[1])),
        case("padding-between", 7, 31, "padding", c_with(31, &[1])),
        case("padding-after-array", 7, 42, "padding", c_with(42, &[1])),
        case("padding-after-array", 7, 47, "padding", c_with(47, &[1])),
    ];
    for length in 1..8 {
        // The array ends inside code, letter and length of its only field.
        cases.push(case("past-the-array", 7, 16 + length, "rest", c_with(12, &[length as u8])));
    }
    cases.push(case("past-the-array", 7, 20, "length", c_with(12, &[8])));
    cases.push(case("past-the-array", 7, 20, "length", c_with(12, &[9])));
    cases
}

fn of_unknown() -> Vec<Case> {
    let name = |kind, at, part, bytes| case(kind, 7, at, part, bytes);
    let array_of = |letter, value: &[u8]| unknown(&[&[2, b'a', letter, 0, 0, 0, 0], value].concat());
    vec![
        name("unknown-not-a-signature", 18, "signature", of_letter(b'z', &[])),
        name("unknown-not-a-signature", 19, "zero", of_letter(b'a', &[0, 0, 0, 0])),
        name("unknown-not-a-signature", 19, "signature", unknown(b"\x02()\0")),
        name("unknown-no-type", 17, "signature length", unknown(&[0, 0])),
        name("unknown-several-types", 19, "signature", unknown(b"\x02yy\0\0\0")),
        name("unknown-several-types", 20, "signature", unknown(b"\x03ayy\0\0\0\0\0\0\0\0\0")),
        name("unknown-no-zero-after-signature", 19, "zero", unknown(b"\x01y\x01\0")),
        name("unknown-past-the-array", 17, "rest", unknown(&[])),
        name("unknown-past-the-array", 17, "signature length", unknown(b"\x01y")),
        name("unknown-past-the-array", 20, "rest", of_letter(b'y', &[])),
        name("unknown-past-the-array", 20, "rest", of_letter(b'u', &[0, 0, 0])),
        name("unknown-past-the-array", 12, "array length", unknown(b"\x05(yyy)\0")),
        name("unknown-past-the-array", 20, "length", of_letter(b's', &[1, 0, 0, 0, b'a'])),
        name("unknown-past-the-array", 20, "length", of_letter(b'g', &[1, b'y'])),
        name("unknown-past-the-array", 24, "array length", array_of(b'y', &[2, 0, 0, 0, 1])),
        name("unknown-cut-padding", 20, "rest", of_letter(b'x', &[0, 0])),
        name("unknown-cut-padding", 28, "rest", array_of(b'x', &[0, 0, 0, 0])),
        name("unknown-padding", 21, "padding", of_letter(b'x', &[0, 1, 0, 0, 1, 2, 3, 4, 5, 6, 7, 8])),
        name("unknown-padding", 31, "padding", array_of(b'x', &[0, 0, 0, 0, 0, 0, 0, 1])),
        name("unknown-too-many-open", 17 + 3 * 64, "rest", variants(65)),
        name("unknown-array-end", 32, "rest", array_of(b'u', &[6, 0, 0, 0, 1, 2, 3, 4, 5, 6, 7, 8])),
        name("unknown-array-end", 28, "length", array_of(b's', &[5, 0, 0, 0, 1, 0, 0, 0, b'a', 0])),
        name("unknown-boolean", 20, "boolean", of_letter(b'b', &[2, 0, 0, 0])),
        name("unknown-boolean", 21, "boolean", of_letter(b'b', &[1, 1, 0, 0])),
        name("unknown-boolean", 20, "boolean", big(&[1, b'b', 0, 1, 0, 0, 0])),
        name("unknown-boolean", 23, "boolean", big(&[1, b'b', 0, 0, 0, 0, 2])),
    ]
}

fn of_unknown_texts() -> Vec<Case> {
    let name = |kind, at, part, bytes| case(kind, 7, at, part, bytes);
    let string = |kind, at: usize, text: &[u8]| case(kind, 7, 24 + at, "string", of_string(text));
    vec![
        string("unknown-zero-in-text", 1, b"a\0b"),
        string("unknown-overlong", 0, b"\xc0\x80"),
        string("unknown-overlong", 0, b"\xc1\xbf"),
        string("unknown-overlong", 2, b"a\xe0\x9f\xbf"),
        string("unknown-overlong", 1, b"\xf0\x8f\xbf\xbf"),
        string("unknown-surrogate", 1, b"\xed\xa0\x80"),
        string("unknown-surrogate", 1, b"\xed\xbf\xbf"),
        string("unknown-above-10ffff", 1, b"\xf4\x90\x80\x80"),
        string("unknown-above-10ffff", 0, b"\xf5\x80\x80\x80"),
        string("unknown-bad-lead", 0, b"\x80"),
        string("unknown-bad-lead", 2, b"\xc2\x80\xbf"),
        string("unknown-bad-lead", 0, b"\xf8\x88\x80\x80\x80"),
        string("unknown-bad-lead", 0, b"\xff"),
        string("unknown-cut", 1, b"\xc3A"),
        string("unknown-cut", 2, b"\xe2\x82A"),
        string("unknown-cut", 1, b"\xe0\x7f\x80"),
        name("unknown-cut", 25, "zero", of_string(b"\xc3")),
        name("unknown-cut", 27, "zero", of_string(b"\xf0\x9f\x98")),
        name("unknown-path", 24, "object path", of_letter(b'o', b"\x01\0\0\0a\0")),
        name("unknown-path", 24, "zero", of_letter(b'o', b"\0\0\0\0\0")),
        name("unknown-path", 25, "object path", of_letter(b'o', b"\x02\0\0\0/\0\0")),
        name("unknown-signature-value", 21, "signature", of_letter(b'g', b"\x01z\0")),
        name("unknown-signature-value", 22, "zero", of_letter(b'g', b"\x01a\0")),
        name("unknown-no-zero-after-text", 25, "zero", of_letter(b's', b"\x01\0\0\0ab")),
        name("unknown-no-zero-after-text", 25, "zero", of_letter(b'o', b"\x01\0\0\0//")),
        name("unknown-no-zero-after-text", 22, "zero", of_letter(b'g', b"\x01yy")),
    ]
}

fn of_values() -> Vec<Case> {
    let text = |kind, at: usize, part, code, value: &str| {
        let head = if code == 8 { 21 } else { 24 };
        case(kind, 8, head + at, part, Message::new(5, 1).text(code, value).bytes())
    };
    let long = format!("a.{}", "x".repeat(254));
    vec![
        text("bad-path", 0, "path", 1, "a"),
        text("bad-path", 0, "zero", 1, ""),
        text("bad-path", 3, "zero", 1, "/a/"),
        text("bad-path", 1, "path", 1, "/\0"),
        text("bad-interface", 1, "zero", 2, "a"),
        text("bad-interface", 255, "interface", 2, &long),
        text("bad-member", 3, "member", 3, "Get-Speed"),
        text("bad-member", 255, "member", 3, &"x".repeat(256)),
        text("bad-error-name", 2, "error name", 4, "a.-"),
        text("bad-destination", 2, "destination", 6, "a.9"),
        text("bad-destination", 255, "destination", 6, &format!(":1.{}", "9".repeat(253))),
        text("bad-sender", 3, "zero", 7, ":1."),
        text("bad-signature", 0, "signature", 8, "{sv}"),
        text("bad-signature", 2, "signature", 8, "a{vs}"),
        text("bad-signature", 1, "zero", 8, "a"),
        case("bad-reply-serial", 8, 20, "reply serial", Message::new(5, 1).number(5, 0).bytes()),
        // A bad value comes before a missing field, and a fault of the array before both.
        case("bad-member", 8, 24, "member", Message::new(1, 1).text(3, "-").bytes()),
        case("code-zero", 7, 32, "code", Message::new(1, 1).text(3, "-").raw(0, &[]).bytes()),
    ]
}

fn of_missing() -> Vec<Case> {
    let of = |at, part, message: Message| case("missing-field", 9, at, part, message.bytes());
    vec![
        of(12, "array length", Message::new(1, 1)),
        of(26, "padding", Message::new(1, 1).text(1, "/")),
        of(26, "padding", Message::new(1, 1).text(3, "M")),
        of(37, "padding", Message::new(2, 1).number(9, 5).text(8, "").raw(77, b"\x01y\0\0")),
        of(12, "array length", Message::new(3, 1).number(5, 1)),
        of(28, "padding", Message::new(3, 1).text(4, "a.b")),
        of(42, "padding", Message::new(4, 1).text(1, "/").text(3, "M")),
        of(44, "padding", Message::new(4, 1).text(1, "/").text(2, "a.b")),
        of(44, "padding", Message::new(4, 1).text(3, "M").text(2, "a.b")),
    ]
}

/// So many variants in each other, and in the last an array without elements.
pub fn ending_in_array(variants: usize) -> Vec<u8> {
    let mut rest = [1, b'v', 0].repeat(variants - 1);
    rest.extend(b"\x02ay\0");
    rest.resize((rest.len() + 17).next_multiple_of(4) - 17 + 4, 0);
    unknown(&rest)
}

/// So many variants in each other, and in the last an array of dict entries of two bytes, one or none.
pub fn ending_in_entries(variants: usize, length: u32) -> Vec<u8> {
    let mut rest = [1, b'v', 0].repeat(variants - 1);
    rest.extend(b"\x05a{yy}\0");
    rest.resize((rest.len() + 17).next_multiple_of(4) - 17, 0);
    rest.extend(length.to_le_bytes());
    rest.resize((rest.len() + 17).next_multiple_of(8) - 17 + length as usize, 0);
    unknown(&rest)
}

/// A path of so many bytes in the only field.
pub fn long_path(length: usize) -> Vec<u8> {
    Message::new(5, 1).text(1, &("/".to_string() + &"x".repeat(length - 1))).bytes()
}

/// A long path whose byte 1,000 is bad.
pub fn bad_in_the_middle() -> Vec<u8> {
    let mut bytes = long_path(2_000);
    bytes[24 + 1_000] = b'-';
    bytes
}

/// Heads on both sides of every limit.
pub fn near_limits() -> Vec<Vec<u8>> {
    let mut heads = Vec::new();
    for count in 58..68 {
        heads.extend([variants(count), ending_in_array(count)]);
        heads.extend([ending_in_entries(count, 0), ending_in_entries(count, 2)]);
    }
    for count in 30..35 {
        let texts = [
            "a".repeat(count) + "y",
            "(".repeat(count) + "y" + &")".repeat(count),
            "a(".repeat(count) + "y" + &")".repeat(count),
            "a{y".repeat(count) + "y" + &"}".repeat(count),
        ];
        for text in texts {
            heads.push(Message::new(5, 1).text(8, &text).bytes());
            heads.push(of_letter(b'g', &[&[text.len() as u8], text.as_bytes(), &[0]].concat()));
            heads.push(unknown(&[&[text.len() as u8], text.as_bytes(), &[0; 9]].concat()));
        }
    }
    for length in 253..258 {
        let letters = "x".repeat(length - 3);
        heads
            .extend([2, 4, 6, 7].map(|code| Message::new(5, 1).text(code, &format!("x.{letters}x")).bytes()));
        heads.push(Message::new(5, 1).text(6, &format!(":1.{letters}")).bytes());
        heads.push(Message::new(5, 1).text(3, &format!("xxx{letters}")).bytes());
    }
    for length in 2_018..2_030 {
        heads.push(long_path(length));
    }
    for body in 134_217_680..134_217_720 {
        heads.extend([0, 1, 8, 9, 16, 17, 2_032, 2_033].map(|array| bare(5, body, array)));
    }
    heads
}
