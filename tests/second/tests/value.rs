//! Values of unknown header fields, each rule on bytes written by hand. The field begins at a
//! multiple of 8 with its code, the signature's length, the signature and a zero; the hex
//! digits are what stands behind that.

mod common;

use common::judge;
use second::header::{HeadFault, Malformed};
use second::message::Message;
use second::utf8::Utf8Fault;
use second::value::ValueFault;
use second::wire::ByteOrder;

fn hex(digits: &str) -> Vec<u8> {
    forms::hex::parse(&digits.replace(' ', "")).expect("hex digits")
}

/// What a call says whose last field has code 10, this signature and these bytes behind it.
fn walked(order: ByteOrder, signature: &str, rest: &[u8]) -> (u32, Option<HeadFault>) {
    let rest = [&[signature.len() as u8], signature.as_bytes(), &[0], rest].concat();
    let bytes = Message::call(1, "/", "M").order(order).raw(10, &rest).bytes();
    let (answer, taken, fault) = judge(&bytes);
    assert_eq!(taken, bytes.len());
    (answer, fault)
}

fn answer(signature: &str, rest: &[u8]) -> u32 {
    walked(ByteOrder::Little, signature, rest).0
}

/// A good value; one byte less or more is always a fault.
fn good_bytes(signature: &str, rest: &[u8]) {
    assert_eq!(answer(signature, rest), 0, "{signature} {rest:02x?}");
    for length in 0..rest.len() {
        assert_eq!(answer(signature, &rest[..length]), 7, "{signature} {rest:02x?} cut to {length}");
    }
    let longer = [rest, &[0]].concat();
    assert_eq!(answer(signature, &longer), 7, "{signature} {longer:02x?}");
}

fn bad_bytes(signature: &str, rest: &[u8], fault: ValueFault) {
    let expected = (7, Some(HeadFault::Malformed(Malformed::Unknown(fault))));
    assert_eq!(walked(ByteOrder::Little, signature, rest), expected, "{signature} {rest:02x?}");
}

fn good(signature: &str, digits: &str) {
    good_bytes(signature, &hex(digits));
}

fn bad(signature: &str, digits: &str, fault: ValueFault) {
    bad_bytes(signature, &hex(digits), fault);
}

#[test]
fn numbers() {
    good("y", "ff");
    good("n", "01ff");
    good("q", "01ff");
    for letter in ["i", "u", "h"] {
        good(letter, "010203ff");
    }
    for letter in ["x", "t", "d"] {
        good(letter, "00000000 01020304050607ff");
        for padding in ["01000000", "00010000", "00000100", "00000001", "80000000"] {
            bad(letter, &format!("{padding} 01020304050607ff"), ValueFault::Padding);
        }
    }
}

#[test]
fn booleans_in_the_order_of_the_message() {
    good("b", "00000000");
    good("b", "01000000");
    for number in ["02000000", "00010000", "00000001", "01000001", "ffffffff"] {
        bad("b", number, ValueFault::Boolean);
    }
    assert_eq!(walked(ByteOrder::Big, "b", &hex("00000001")).0, 0);
    for number in ["01000000", "00000002", "00000100"] {
        assert_eq!(walked(ByteOrder::Big, "b", &hex(number)).0, 7);
    }
}

#[test]
fn lengths_in_the_order_of_the_message() {
    assert_eq!(walked(ByteOrder::Big, "s", &hex("00000001 78 00")).0, 0);
    assert_eq!(walked(ByteOrder::Big, "s", &hex("01000000 78 00")).0, 7);
    assert_eq!(walked(ByteOrder::Big, "ay", &hex("000000 00000002 ffff")).0, 0);
    assert_eq!(walked(ByteOrder::Big, "ay", &hex("000000 02000000 ffff")).0, 7);
}

#[test]
fn strings() {
    good("s", "00000000 00");
    good("s", "03000000 612063 00");
    good("s", "04000000 f48fbfbf 00");
    good("s", "03000000 efbfbe 00");
    good("s", "03000000 efb790 00");
    bad("s", "01000000 6162", ValueFault::NoZeroAfterText);
    bad("s", "01000000 00 00", ValueFault::ZeroInText);
    bad("s", "03000000 610062 00", ValueFault::ZeroInText);
    let texts = [
        ("02000000 c080 00", Utf8Fault::Overlong),
        ("03000000 e09fbf 00", Utf8Fault::Overlong),
        ("04000000 f08fbfbf 00", Utf8Fault::Overlong),
        ("03000000 eda080 00", Utf8Fault::Surrogate),
        ("03000000 edbfbf 00", Utf8Fault::Surrogate),
        ("04000000 f4908080 00", Utf8Fault::AboveUnicode),
        ("02000000 61c3 00", Utf8Fault::CutSequence),
        ("01000000 80 00", Utf8Fault::StrayByte),
        ("01000000 ff 00", Utf8Fault::StrayByte),
    ];
    for (rest, fault) in texts {
        bad("s", rest, ValueFault::Text(fault));
    }
    // A sequence may not run over the end of its string.
    bad("s", "01000000 c3a9", ValueFault::NoZeroAfterText);
}

#[test]
fn lengths_of_texts() {
    bad("s", "02000000 61 00", ValueFault::PastTheArray);
    bad("s", "00000000 61 00", ValueFault::NoZeroAfterText);
    for length in ["ffffffff", "feffffff", "00000080", "ffffff7f"] {
        bad("s", &format!("{length} 61 00"), ValueFault::PastTheArray);
        bad("o", &format!("{length} 2f 00"), ValueFault::PastTheArray);
        bad("ay", &format!("000000 {length} 61"), ValueFault::PastTheArray);
    }
    bad("g", "03 6179 00", ValueFault::PastTheArray);
    bad("g", "ff 6179 00", ValueFault::PastTheArray);
}

#[test]
fn paths() {
    good("o", "01000000 2f 00");
    good("o", "04000000 2f612f30 00");
    for path in ["00000000", "01000000 61", "03000000 2f612f", "02000000 2f2f", "02000000 2f2d"] {
        bad("o", &format!("{path} 00"), ValueFault::NotAPath);
    }
    bad("o", "02000000 2f00 00", ValueFault::NotAPath);
    bad("o", "01000000 2f2f", ValueFault::NoZeroAfterText);
    // A path has no limit of its own.
    good_bytes("o", &[hex("2c010000 2f"), vec![b'x'; 299], vec![0]].concat());
}

#[test]
fn signatures_as_values() {
    good("g", "00 00");
    good("g", "01 79 00");
    good("g", "08 617b73767d617979 00");
    good_bytes("g", &[vec![255], vec![b'y'; 255], vec![0]].concat());
    for text in ["a", "()", "{sv}", "a{vs}", "z", "(y", "y\0"] {
        let rest = [&[text.len() as u8], text.as_bytes(), &[0]].concat();
        bad_bytes("g", &rest, ValueFault::NotASignatureValue);
    }
    bad("g", "01 7979", ValueFault::NoZeroAfterText);
    let arrays = |count: usize| [vec![count as u8 + 1], vec![b'a'; count], b"y\0".to_vec()].concat();
    good_bytes("g", &arrays(32));
    bad_bytes("g", &arrays(33), ValueFault::NotASignatureValue);
}

#[test]
fn arrays() {
    good("ay", "000000 02000000 ffff");
    good("ay", "000000 00000000");
    good("aq", "000000 04000000 0100 0200");
    good("au", "000000 04000000 01000000");
    good("as", "000000 0d000000 01000000 61 00 0000 00000000 00");
    good("aay", "0000 05000000 01000000 ff");
    good("av", "000000 04000000 01 79 00 ff");
    good("ag", "000000 05000000 00 00 01 79 00");
    good("ad", "000000 08000000 00000000 0102030405060708");
    bad("as", "000000 0d000000 01000000 61 00 0001 00000000 00", ValueFault::Padding);
    bad("ay", "000001 00000000", ValueFault::Padding);
}

#[test]
fn an_array_ends_where_its_last_element_does() {
    for length in [1, 2, 3, 5, 6, 7] {
        assert_eq!(answer("au", &hex(&format!("000000 0{length}000000 01000000"))), 7);
    }
    bad("au", "000000 03000000 01000000", ValueFault::ArrayEnd);
    good("as", "000000 06000000 01000000 61 00");
    bad("as", "000000 05000000 01000000 61 00", ValueFault::ArrayEnd);
    bad("as", "000000 07000000 01000000 61 00", ValueFault::CutPadding);
    good("a(qy)", "03000000 00000000 0100 02");
    bad("a(qy)", "02000000 00000000 0100 02", ValueFault::ArrayEnd);
    bad("a(qy)", "04000000 00000000 0100 02", ValueFault::CutPadding);
    // Padding behind the last element is no part of the array.
    good("(ayu)", "02000000 ffff 0000 01000000");
    bad("(ayu)", "01000000 ffff 0000 01000000", ValueFault::Padding);
    bad("(ayu)", "02000000 ffff 0001 01000000", ValueFault::Padding);
    good("aay", "0000 0c000000 01000000 ff 000000 00000000");
    bad("aay", "0000 0b000000 01000000 ff 000000 00000000", ValueFault::ArrayEnd);
    // An array inside may not run over the end of the one around it.
    bad("aay", "0000 05000000 02000000 ffff", ValueFault::ArrayEnd);
}

/// The length ends at 12, and elements of these types begin at 16 even where there are none.
#[test]
fn padding_before_the_first_element() {
    for signature in ["at", "ax", "ad"] {
        good(signature, "000000 00000000 00000000");
        for padding in ["", "00", "0000", "000000"] {
            bad(signature, &format!("000000 00000000 {padding}"), ValueFault::CutPadding);
        }
        for padding in ["01000000", "00000080"] {
            bad(signature, &format!("000000 00000000 {padding}"), ValueFault::Padding);
        }
    }
    good("a(y)", "00 00000000 00000000");
    bad("a(y)", "00 00000000", ValueFault::CutPadding);
    good("a{yy}", "00000000 00000000");
    bad("a{yy}", "00000000", ValueFault::CutPadding);
    // Of two arrays inside another the second has padding, which the outer length counts.
    good("aat", "0000 0c000000 00000000 00000000 00000000");
    bad("aat", "0000 08000000 00000000 00000000 00000000", ValueFault::ArrayEnd);
    // What follows an empty array begins behind the padding.
    good("(aty)", "00000000 00000000 07");
    bad("(aty)", "00000000 07000000 00", ValueFault::Padding);
}

#[test]
fn structs_and_entries() {
    good("(y)", "0000 ff");
    good("(yu)", "00 ff 000000 01000000");
    good("(y(y))", "00000000000000 ff 00000000000000 ff");
    bad("(y)", "0100 ff", ValueFault::Padding);
    bad("(yu)", "00 ff 000001 01000000", ValueFault::Padding);
    good("a{sv}", "0a000000 00000000 01000000 6b 00 01 79 00 ff");
    good("a{sv}", "00000000 00000000");
    // Each entry begins at a multiple of 8.
    good("a{yy}", "0a000000 00000000 0102 000000000000 0304");
    bad("a{yy}", "0a000000 00000000 0102 000000000001 0304", ValueFault::Padding);
    bad("a{yy}", "04000000 00000000 0102 0304", ValueFault::CutPadding);
    bad("a{sv}", "0b000000 00000000 01000000 6b 00 01 79 00 ff", ValueFault::CutPadding);
    bad("a{sv}", "09000000 00000000 01000000 6b 00 01 79 00 ff", ValueFault::ArrayEnd);
}

#[test]
fn variants_inside() {
    good("v", "01 79 00 ff");
    good("v", "01 76 00 01 79 00 ff");
    // Alignment counts from the message's first byte: this number begins at 8.
    good("v", "01 75 00 00 01000000");
    bad("v", "01 75 00 01 01000000", ValueFault::Padding);
    bad("v", "00 00", ValueFault::NoType);
    bad("v", "02 7979 00 ffff", ValueFault::SeveralTypes);
    bad("v", "01 61 00 00000000", ValueFault::NotASignature);
    bad("v", "01 79 01 ff", ValueFault::NoZeroAfterSignature);
    bad("v", "03 7979", ValueFault::PastTheArray);
    bad("v", "ff 79 00 ff", ValueFault::PastTheArray);
}

#[test]
fn signatures_of_one_complete_type() {
    bad("", "", ValueFault::NoType);
    bad("", "00", ValueFault::NoType);
    bad("yy", "ffff", ValueFault::SeveralTypes);
    bad("ua{sv}", "", ValueFault::SeveralTypes);
    for text in ["a", "()", "{sv}", "a{vs}", "a{s}", "a{sss}", "(y", "y)", "z", "r", "a{(y)y}", "y\0"] {
        bad(text, "000000 00000000 00000000 00000000", ValueFault::NotASignature);
    }
    // Arrays of arrays that are empty, whatever is in them.
    let arrays = |count: usize| "a".repeat(count) + "y";
    let empty = |signature: &str| {
        [vec![0; (3 + signature.len()).next_multiple_of(4) - 3 - signature.len()], vec![0; 4]].concat()
    };
    good_bytes(&arrays(32), &empty(&arrays(32)));
    bad_bytes(&arrays(33), &empty(&arrays(33)), ValueFault::NotASignature);
    // A signature of 255 bytes: parentheses round 253 bytes.
    let long = format!("({})", "y".repeat(253));
    good_bytes(&long, &[vec![0; 6], vec![0xff; 253]].concat());
    let parentheses = |count: usize| "(".repeat(count) + "y" + &")".repeat(count);
    good_bytes(&parentheses(32), &[vec![0; 4], vec![0xff]].concat());
    bad_bytes(&parentheses(33), &[vec![0; 2], vec![0xff]].concat(), ValueFault::NotASignature);
}

#[test]
fn zero_behind_the_signature() {
    let with_end = |end: u8| {
        let bytes = Message::call(1, "/", "M").raw(10, &[1, b'y', end, 0xff]).bytes();
        judge(&bytes).0
    };
    assert_eq!(with_end(0), 0);
    for end in 1..=255 {
        assert_eq!(with_end(end), 7);
    }
}
