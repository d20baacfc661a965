//! Bytes as hex digits.

use forms::hex::{parse, show};

#[test]
fn both_ways() {
    let all: Vec<u8> = (0..=255).collect();
    assert_eq!(parse(&show(&all)), Ok(all));
    assert_eq!(show(&[0, 0x0f, 0xf0, 0xff]), "000ff0ff");
    assert_eq!(parse("aAfF"), Ok(vec![0xaa, 0xff]));
    assert_eq!(parse(""), Ok(Vec::new()));
}

#[test]
fn faults() {
    for (digits, fault) in [
        ("6", "hex bytes have two digits each"),
        ("éé", "hex bytes have two digits each"),
        ("00zz", "zz is no hex byte"),
        ("+f", "+f is no hex byte"),
        ("-0", "-0 is no hex byte"),
        ("0x", "0x is no hex byte"),
    ] {
        assert_eq!(parse(digits), Err(fault.to_string()), "{digits}");
    }
}
