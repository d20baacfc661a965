//! UTF-8 in strings: each border and one beyond, and the standard library's opinion.

use second::utf8::{faults, Utf8Fault};

fn good(text: &[u8]) {
    assert_eq!(faults(text), [], "{text:02x?}");
}

fn bad(text: &[u8], fault: Utf8Fault) {
    assert_eq!(faults(text), [fault], "{text:02x?}");
    let inside = [b"a", text, "\u{20ac}".as_bytes()].concat();
    assert_eq!(faults(&inside), [fault], "{inside:02x?}");
}

#[test]
fn borders_of_each_length() {
    for (first, last) in [("\u{1}", "\u{7f}"), ("\u{80}", "\u{7ff}"), ("\u{800}", "\u{ffff}")] {
        good(first.as_bytes());
        good(last.as_bytes());
    }
    good("\u{10000}".as_bytes());
    good("\u{10ffff}".as_bytes());
    good(b"");
    good("a\u{e9}\u{20ac}\u{1f600}".as_bytes());
}

#[test]
fn noncharacters() {
    for text in ["\u{fdd0}", "\u{fdef}", "\u{fffe}", "\u{ffff}", "\u{1fffe}", "\u{10fffe}", "\u{10ffff}"] {
        good(text.as_bytes());
    }
}

#[test]
fn longer_than_needed() {
    for text in [b"\xc0\x80".as_slice(), b"\xc0\xaf", b"\xc1\xbf"] {
        bad(text, Utf8Fault::Overlong);
    }
    for text in [b"\xe0\x80\x80".as_slice(), b"\xe0\x9f\xbf", b"\xf0\x80\x80\x80", b"\xf0\x8f\xbf\xbf"] {
        bad(text, Utf8Fault::Overlong);
    }
    good(b"\xc2\x80\xe0\xa0\x80\xf0\x90\x80\x80");
}

#[test]
fn surrogates() {
    bad(b"\xed\xa0\x80", Utf8Fault::Surrogate);
    bad(b"\xed\xbf\xbf", Utf8Fault::Surrogate);
    good(b"\xed\x9f\xbf");
    good(b"\xee\x80\x80");
    // A pair of them is no character either.
    assert_eq!(faults(b"\xed\xa0\xbd\xed\xb8\x80"), [Utf8Fault::Surrogate; 2]);
}

#[test]
fn above_the_last_character() {
    good(b"\xf4\x8f\xbf\xbf");
    bad(b"\xf4\x90\x80\x80", Utf8Fault::AboveUnicode);
    bad(b"\xf5\x80\x80\x80", Utf8Fault::AboveUnicode);
    bad(b"\xf7\xbf\xbf\xbf", Utf8Fault::AboveUnicode);
}

#[test]
fn cut_and_stray() {
    for text in [b"\xc3".as_slice(), b"\xe2", b"\xe2\x82", b"\xf0", b"\xf0\x9f", b"\xf0\x9f\x98"] {
        bad(text, Utf8Fault::CutSequence);
    }
    for byte in (0x80..=0xbf).chain(0xf8..=0xff) {
        bad(&[byte], Utf8Fault::StrayByte);
    }
}

fn agrees(text: &[u8]) {
    assert_eq!(faults(text).is_empty(), std::str::from_utf8(text).is_ok(), "{text:02x?}");
}

#[test]
fn the_standard_library_agrees() {
    for first in 0..=255 {
        agrees(&[first]);
        for second in 0..=255 {
            agrees(&[first, second]);
            for third in 0..=255 {
                agrees(&[first, second, third]);
            }
        }
    }
    for first in 0xe0..=0xff {
        for second in 0x7f..=0xc0 {
            for (third, fourth) in [(0x80, 0x80), (0xbf, 0xbf), (0x7f, 0x80), (0x80, 0xc0), (0xbf, 0x7f)] {
                agrees(&[first, second, third, fourth]);
                agrees(&[b'a', first, second, third, fourth, b'z']);
            }
        }
    }
}
