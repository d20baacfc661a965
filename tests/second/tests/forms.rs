//! The tool's readable forms beside the second program: two readings of one thing must come to the same.

use forms::message as parts;
use forms::names::{self as forms_names, Form};
use second::generate::{generate, Mode};
use second::message::Message;
use second::wire::ByteOrder;
use second::{capture, image, names};

#[test]
fn captures_and_images() {
    let (mut broken, mut bad) = (0, 0);
    for mode in [Mode::Mixed, Mode::BadImage, Mode::BadLayout] {
        for seed in 1..=100 {
            let file = generate(seed, 40, mode);
            let (ours, theirs) = (capture::read(&file), forms::capture::read(&file));
            assert_eq!(ours.is_whole, theirs.fault.is_none(), "{mode:?} {seed}");
            assert_eq!(capture::write(&ours.capture), forms::capture::write(&theirs.capture));
            let read = image::read(&ours.capture.image);
            assert_eq!(
                read.as_ref().err().map(|_| ()),
                forms::image::read(&ours.capture.image).err().map(|_| ()),
                "{mode:?} {seed}: {read:?}"
            );
            broken += usize::from(!ours.is_whole);
            bad += usize::from(read.is_err());
        }
    }
    assert!(broken > 50 && bad > 50, "{broken} broken captures, {bad} bad images");
}

#[test]
fn messages() {
    let orders = [(ByteOrder::Little, parts::ByteOrder::Little), (ByteOrder::Big, parts::ByteOrder::Big)];
    for (ours, theirs) in orders {
        let second = Message::call(7, "/x", "M").interface("a.b").to(":1.2").signature("ay").descriptors(2);
        let second = second.raw(200, b"\x01y\0\x05").flags(1).body(&[1, 2, 3]).order(ours);
        let tool = parts::Message::new(parts::METHOD_CALL, 7)
            .text(parts::PATH, "/x")
            .text(parts::MEMBER, "M")
            .text(parts::INTERFACE, "a.b")
            .text(parts::DESTINATION, ":1.2")
            .text(parts::SIGNATURE, "ay")
            .number(parts::DESCRIPTORS, 2)
            .raw(200, b"\x01y\0\x05");
        let tool = parts::Message { order: theirs, flags: 1, body: vec![1, 2, 3], ..tool };
        assert_eq!(second.bytes(), tool.bytes());
    }
}

type Test = fn(&[u8]) -> bool;

const FORMS: [(Form, Test); 6] = [
    (Form::Interface, names::is_interface),
    (Form::WellKnown, names::is_well_known),
    (Form::Unique, names::is_unique),
    (Form::Bus, names::is_bus_name),
    (Form::Member, names::is_member),
    (Form::Path, names::is_path),
];

fn agree(text: &[u8]) {
    for (form, test) in FORMS {
        assert_eq!(forms_names::is(form, text), test(text), "{form:?} {}", String::from_utf8_lossy(text));
    }
}

/// Every text of up to five bytes with one byte of each kind.
#[test]
fn short_names() {
    let kinds = b"a9_-.:/@";
    let mut texts: Vec<Vec<u8>> = vec![Vec::new()];
    for _ in 0..5 {
        texts.iter().for_each(|text| agree(text));
        texts = texts.iter().flat_map(|text| kinds.map(|kind| [text.as_slice(), &[kind]].concat())).collect();
    }
    texts.iter().for_each(|text| agree(text));
}

/// Every byte at the front, in the middle and at the end; lengths at the limit and one beyond.
#[test]
fn bytes_and_lengths_of_names() {
    for byte in 0..=255 {
        for text in [&b"ab.cd"[..], b":a.bc", b"/ab/c", b"abcde"] {
            for at in 0..text.len() {
                let mut text = text.to_vec();
                text[at] = byte;
                agree(&text);
            }
        }
    }
    for length in 250..=260 {
        let filled = |front: &str| agree(format!("{front}{}", "a".repeat(length - front.len())).as_bytes());
        ["a.", ":1.", "a", "/"].into_iter().for_each(filled);
    }
}
