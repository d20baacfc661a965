//! Scripts: each kind of call, the three ways to give a policy, messages in words, and faults with their lines.

use forms::capture::{Call, Capture};
use forms::message::{self, ByteOrder, Message};
use forms::policy::{Gid, Uid};
use forms::policy_text::{self, TextFault};
use forms::{image, script};
use std::path::Path;

const OPEN: &str = "connect default allow any
    own default allow any
    transaction default allow send any
    transaction default allow receive any";

fn open_image() -> Vec<u8> {
    image::write(&policy_text::parse(OPEN).expect("good text").policy).expect("it has an image")
}

fn compile(text: &str) -> Result<Capture, TextFault> {
    let files = |path: &Path| match path.to_str() {
        Some("open.policy") => Ok(OPEN.as_bytes().to_vec()),
        Some("bad.policy") => Ok(b"\nown default allow name org\n".to_vec()),
        Some("full.policy") => Ok("own default allow any\n".repeat(257).into_bytes()),
        Some("bytes") => Ok(vec![1, 2, 3]),
        Some("no-text") => Ok(vec![0xff]),
        _ => Err("no such file".to_string()),
    };
    script::parse(text, &files)
}

fn pieces(peer: u32, pieces: impl IntoIterator<Item = Vec<u8>>) -> Vec<Call> {
    pieces.into_iter().map(|bytes| Call::Piece { peer, bytes }).collect()
}

#[test]
fn calls() {
    let text = "policy open.policy # the policy comes first
        start
        connect 1000
        connect 0xffffffff gid 5 6
        own 1 org.a.b
        own 1
        own 1 hex 20ff
        release 2 org.a.b
        piece 1 empty
        piece 1 hex 6c 01 ff
        piece 1 file bytes
        piece 1 file bytes cut=2
        disconnect 2
        tick 0 18446744073709551615
        tick 0x100000000 7";
    let mut calls = vec![
        Call::Start,
        Call::Connect { uid: Uid(1000), gids: Vec::new() },
        Call::Connect { uid: Uid(u32::MAX), gids: vec![Gid(5), Gid(6)] },
        Call::Own { peer: 1, name: b"org.a.b".to_vec() },
        Call::Own { peer: 1, name: Vec::new() },
        Call::Own { peer: 1, name: vec![0x20, 0xff] },
        Call::Release { peer: 2, name: b"org.a.b".to_vec() },
    ];
    calls.extend(pieces(1, [vec![], vec![0x6c, 1, 0xff], vec![1, 2, 3], vec![1, 2], vec![3]]));
    calls.push(Call::Disconnect { peer: 2 });
    calls.push(Call::Tick { tick: 0, limit: u64::MAX });
    calls.push(Call::Tick { tick: 1 << 32, limit: 7 });
    assert_eq!(compile(text), Ok(Capture { image: open_image(), calls }));
}

#[test]
fn policies() {
    let rules: String = OPEN.lines().map(|line| format!("rule {line}\n")).collect();
    let calls = Vec::new();
    assert_eq!(compile(&rules), Ok(Capture { image: open_image(), calls: calls.clone() }));
    assert_eq!(compile("image bytes"), Ok(Capture { image: vec![1, 2, 3], calls: calls.clone() }));
    assert_eq!(compile("image hex 0102 03"), Ok(Capture { image: vec![1, 2, 3], calls: calls.clone() }));
    assert_eq!(compile("image hex"), Ok(Capture { image: Vec::new(), calls }));
    assert_eq!(compile(""), Ok(Capture::default()));
    for wrong in ["policy open.policy\n", "image hex 00\n"] {
        assert_eq!(fault(&format!("{wrong}{rules}")), "2: a script has one policy, one image, or rules");
        assert_eq!(fault(&format!("{rules}{wrong}")), "5: a script has one policy, one image, or rules");
    }
}

#[test]
fn messages() {
    let text = "image hex 00
        piece 3 message call serial=7 path=/x member=M interface=a.b destination=:1.2 sender=:1.3 signature=y \
        flags=1 body=05
        piece 3 message error order=big serial=0x10 error=a.b reply=9 descriptors=2 cut=16
        piece 3 message 9 version=2 body-length=3";
    let first = Message::new(message::METHOD_CALL, 7)
        .text(message::PATH, "/x")
        .text(message::MEMBER, "M")
        .text(message::INTERFACE, "a.b")
        .text(message::DESTINATION, ":1.2")
        .text(message::SENDER, ":1.3")
        .text(message::SIGNATURE, "y");
    let first = Message { flags: 1, body: vec![5], ..first };
    let second = Message::new(message::ERROR, 16)
        .text(message::ERROR_NAME, "a.b")
        .number(message::REPLY_SERIAL, 9)
        .number(message::DESCRIPTORS, 2);
    let second = Message { order: ByteOrder::Big, ..second }.bytes();
    let third = Message { version: 2, body: vec![0; 3], ..Message::new(9, 1) };
    let mut all = vec![first.bytes()];
    all.extend(second.chunks(16).map(<[u8]>::to_vec));
    all.push(third.bytes());
    assert_eq!(compile(text), Ok(Capture { image: vec![0], calls: pieces(3, all) }));
}

/// The bytes of one message, written by hand, so that the builder is held to them too.
#[test]
fn bytes_of_a_message() {
    let call_c =
        "6c01000100000000010000001a000000 01016f00010000002f00000000000000 03017300010000004d00000000000000";
    let hex = compile(&format!("image hex 00\npiece 1 hex {call_c}"));
    assert_eq!(compile("image hex 00\npiece 1 message call path=/ member=M"), hex);
    let big = "4204010100000002000000090000001d 01016f00000000012f00000000000000 0801670002617900 0b01790007000000 0506";
    let hex = compile(&format!("image hex 00\npiece 1 hex {big}"));
    let words = "order=big flags=1 serial=9 path=/ signature=ay field=11:y:07 body=0506";
    assert_eq!(compile(&format!("image hex 00\npiece 1 message signal {words}")), hex);
}

#[test]
fn fields() {
    let text = "image hex 00
        piece 1 message call order=big path=/ field=10:at:0000000000000000000000 member=M field=255::
        piece 1 message 5 field=0x0b:a{sv}:ff";
    let empty = [b"\x02at".as_slice(), &[0; 12]].concat();
    let first = Message::new(1, 1).text(1, "/").raw(10, &empty).text(3, "M").raw(255, &[0, 0]);
    let first = Message { order: ByteOrder::Big, ..first };
    let second = Message::new(5, 1).raw(11, b"\x05a{sv}\0\xff");
    let calls = pieces(1, [first.bytes(), second.bytes()]);
    assert_eq!(compile(text), Ok(Capture { image: vec![0], calls }));
}

/// The fault of a script, as LINE: WHAT.
fn fault(text: &str) -> String {
    let TextFault { line, what } = compile(text).expect_err(text);
    format!("{line}: {what}")
}

#[test]
fn faults_of_policies() {
    let wanted = [
        ("start", "1: a policy, an image or rules must come first"),
        ("policy nothing", "1: no such file"),
        ("policy no-text", "1: no-text is no text"),
        (
            "policy bad.policy",
            "1: bad.policy:2: org is no well-known name: at its byte 3 wanted two elements at least",
        ),
        ("policy full.policy", "1: full.policy: more than 256 own rules"),
        ("image", "1: expected policy FILE, image FILE or image hex DIGITS"),
        ("policy a b", "1: expected policy FILE, image FILE or image hex DIGITS"),
        ("image hex 0", "1: hex bytes have two digits each"),
        ("\n#\nrule own default allow", "3: any, name or prefix is missing"),
        ("image hex\nstart\npolicy open.policy", "3: the policy comes before the calls"),
        (
            "rule own default allow any\nstart\nrule own default allow any",
            "3: the policy comes before the calls",
        ),
    ];
    for (text, said) in wanted {
        assert_eq!(fault(text), said, "{text}");
    }
    // What all rules come to is told at the last one.
    let full = "rule own default allow any\n".repeat(257);
    assert_eq!(fault(&format!("{full}\nstart\n")), "257: more than 256 own rules");
}

/// The fault of a call in line 3.
fn call_fault(call: &str) -> String {
    let said = fault(&format!("policy open.policy\nstart\n{call}"));
    said.strip_prefix("3: ").expect("the third line").to_string()
}

#[test]
fn faults_of_calls() {
    let wanted = [
        ("begin", "not a call: begin"),
        ("start now", "not a call: start now"),
        ("connect", "not a call: connect"),
        ("connect x", "x is no number up to 4294967295"),
        ("connect +1", "+1 is no number up to 4294967295"),
        ("connect 0x+1", "0x+1 is no number up to 4294967295"),
        ("connect 4294967296", "4294967296 is no number up to 4294967295"),
        ("connect 1 5", "not a call: connect 1 5"),
        ("connect 1 gid x", "x is no number up to 4294967295"),
        ("own", "not a call: own"),
        ("own 1 a.b c", "not a name: a.b c"),
        ("release 1 hex 6", "hex bytes have two digits each"),
        ("disconnect", "not a call: disconnect"),
        ("disconnect 1 2", "not a call: disconnect 1 2"),
        ("tick", "not a call: tick"),
        ("tick 1", "not a call: tick 1"),
        ("tick 1 2 3", "not a call: tick 1 2 3"),
        ("tick x 2", "x is no number up to 18446744073709551615"),
        ("tick 1 +2", "+2 is no number up to 18446744073709551615"),
        ("tick -1 2", "-1 is no number up to 18446744073709551615"),
        ("tick 18446744073709551616 2", "18446744073709551616 is no number up to 18446744073709551615"),
        ("tick 1 0x10000000000000000", "0x10000000000000000 is no number up to 18446744073709551615"),
    ];
    for (call, said) in wanted {
        assert_eq!(call_fault(call), said, "{call}");
    }
}

#[test]
fn faults_of_pieces() {
    let a_piece_is = "a piece is empty, hex DIGITS, file PATH or message TYPE";
    let wanted = [
        ("", a_piece_is),
        ("empty 1", a_piece_is),
        ("message", a_piece_is),
        ("file", a_piece_is),
        ("hex 6", "hex bytes have two digits each"),
        ("hex zz", "zz is no hex byte"),
        ("file nothing", "no such file"),
        ("empty cut=0", "cut=0 would never end"),
        ("hex 00 cut=x", "x is no number up to 4294967295"),
        ("message 256", "256 does not fit a byte"),
        ("message some", "some is no number up to 4294967295"),
        ("message call serial", "serial is not KEY=VALUE"),
        ("message call serial=4294967296", "4294967296 is no number up to 4294967295"),
        ("message call flags=256", "256 does not fit a byte"),
        ("message call color=red", "unknown part color=red"),
        ("message call order=middle", "unknown part order=middle"),
        ("message call body=0", "hex bytes have two digits each"),
        ("message call field=10", "10 is not CODE:SIGNATURE:DIGITS"),
        ("message call field=10:u", "10:u is not CODE:SIGNATURE:DIGITS"),
        ("message call field=10:u:0:", "10:u:0: is not CODE:SIGNATURE:DIGITS"),
        ("message call field=10:u:0", "hex bytes have two digits each"),
        ("message call field=256:u:00000000", "256 does not fit a byte"),
    ];
    for (rest, said) in wanted {
        assert_eq!(call_fault(&format!("piece 1 {rest}")), said, "{rest}");
    }
}

/// Each limit, and one beyond.
#[test]
fn limits() {
    let letters = |count: usize| "y".repeat(count);
    for key in ["signature=", "field=10:"] {
        let with = |count| {
            format!(
                "piece 1 message call {key}{}{}",
                letters(count),
                if key == "field=10:" { ":" } else { "" }
            )
        };
        assert!(compile(&format!("image hex\n{}", with(255))).is_ok());
        assert_eq!(call_fault(&with(256)), "a signature has at most 255 bytes");
    }
    let body = |length: u32| format!("piece 1 message call body-length={length}");
    assert!(compile(&format!("image hex\n{}", body(134_217_728))).is_ok());
    let said = "a body of 134217729 bytes is longer than a message may be";
    assert_eq!(call_fault(&body(134_217_729)), said);
}

/// What a capture may not hold is refused before it is made.
#[test]
fn the_longest_capture() {
    let said = "the capture would be longer than 268,435,456 bytes";
    assert_eq!(call_fault("piece 1 message call body-length=134217728 cut=1"), said);
    // A piece has 12 bytes before those of its message, and this message 16 before those of its body.
    let piece = |body: u32| format!("piece 1 message call body-length={}\n", body - 28);
    let two = |last| format!("image hex\n{}{}", piece(1 << 27), piece(last));
    assert_eq!(compile(&two(1 << 27)).map(|capture| capture.calls.len()), Ok(2));
    assert_eq!(fault(&two((1 << 27) + 1)), format!("3: {said}"));
}
