//! Capture files: their layout, each way to break it, and the lines that are printed.

mod common;

use common::{image_of, OPEN};
use second::capture::{self, Call, Capture};
use second::message::Message;
use second::policy::{Gid, Uid};
use second::replay::replay;

fn sample() -> Capture {
    let piece = |peer, bytes: &[u8]| Call::Piece { peer, bytes: bytes.to_vec() };
    let message = Message::call(1, "/", "M");
    let calls = vec![
        Call::Start,
        Call::Connect { uid: Uid(1), gids: vec![Gid(2), Gid(3)] },
        Call::Connect { uid: Uid(1), gids: vec![Gid(2); 17] },
        Call::Own { peer: 1, name: b"org.a".to_vec() },
        Call::Own { peer: 1, name: Vec::new() },
        Call::Release { peer: 1, name: b"org.b".to_vec() },
        piece(1, &message.bytes()),
        piece(1, &message.clone().to("org.a").bytes()),
        piece(1, &Message::signal(1, "/", "a.b", "S").bytes()),
        piece(1, &[0; 7]),
        piece(2, &[]),
        Call::Tick { tick: 0x0102_0304_0506_0708, limit: u64::MAX },
        Call::Tick { tick: 0x0102_0304_0506_0707, limit: 0 },
        Call::Tick { tick: u64::MAX, limit: 0 },
        Call::Disconnect { peer: 1 },
        Call::Disconnect { peer: 1 },
    ];
    Capture { image: image_of(OPEN), calls }
}

const LINES: &str = "start 0
connect 0 1 0 1 0
connect 37 0 0 0 0
own 0 1 0
own 31 0 0
release 35
piece 0 48 1 0 0 1 0
piece 0 64 2 1 0 1 1
piece 0 64 3 1 1 0 0
piece 10 7 0 0 0 0 0
piece 30 0 0 0 0 0 0
tick 0 0
tick 41 0
tick 0 1
disconnect 0 7
disconnect 30 0
";

#[test]
fn lines() {
    assert_eq!(replay(&capture::write(&sample())), LINES);
}

#[test]
fn round_trip() {
    let reading = capture::read(&capture::write(&sample()));
    assert!(reading.is_whole);
    assert_eq!(reading.capture, sample());
}

#[test]
fn cut_anywhere() {
    let file = capture::write(&sample());
    let ends: Vec<usize> = (0..=sample().calls.len())
        .map(|count| {
            let calls = sample().calls[..count].to_vec();
            capture::write(&Capture { calls, ..sample() }).len()
        })
        .collect();
    for length in 0..=file.len() {
        let whole_calls = ends.iter().filter(|end| **end <= length).count().saturating_sub(1);
        let mut expected: String = LINES.split_inclusive('\n').take(whole_calls).collect();
        if !ends.contains(&length) {
            expected.push_str("bad capture\n");
        }
        assert_eq!(replay(&file[..length]), expected, "{length}");
    }
}

/// A capture of one call with this kind and these bytes, after a start.
fn one_call(kind: u32, bytes: &[u8]) -> String {
    let mut file = capture::write(&Capture { image: image_of(OPEN), calls: vec![Call::Start] });
    file.extend(kind.to_le_bytes());
    file.extend((bytes.len() as u32).to_le_bytes());
    file.extend(bytes);
    replay(&file)
}

#[test]
fn broken_layout() {
    let broken = "start 0\nbad capture\n";
    assert_eq!(one_call(0, &[0]), broken);
    for length in [0, 1, 2, 3, 5, 6, 7, 9] {
        assert_eq!(one_call(1, &vec![0; length]), broken);
    }
    for kind in [2, 3, 4, 5] {
        for length in [0, 3] {
            assert_eq!(one_call(kind, &vec![0; length]), broken);
        }
    }
    assert_eq!(one_call(5, &[0; 5]), broken);
    for length in [0, 4, 8, 12, 15, 17, 20, 24, 32] {
        assert_eq!(one_call(6, &vec![0; length]), broken);
    }
    for kind in [7, u32::MAX] {
        for length in [0, 4, 16] {
            assert_eq!(one_call(kind, &vec![0; length]), broken);
        }
    }
    assert_eq!(one_call(0, &[]), "start 0\nstart 0\n");
    assert_eq!(one_call(6, &[0; 16]), "start 0\ntick 0 0\n");
    assert_eq!(one_call(4, &[0; 4]), "start 0\npiece 30 0 0 0 0 0 0\n");
}

/// The tick comes before the limit, and of each the lowest byte first.
#[test]
fn the_bytes_of_a_tick() {
    let tick = Call::Tick { tick: 0x0807_0605_0403_0201, limit: 0x1817_1615_1413_1211 };
    let file = capture::write(&Capture { image: Vec::new(), calls: vec![tick.clone()] });
    let mut expected = vec![0, 0, 0, 0, 6, 0, 0, 0, 16, 0, 0, 0];
    expected.extend(0x01..=0x08);
    expected.extend(0x11..=0x18);
    assert_eq!(file, expected);
    assert_eq!(capture::read(&file).capture.calls, [tick]);
}

#[test]
fn a_bad_image_is_no_layout_breach() {
    let bad = Capture { image: b"no image".to_vec(), ..sample() };
    let expected = "start 0\n".to_string()
        + &"connect 50 0 0 0 0\n".repeat(2)
        + &"own 50 0 0\n".repeat(2)
        + "release 30\n"
        + &"piece 50 0 0 0 0 0 0\n".repeat(5)
        + "tick 0 0\ntick 41 0\ntick 0 0\n"
        + &"disconnect 30 0\n".repeat(2);
    assert_eq!(replay(&capture::write(&bad)), expected);
    let empty = Capture { image: Vec::new(), ..bad };
    assert_eq!(replay(&capture::write(&empty)), expected);
}

#[test]
fn lengths_that_would_wrap() {
    let mut file = u32::MAX.to_le_bytes().to_vec();
    file.extend([0; 100]);
    assert_eq!(replay(&file), "bad capture\n");
    let mut call = capture::write(&Capture { image: Vec::new(), calls: vec![Call::Start] });
    call.extend(4_u32.to_le_bytes());
    call.extend(u32::MAX.to_le_bytes());
    call.extend([0; 100]);
    assert_eq!(replay(&call), "start 0\nbad capture\n");
}
