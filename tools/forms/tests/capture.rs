//! Capture files: both ways, and each fault of the layout with the byte at which it stands.

use forms::capture::{read, write, Call, Capture, CaptureFault, Reading};
use forms::policy::{Gid, Uid};

fn sample() -> Capture {
    let calls = vec![
        Call::Start,
        Call::Connect { uid: Uid(1), gids: vec![Gid(2), Gid(u32::MAX)] },
        Call::Connect { uid: Uid(7), gids: Vec::new() },
        Call::Own { peer: 1, name: b"org.a".to_vec() },
        Call::Own { peer: 1, name: Vec::new() },
        Call::Release { peer: 1, name: b"org.b".to_vec() },
        Call::Piece { peer: 1, bytes: vec![1, 2, 3] },
        Call::Piece { peer: 2, bytes: Vec::new() },
        Call::Tick { tick: 1 << 40, limit: u64::MAX },
        Call::Disconnect { peer: 1 },
        Call::Tick { tick: u64::MAX, limit: 0 },
    ];
    Capture { image: b"any bytes".to_vec(), calls }
}

/// The first calls of the sample.
fn first(count: usize) -> Capture {
    let Capture { image, calls } = sample();
    Capture { image, calls: calls[..count].to_vec() }
}

#[test]
fn bytes_of_each_call() {
    let one = |call| write(&Capture { image: vec![9], calls: vec![call] })[5..].to_vec();
    assert_eq!(write(&Capture { image: vec![9], calls: Vec::new() }), [1, 0, 0, 0, 9]);
    assert_eq!(one(Call::Start), [0; 8]);
    let connect = Call::Connect { uid: Uid(258), gids: vec![Gid(3)] };
    assert_eq!(one(connect), [1, 0, 0, 0, 8, 0, 0, 0, 2, 1, 0, 0, 3, 0, 0, 0]);
    assert_eq!(one(Call::Own { peer: 4, name: vec![5] }), [2, 0, 0, 0, 5, 0, 0, 0, 4, 0, 0, 0, 5]);
    assert_eq!(one(Call::Release { peer: 4, name: vec![5] }), [3, 0, 0, 0, 5, 0, 0, 0, 4, 0, 0, 0, 5]);
    assert_eq!(one(Call::Piece { peer: 4, bytes: vec![5] }), [4, 0, 0, 0, 5, 0, 0, 0, 4, 0, 0, 0, 5]);
    assert_eq!(one(Call::Disconnect { peer: 4 }), [5, 0, 0, 0, 4, 0, 0, 0, 4, 0, 0, 0]);
    let tick = Call::Tick { tick: 0x0807_0605_0403_0201, limit: 0x100f_0e0d_0c0b_0a09 };
    let bytes = [6, 0, 0, 0, 16, 0, 0, 0, 1, 2, 3, 4, 5, 6, 7, 8, 9, 10, 11, 12, 13, 14, 15, 16];
    assert_eq!(one(tick), bytes);
}

#[test]
fn both_ways() {
    assert_eq!(read(&write(&sample())), Reading { capture: sample(), fault: None });
    assert_eq!(read(&[0; 4]), Reading::default());
    let peers: Vec<Option<u32>> = sample().calls.iter().map(Call::peer).collect();
    let named = [1, 1, 1, 1, 2].map(Some);
    assert_eq!(peers, [&[None; 3], named.as_slice(), &[None, Some(1), None]].concat());
}

/// Cut anywhere, a capture has the calls before the cut, and a fault unless a call ends there.
#[test]
fn cut_anywhere() {
    let file = write(&sample());
    let ends: Vec<usize> = (0..=sample().calls.len()).map(|count| write(&first(count)).len()).collect();
    for length in 0..file.len() {
        let reading = read(&file[..length]);
        let calls = ends.iter().filter(|end| **end <= length).count().saturating_sub(1);
        assert_eq!(reading.capture.calls, first(calls).calls, "{length}");
        assert_eq!(reading.fault.is_none(), ends.contains(&length), "{length}");
        let image: &[u8] = if length < ends[0] { &[] } else { b"any bytes" };
        assert_eq!(reading.capture.image, image, "{length}");
    }
}

/// The fault of a file.
fn fault(file: &[u8]) -> (usize, String) {
    let CaptureFault { at, what } = read(file).fault.expect("a fault");
    (at, what)
}

#[test]
fn faults_of_the_image() {
    let said = |what: &str| what.to_string();
    assert_eq!(fault(&[]), (0, said("the image's length has 4 bytes, and only 0 are left of the file")));
    assert_eq!(
        fault(&[1, 0, 0]),
        (0, said("the image's length has 4 bytes, and only 3 are left of the file"))
    );
    assert_eq!(fault(&[2, 0, 0, 0, 7]), (4, said("the image has 2 bytes, and only 1 are left of the file")));
    let most = fault(&[255, 255, 255, 255, 7, 7]);
    assert_eq!(most, (4, said("the image has 4294967295 bytes, and only 2 are left of the file")));
}

/// The fault of a capture with a start and then these bytes; it is told at a byte counted from them.
fn behind_a_start(kind: u32, length: u32, bytes: &[u8]) -> (usize, String) {
    let start = write(&Capture { image: vec![9], calls: vec![Call::Start] });
    let file = [&start, kind.to_le_bytes().as_slice(), &length.to_le_bytes(), bytes].concat();
    assert_eq!(read(&file).capture.calls, [Call::Start]);
    let (at, what) = fault(&file);
    (at - start.len(), what)
}

#[test]
fn there_is_no_such_kind() {
    for kind in [7, 8, u32::MAX] {
        let wanted = (0, format!("call 2: there is no kind {kind}"));
        assert_eq!(behind_a_start(kind, 0, &[]), wanted);
        assert_eq!(behind_a_start(kind, u32::MAX, &[]), wanted);
    }
}

#[test]
fn lengths_that_a_kind_cannot_have() {
    let cannot = |name, length: u32| (4, format!("call 2: {name} cannot have {length} bytes"));
    let tried = |kind, length: u32| behind_a_start(kind, length, &[0; 32]);
    for length in [1, 4, u32::MAX] {
        assert_eq!(tried(0, length), cannot("start", length));
    }
    for length in [0, 1, 3, 5, 6, 7, 9, u32::MAX] {
        assert_eq!(tried(1, length), cannot("connect", length));
    }
    for (kind, name) in [(2, "own"), (3, "release"), (4, "piece")] {
        for length in [0, 3] {
            assert_eq!(tried(kind, length), cannot(name, length));
        }
    }
    for length in [0, 3, 5, 8] {
        assert_eq!(tried(5, length), cannot("disconnect", length));
    }
    for length in [0, 4, 8, 15, 17, 20, 24, 32, u32::MAX] {
        assert_eq!(tried(6, length), cannot("tick", length));
    }
}

#[test]
fn calls_cut_short() {
    let left =
        |what, length, left| format!("{what} has {length} bytes, and only {left} are left of the file");
    assert_eq!(behind_a_start(4, 5, &[0; 4]), (8, left("call 2, piece,", 5, 4)));
    assert_eq!(behind_a_start(1, 8, &[0; 7]), (8, left("call 2, connect,", 8, 7)));
    assert_eq!(behind_a_start(6, 16, &[0; 15]), (8, left("call 2, tick,", 16, 15)));
    let most = left("call 2, release,", u32::MAX, 100);
    assert_eq!(behind_a_start(3, u32::MAX, &[0; 100]), (8, most));
    let start = write(&Capture { image: Vec::new(), calls: vec![Call::Start] });
    let behind = |bytes: &[u8]| fault(&[&start, bytes].concat());
    assert_eq!(behind(&[4, 0, 0]), (12, left("the kind of call 2", 4, 3)));
    assert_eq!(behind(&[4, 0, 0, 0, 9]), (16, left("the length of call 2", 4, 1)));
}
