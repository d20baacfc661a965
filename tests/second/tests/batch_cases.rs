//! What coverage sees of batches.

mod common;

use common::{image_of, Bench, OPEN};
use second::batch::offer;
use second::batch_cases::{cases, of_batch, of_capture, LISTS};
use second::capture::{self, Call, Capture};
use second::message::Message;
use second::policy::Uid;

/// The cases of offering bytes by batches of `list`, batch by batch.
fn seen(bench: &mut Bench, peer: u32, bytes: &[u8], list: usize) -> Vec<Vec<String>> {
    let offered = offer(&mut bench.guard, Some(&bench.policy), peer, bytes, list);
    let all = cases();
    let of_one = |one| {
        let cases = of_batch(list, peer, one);
        assert!(cases.iter().all(|case| all.contains(case)), "{cases:?}");
        let short =
            |case: String| case.replacen(&format!("batches of {list}, "), "", 1).replacen("batches, ", "", 1);
        cases.into_iter().map(short).collect()
    };
    offered.iter().map(of_one).collect()
}

fn to_bus() -> Vec<u8> {
    Message::call(1, "/", "M").bytes()
}

const SHOWN: &str = "a rule shown behind the first place";

#[test]
fn filled_or_not() {
    let mut bench = Bench::with_peers(OPEN, 1);
    let two = to_bus().repeat(2);
    assert_eq!(seen(&mut bench, 1, &to_bus(), 1), [["filled with nothing left"]]);
    assert_eq!(seen(&mut bench, 1, &two, 1), [["filled with bytes left"], ["filled with nothing left"]]);
    assert_eq!(
        seen(&mut bench, 1, &two, 2),
        [["filled with nothing left", "0 to the bus several times", SHOWN]]
    );
    let whole = "not filled, the last message whole";
    assert_eq!(seen(&mut bench, 1, &two, 7), [[whole, "0 to the bus several times", SHOWN]]);
    assert_eq!(seen(&mut bench, 1, &to_bus(), 7), [[whole]]);
    let unfinished = "not filled, the last message unfinished";
    assert_eq!(seen(&mut bench, 1, &two[..90], 64), [[unfinished]]);
    // The rest of it is a message, and one more byte begins another.
    let rest = [&two[90..], &[b'l']].concat();
    assert_eq!(seen(&mut bench, 1, &rest, 2), [["filled with nothing left"]]);
}

#[test]
fn ends() {
    let mut bench = Bench::with_peers(OPEN, 1);
    let broken = [to_bus(), vec![0; 17]].concat();
    assert_eq!(seen(&mut bench, 9, &to_bus(), 1), [["ended by 30"]]);
    assert_eq!(seen(&mut bench, 9, &to_bus(), 2), [["ended by 30", "30 with places and bytes left"]]);
    assert_eq!(seen(&mut bench, 9, &[], 2), [["ended by 30", "30 for an empty piece"]]);
    assert_eq!(seen(&mut bench, 1, &[], 64), [["10 for an empty piece"]]);
    assert_eq!(seen(&mut bench, 1, &broken, 7), [["ended by 1 to 9", "1 with places and bytes left"]]);
    assert_eq!(seen(&mut bench, 1, &broken, 7), [["ended by 40", "40 with places and bytes left"]]);
    assert_eq!(seen(&mut bench, 1, &[], 1), [["ended by 40", "40 for an empty piece"]]);
    // Where the list is full or nothing is left, it would have ended anyway.
    let mut bench = Bench::with_peers(OPEN, 1);
    assert_eq!(seen(&mut bench, 1, &broken, 2), [["ended by 1 to 9"]]);
    let mut bench = Bench::with_peers(OPEN, 1);
    assert_eq!(seen(&mut bench, 1, &broken[..64], 7), [["ended by 1 to 9"]]);
}

#[test]
fn together() {
    let mut bench = Bench::with_peers(OPEN, 2);
    let whole = "not filled, the last message whole";
    let call = |to: &str, serial| Message::call(serial, "/", "M").to(to).bytes();
    let reply = |to: &str, serial| Message::method_return(1, serial).to(to).bytes();
    let to_oneself = "a call to oneself and behind it a reply to oneself";
    let piece = [call(":1.1", 1), reply(":1.1", 1)].concat();
    assert_eq!(seen(&mut bench, 1, &piece, 7), [[whole, to_oneself]]);
    // Not of the same batch, not in this order, and not to oneself.
    assert_eq!(seen(&mut bench, 1, &piece, 1), [["filled with bytes left"], ["filled with nothing left"]]);
    assert_eq!(seen(&mut bench, 1, &call(":1.1", 2), 7), [[whole]]);
    let piece = [reply(":1.1", 2), call(":1.1", 3)].concat();
    assert_eq!(seen(&mut bench, 1, &piece, 7), [[whole, SHOWN]]);
    assert_eq!(seen(&mut bench, 2, &call(":1.1", 4), 7), [[whole]]);
    let piece = [call(":1.2", 5), reply(":1.2", 4)].concat();
    assert_eq!(seen(&mut bench, 1, &piece, 7), [[whole]]);
    // Each kind once, however often it came.
    let signal = Message::signal(1, "/", "a.b", "S").bytes();
    let unknown = Message::new(9, 1).bytes();
    let piece = [signal.clone(), unknown.repeat(3), signal.repeat(2), call(":1.9", 1)].concat();
    assert_eq!(
        seen(&mut bench, 1, &piece, 7),
        [["filled with nothing left", "20 several times", "0 to a mask several times"]]
    );
}

#[test]
fn receivers() {
    let whole = "not filled, the last message whole";
    let signal = Message::signal(1, "/", "a.b", "S");
    let mut deaf = Bench::with_peers("connect default allow any\ntransaction default allow send any", 1);
    assert_eq!(
        seen(&mut deaf, 1, &signal.bytes().repeat(2), 7),
        [[whole, "0 to an empty mask several times"]]
    );
    let mut bench = Bench::with_peers(OPEN, 2);
    let directed = signal.to(":1.2").bytes();
    assert_eq!(seen(&mut bench, 1, &directed.repeat(2), 7), [[whole, "0 to a peer several times", SHOWN]]);
    for serial in [1, 2] {
        bench.sends(2, Message::call(serial, "/", "M").to(":1.1"));
    }
    let replies = [1, 2].map(|serial| Message::method_return(1, serial).to(":1.2").bytes()).concat();
    assert_eq!(seen(&mut bench, 1, &replies, 7), [[whole, "0 for a reply several times"]]);
}

/// A capture is gone through once with each list.
#[test]
fn captures() {
    let calls = vec![
        Call::Connect { uid: Uid(0), gids: Vec::new() },
        Call::Piece { peer: 1, bytes: to_bus().repeat(7) },
        Call::Piece { peer: 2, bytes: Vec::new() },
    ];
    let found = of_capture(&capture::write(&Capture { image: image_of(OPEN), calls }));
    let count = |case: &str| found.iter().filter(|other| *other == case).count();
    for (list, full) in [(1, 6), (2, 3), (7, 0), (64, 0)] {
        assert!(LISTS.contains(&list));
        assert_eq!(count(&format!("batches of {list}, filled with bytes left")), full);
        assert_eq!(count(&format!("batches of {list}, ended by 30")), 1);
    }
    assert_eq!(count("batches of 7, filled with nothing left"), 1);
    assert_eq!(count("batches of 2, not filled, the last message whole"), 1);
    assert_eq!(count("batches, 30 for an empty piece"), 4);
}
