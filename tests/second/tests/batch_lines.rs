//! Batches as lines: the same calls as single ones, what is printed for them, and bad usage.

mod common;

use common::{five, image_of, OPEN};
use second::capture::{self, Call, Capture};
use second::generate::{generate, Mode};
use second::guard::Guard;
use second::message::Message;
use second::policy::Uid;
use second::replay::{lent_policy, replay, replay_in_batches, run, Outcome};
use std::process::Command;

/// The seven numbers of every piece call that offering the pieces of a capture takes.
fn by_single_calls(file: &[u8]) -> Vec<String> {
    let reading = capture::read(file);
    let policy = lent_policy(&reading.capture.image);
    let mut guard = Guard::default();
    let mut lines = Vec::new();
    for call in &reading.capture.calls {
        let mut call = call.clone();
        loop {
            let outcome = run(&mut guard, policy.as_ref(), &call);
            lines.push(outcome.line());
            let (Call::Piece { bytes, .. }, Outcome::Piece(judged)) = (&mut call, outcome) else { break };
            bytes.drain(..judged.taken);
            let ends =
                [(1, 9), (30, 51)].iter().any(|(low, high)| (*low..=*high).contains(&judged.answer.number()));
            if ends || bytes.is_empty() {
                break;
            }
        }
    }
    lines
}

/// However long the list is, the same calls are made. Only the lines of the batches differ.
#[test]
fn batches_are_single_calls() {
    let batches = (1..=40).map(|seed| generate(seed, 60, Mode::Batches));
    let mixed = (1..=5).map(|seed| generate(seed, 600, Mode::Mixed));
    for file in batches.chain(mixed) {
        let singly = by_single_calls(&file);
        for list in [1, 2, 7, 64, 4096] {
            let lines = replay_in_batches(&file, list);
            let (batches, others): (Vec<&str>, Vec<&str>) =
                lines.lines().partition(|line| line.starts_with("batch"));
            assert_eq!(others, singly);
            assert!(!batches.is_empty());
        }
    }
}

fn small_capture() -> Vec<u8> {
    let calls = vec![
        Call::Connect { uid: Uid(0), gids: Vec::new() },
        Call::Connect { uid: Uid(0), gids: Vec::new() },
        Call::Piece { peer: 1, bytes: five() },
        Call::Piece { peer: 1, bytes: Vec::new() },
        Call::Piece { peer: 1, bytes: [[0; 16], [0; 16]].concat() },
        Call::Disconnect { peer: 1 },
    ];
    capture::write(&Capture { image: image_of(OPEN), calls })
}

const BY_TWO: &str = "connect 0 1 0 1 0
connect 0 2 1 1 0
batch 2 112
piece 0 48 1 0 0 1 0
piece 0 64 2 2 0 1 1
batch 2 104
piece 0 64 3 3 2 0 0
piece 24 40 0 0 0 0 0
batch 1 16
piece 20 16 0 0 0 0 0
batch 1 0
piece 10 0 0 0 0 0 0
batch 1 16
piece 1 16 0 0 0 0 0
disconnect 0 16
";

#[test]
fn lines() {
    assert_eq!(replay_in_batches(&small_capture(), 2), BY_TWO);
    let by_five = replay_in_batches(&small_capture(), 5);
    assert_eq!(
        by_five.lines().filter(|line| line.starts_with("batch")).collect::<Vec<_>>(),
        ["batch 5 232", "batch 1 0", "batch 1 16"]
    );
    // A broken head fills the only place, and what is behind it is not offered.
    let by_one = replay_in_batches(&small_capture(), 1);
    assert!(by_one.ends_with("batch 1 16\npiece 1 16 0 0 0 0 0\ndisconnect 0 16\n"));
    let mut broken = small_capture();
    broken.push(0);
    assert_eq!(replay_in_batches(&broken, 2), BY_TWO.to_string() + "bad capture\n");
}

/// A tick stands between batches: calls of one batch have one tick, and a batch that goes on behind it
/// ends a message at the later one.
#[test]
fn ticks_between_batches() {
    let call = |serial| Message::call(serial, "/", "M").to(":1.1").bytes();
    let reply = |serial| Message::method_return(9, serial).to(":1.1").bytes();
    let (third, tick) = (call(3), |tick, limit| Call::Tick { tick, limit });
    let piece = |parts: &[&[u8]]| Call::Piece { peer: 1, bytes: parts.concat() };
    let calls = vec![
        Call::Connect { uid: Uid(0), gids: Vec::new() },
        tick(1, 0),
        piece(&[&call(1), &call(2), &third[..40]]),
        tick(2, 2),
        piece(&[&third[40..], &reply(2)]),
        tick(1, 0),
        tick(3, 2),
        piece(&[&reply(1), &reply(3)]),
    ];
    let file = capture::write(&Capture { image: image_of(OPEN), calls });
    let lines = "connect 0 1 0 1 0
tick 0 0
batch 3 168
piece 0 64 2 1 0 1 1
piece 0 64 2 1 0 1 1
piece 10 40 0 0 0 0 0
tick 0 0
batch 2 64
piece 0 24 2 1 0 1 1
piece 0 40 2 1 0 0 0
tick 41 0
tick 0 1
batch 2 80
piece 24 40 0 0 0 0 0
piece 0 40 2 1 0 0 0
";
    assert_eq!(replay_in_batches(&file, 7), lines);
}

fn second(words: &[&str]) -> (Option<i32>, String) {
    let output = Command::new(env!("CARGO_BIN_EXE_second")).args(words).output().expect("it runs");
    (output.status.code(), String::from_utf8(output.stdout).expect("it prints text"))
}

#[test]
fn usage() {
    let path = format!("{}/batch.capture", env!("CARGO_TARGET_TMPDIR"));
    std::fs::write(&path, small_capture()).expect("the folder is there");
    for count in ["0", "00", "4097", "-1", "", "x", "1x", "99999999999999999999"] {
        assert_eq!(second(&["--places", count, &path]), (Some(2), String::new()), "{count}");
    }
    for words in [&["--places", "1"] as &[&str], &["--waits", "--places", "1", &path], &[]] {
        assert_eq!(second(words), (Some(2), String::new()), "{words:?}");
    }
    assert_eq!(second(&["--places", "2", &path]), (Some(0), BY_TWO.to_string()));
    assert_eq!(second(&["--places", "4096", &path]), (Some(0), replay_in_batches(&small_capture(), 4096)));
    assert_eq!(second(&[&path]), (Some(0), replay(&small_capture())));
    assert_eq!(second(&["--places", "2", "no.such.file"]), (Some(0), "bad capture\n".to_string()));
}
