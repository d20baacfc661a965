//! The stored evening of a real bus: what dbus-daemon denied by its own policy the guard denies by ours.

use crate::capture::imported;
use forms::capture::Call;
use forms::message::ERROR;
use std::collections::HashMap;
use tool::guard::Guard;
use tool::import::pcap::Packets;
use tool::import::traffic::Heard;

fn stored(name: &str) -> Vec<u8> {
    let folder = concat!(env!("CARGO_MANIFEST_DIR"), "/../../tests/tool/traffic/");
    std::fs::read(format!("{folder}{name}")).expect("a stored file")
}

fn text(name: &str) -> String {
    String::from_utf8(stored(name)).unwrap()
}

/// What the bus said of each message of a peer, by its error; nothing where it passed.
fn verdicts(file: &[u8]) -> Vec<Option<String>> {
    let heard: Vec<Heard> =
        Packets::open(file).unwrap().filter_map(|packet| Heard::of(&packet.unwrap()).ok()).collect();
    let is_error = |heard: &&Heard| heard.is_of_bus() && heard.head.message_type == ERROR;
    let key = |heard: &Heard| {
        let head = &heard.head;
        (head.destination.clone().unwrap(), head.reply_serial.unwrap())
    };
    let errors: HashMap<_, _> =
        heard.iter().filter(is_error).map(|heard| (key(heard), heard.head.error_name.clone())).collect();
    let of_peers = heard.iter().filter(|heard| !heard.is_of_bus());
    of_peers.map(|heard| errors.get(&(heard.sender.clone(), heard.head.serial)).cloned().flatten()).collect()
}

/// The guard's answers to the messages.
fn answers(file: &[u8]) -> Vec<u32> {
    let capture = imported(file, &text("evening.policy"), &text("evening.map")).capture;
    let mut guard = Guard::new();
    let made = capture.calls.iter().map(|call| (call, guard.make(&capture.image, call).answer));
    made.filter(|(call, _)| matches!(call, Call::Piece { .. })).map(|(_, answer)| answer).collect()
}

#[test]
fn the_guard_denies_what_the_bus_denied() {
    let file = stored("evening.pcap");
    let (verdicts, answers) = (verdicts(&file), answers(&file));
    assert_eq!(verdicts.len(), answers.len());
    for (place, (verdict, answer)) in verdicts.iter().zip(&answers).enumerate() {
        let wanted: &[u32] = match verdict.as_deref() {
            None => &[0],
            Some("org.freedesktop.DBus.Error.AccessDenied") => &[22, 23],
            Some("org.freedesktop.DBus.Error.ServiceUnknown") => &[21],
            Some(other) => panic!("message {place}: {other}"),
        };
        assert!(wanted.contains(answer), "message {place}: {answer}, and the bus said {verdict:?}");
    }
    let count = |wanted: u32| answers.iter().filter(|answer| **answer == wanted).count();
    assert_eq!([count(22), count(23), count(21)], [4, 3, 2]);
}

#[test]
fn both_recorders_saw_the_same() {
    let count = |answers: &[u32], wanted: u32| answers.iter().filter(|answer| **answer == wanted).count();
    let answers = answers(&stored("evening.pcapng"));
    assert_eq!([count(&answers, 22), count(&answers, 23), count(&answers, 21)], [4, 3, 2]);
    // What was cut is a call, so that its reply is awaited by nobody.
    assert_eq!(count(&answers, 24), 1);
}
