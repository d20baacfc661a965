//! Which rule each answer shows, and which answers show none.

mod common;

use common::{Bench, OPEN};
use second::capture::Call;
use second::guard::Guard;
use second::message::Message;
use second::policy::{Gid, Uid};
use second::replay::{run, Outcome};
use second::wire::NO_REPLY_EXPECTED;

/// Each rule that decides stands at a position of its own.
const RULES: &str = "connect default allow uid 1
    connect default allow uid 2
    connect default deny uid 3
    own default deny name org.no
    own default allow prefix org.yes
    transaction default deny receive any path=/deaf
    transaction default deny send any path=/mute
    transaction default allow receive call path=/call
    transaction default allow send any path=/call
    transaction default allow send any path=/signal
    transaction default allow receive signal path=/signal
    transaction default allow send any path=/deaf
    transaction default allow send any path=/unheard";

fn bench() -> Bench {
    let mut bench = Bench::new(RULES);
    for _ in 0..2 {
        bench.connect(1, &[]);
    }
    bench
}

fn call(serial: u32, path: &str) -> Message {
    Message::call(serial, path, "M").to(":1.2")
}

fn signal(path: &str) -> Message {
    Message::signal(1, path, "a.b", "S")
}

#[test]
fn connect() {
    let mut bench = Bench::new(RULES);
    assert_eq!(bench.connect_line(3, &[]), "connect 36 0 0 1 2");
    assert_eq!(bench.connect_line(4, &[]), "connect 36 0 0 2 0");
    assert_eq!(bench.connect_line(1, &[9; 17]), "connect 37 0 0 0 0");
    assert_eq!(bench.connect_line(4, &[9; 17]), "connect 37 0 0 0 0");
    for slot in 0..16 {
        let uid = 1 + slot % 2;
        assert_eq!(bench.connect_line(uid, &[]), format!("connect 0 {} {slot} 1 {}", slot + 1, slot % 2));
    }
    assert_eq!(bench.connect_line(2, &[]), "connect 38 0 0 1 1");
    // A denied connect is denied by its own rule, also where nobody could connect.
    assert_eq!(bench.connect_line(3, &[]), "connect 36 0 0 1 2");
    assert_eq!(bench.connect_line(1, &[9; 17]), "connect 37 0 0 0 0");
}

#[test]
fn the_last_number() {
    let mut bench = Bench::new(RULES);
    bench.guard = Guard::with_last_number(u32::MAX);
    assert_eq!(bench.connect_line(2, &[]), "connect 39 0 0 1 1");
    assert_eq!(bench.connect_line(4, &[]), "connect 36 0 0 2 0");
}

#[test]
fn own() {
    let mut bench = bench();
    assert_eq!(bench.own_line(1, "org.yes"), "own 0 1 1");
    // Held already.
    assert_eq!(bench.own_line(1, "org.yes"), "own 0 1 1");
    assert_eq!(bench.own_line(2, "org.yes"), "own 33 1 1");
    assert_eq!(bench.own_line(1, "org.no"), "own 32 1 0");
    assert_eq!(bench.own_line(1, "org.yesno"), "own 32 2 0");
    for name in ["org.yes.b", "org.yes.c", "org.yes.d"] {
        assert_eq!(bench.own_line(1, name), "own 0 1 1");
    }
    assert_eq!(bench.own_line(1, "org.yes.e"), "own 34 1 1");
    assert_eq!(bench.own_line(1, "org"), "own 31 0 0");
    assert_eq!(bench.own_line(1, "org.freedesktop.DBus"), "own 31 0 0");
    assert_eq!(bench.own_line(3, "org.yes"), "own 30 0 0");
}

/// The bus's name is 31 even where a rule would allow it.
#[test]
fn the_buss_name() {
    let mut bench = Bench::with_peers(OPEN, 1);
    assert_eq!(bench.own_line(1, "org.freedesktop.DBus"), "own 31 0 0");
}

#[test]
fn calls_to_a_peer() {
    let mut bench = bench();
    assert_eq!(bench.message_line(1, call(1, "/mute")), "piece 22 64 0 0 0 1 1");
    assert_eq!(bench.message_line(1, call(1, "/")), "piece 22 64 0 0 0 2 0");
    assert_eq!(bench.message_line(1, call(1, "/deaf")), "piece 23 64 0 0 0 1 0");
    assert_eq!(bench.message_line(1, call(1, "/unheard")), "piece 23 72 0 0 0 2 0");
    assert_eq!(bench.message_line(1, call(1, "/call")), "piece 0 64 2 2 0 1 2");
    assert_eq!(bench.message_line(1, call(1, "/call")), "piece 25 64 0 0 0 1 2");
    let no_reply = call(1, "/call").flags(NO_REPLY_EXPECTED);
    assert_eq!(bench.message_line(1, no_reply.clone()), "piece 0 64 2 2 0 1 2");
    for serial in 2..=16 {
        assert_eq!(bench.message_line(1, call(serial, "/call")), "piece 0 64 2 2 0 1 2");
    }
    assert_eq!(bench.message_line(1, call(17, "/call")), "piece 26 64 0 0 0 1 2");
    assert_eq!(bench.message_line(1, call(16, "/call")), "piece 25 64 0 0 0 1 2");
    assert_eq!(bench.message_line(1, no_reply), "piece 0 64 2 2 0 1 2");
    assert_eq!(bench.message_line(1, Message::call(1, "/call", "M").to(":1.9")), "piece 21 64 0 0 0 0 0");
}

#[test]
fn to_the_bus() {
    let mut bench = bench();
    let to_bus = |path: &str| Message::call(1, path, "M");
    assert_eq!(bench.message_line(1, to_bus("/call")), "piece 0 48 1 0 0 1 3");
    assert_eq!(bench.message_line(1, to_bus("/mute")), "piece 22 48 0 0 0 1 1");
    assert_eq!(bench.message_line(1, to_bus("/")), "piece 22 48 0 0 0 2 0");
    let named = |message: Message| message.to("org.freedesktop.DBus");
    assert_eq!(bench.message_line(1, named(to_bus("/deaf"))), "piece 0 80 1 0 0 1 6");
    assert_eq!(bench.message_line(1, named(signal("/signal"))), "piece 0 96 1 0 0 1 4");
    assert_eq!(bench.message_line(1, named(signal("/mute"))), "piece 22 96 0 0 0 1 1");
    assert_eq!(bench.message_line(1, named(signal("/"))), "piece 22 96 0 0 0 2 0");
}

#[test]
fn signals() {
    let mut bench = bench();
    let to_peer = |path: &str| signal(path).to(":1.2");
    assert_eq!(bench.message_line(1, to_peer("/signal")), "piece 0 80 2 2 0 1 5");
    assert_eq!(bench.message_line(1, to_peer("/mute")), "piece 22 80 0 0 0 1 1");
    assert_eq!(bench.message_line(1, to_peer("/")), "piece 22 80 0 0 0 2 0");
    assert_eq!(bench.message_line(1, to_peer("/deaf")), "piece 23 80 0 0 0 1 0");
    assert_eq!(bench.message_line(1, to_peer("/call")), "piece 23 80 0 0 0 2 0");
    assert_eq!(bench.message_line(1, signal("/signal").to("org.nobody")), "piece 21 88 0 0 0 0 0");
    // Broadcasts, to all and to nobody.
    assert_eq!(bench.message_line(1, signal("/signal")), "piece 0 64 3 3 2 0 0");
    for path in ["/mute", "/deaf", "/"] {
        assert_eq!(bench.message_line(1, signal(path)), "piece 0 64 3 0 0 0 0");
    }
}

#[test]
fn replies_and_other_types() {
    let mut bench = bench();
    bench.message_line(1, call(1, "/call"));
    bench.message_line(1, call(2, "/call"));
    let reply = || Message::method_return(1, 1).to(":1.1");
    assert_eq!(bench.message_line(2, reply()), "piece 0 40 2 1 0 0 0");
    assert_eq!(bench.message_line(2, reply()), "piece 24 40 0 0 0 0 0");
    let error = Message::error(1, 2, "a.b").to(":1.1");
    assert_eq!(bench.message_line(2, error), "piece 0 56 2 1 0 0 0");
    assert_eq!(bench.message_line(2, Message::method_return(1, 2)), "piece 24 24 0 0 0 0 0");
    assert_eq!(bench.message_line(2, Message::new(5, 1).to(":1.1")), "piece 20 32 0 0 0 0 0");
}

#[test]
fn unfinished_broken_and_refused_pieces() {
    let mut bench = bench();
    assert_eq!(bench.piece_line(1, &[]), "piece 10 0 0 0 0 0 0");
    let bytes = call(1, "/call").bytes();
    assert_eq!(bench.piece_line(1, &bytes[..63]), "piece 10 63 0 0 0 0 0");
    assert_eq!(bench.piece_line(1, &bytes[63..]), "piece 0 1 2 2 0 1 2");
    assert_eq!(bench.piece_line(1, &[0; 16]), "piece 1 16 0 0 0 0 0");
    assert_eq!(bench.piece_line(1, &[]), "piece 40 0 0 0 0 0 0");
    assert_eq!(bench.piece_line(9, &bytes), "piece 30 0 0 0 0 0 0");
    assert_eq!(bench.message_line(2, Message::new(1, 1)), "piece 9 16 0 0 0 0 0");
}

#[test]
fn calls_without_a_policy() {
    let mut bench = bench();
    let name = || b"org.yes".to_vec();
    assert_eq!(bench.line(Call::Own { peer: 1, name: name() }), "own 0 1 1");
    assert_eq!(bench.line(Call::Release { peer: 1, name: name() }), "release 0");
    assert_eq!(bench.line(Call::Release { peer: 1, name: name() }), "release 35");
    assert_eq!(bench.line(Call::Disconnect { peer: 1 }), "disconnect 0 0");
    assert_eq!(bench.line(Call::Disconnect { peer: 1 }), "disconnect 30 0");
    assert_eq!(bench.line(Call::Start), "start 0");
}

#[test]
fn a_bad_image() {
    let mut guard = Guard::default();
    let mut line = |call| run(&mut guard, None, &call).line();
    assert_eq!(line(Call::Connect { uid: Uid(1), gids: vec![Gid(1); 17] }), "connect 50 0 0 0 0");
    assert_eq!(line(Call::Own { peer: 1, name: Vec::new() }), "own 50 0 0");
    assert_eq!(line(Call::Piece { peer: 1, bytes: Vec::new() }), "piece 50 0 0 0 0 0 0");
}

/// The search says more than the line: also whether the rule allows.
#[test]
fn what_is_shown_fits_the_answer() {
    let mut bench = bench();
    for (message, allows) in [(call(1, "/mute"), false), (call(1, "/call"), true), (call(1, "/"), false)] {
        let outcome =
            run(&mut bench.guard, Some(&bench.policy), &Call::Piece { peer: 1, bytes: message.bytes() });
        assert!(matches!(outcome, Outcome::Piece(_)));
        assert_eq!(outcome.decider().map(|decision| decision.allows()), Some(allows));
    }
}
