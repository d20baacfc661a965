//! What `--waits` prints: for each peer its waits, calls admitted, replies, waits ended otherwise.

mod common;

use common::{image_of, OPEN};
use second::capture::{self, Call, Capture};
use second::generate::{generate, generate_pair, Mode};
use second::message::Message;
use second::policy::Uid;
use second::replay::{replay, replay_with_waits};
use second::wire::{ByteOrder, NO_REPLY_EXPECTED};

fn connect() -> Call {
    Call::Connect { uid: Uid(1000), gids: Vec::new() }
}

fn leave(peer: u32) -> Call {
    Call::Disconnect { peer }
}

fn send(peer: u32, message: Message) -> Call {
    Call::Piece { peer, bytes: message.bytes() }
}

fn message_to(serial: u32, to: u32) -> Message {
    Message::call(serial, "/", "M").to(&format!(":1.{to}"))
}

fn call(from: u32, to: u32, serial: u32) -> Call {
    send(from, message_to(serial, to))
}

fn reply(from: u32, to: u32, serial: u32) -> Call {
    send(from, Message::method_return(1, serial).to(&format!(":1.{to}")))
}

fn error(from: u32, to: u32, serial: u32) -> Call {
    send(from, Message::error(1, serial, "a.b").to(&format!(":1.{to}")))
}

/// `peers` connects and then these calls.
fn after_connects(peers: usize, calls: Vec<Call>) -> Vec<Call> {
    let mut all = vec![connect(); peers];
    all.extend(calls);
    all
}

/// What stands behind `waits` at the end, and the answer of each call.
fn run_under(rules: &str, calls: Vec<Call>) -> (Vec<String>, Vec<u32>) {
    let file = capture::write(&Capture { image: image_of(rules), calls });
    let text = replay_with_waits(&file);
    let (mut waits, mut answers) = (Vec::new(), Vec::new());
    for line in text.lines() {
        match line.split_once(' ').expect("a line has several words") {
            ("waits", counts) => waits.push(counts.to_string()),
            (_, rest) => answers.push(rest.split(' ').next().unwrap_or("").parse().expect("an answer")),
        }
    }
    (waits, answers)
}

/// Connects `peers`, makes the calls, whose answers must be these, and gives the `waits` lines.
fn waits(peers: usize, calls: Vec<Call>, answers: &[u32]) -> Vec<String> {
    let (waits, found) = run_under(OPEN, after_connects(peers, calls));
    assert_eq!(found[peers..], *answers);
    waits
}

#[test]
fn nobody_called() {
    assert!(waits(0, vec![], &[]).is_empty());
    assert_eq!(waits(2, vec![], &[]), ["1 0 0 0 0", "2 0 0 0 0"]);
}

#[test]
fn a_call_waits() {
    assert_eq!(waits(2, vec![call(1, 2, 7)], &[0]), ["1 1 1 0 0", "2 0 0 0 0"]);
    let three = vec![call(1, 2, 7), call(1, 2, 8), call(2, 1, 7)];
    assert_eq!(waits(2, three, &[0, 0, 0]), ["1 2 2 0 0", "2 1 1 0 0"]);
}

#[test]
fn a_reply_counts_for_the_caller() {
    for answer in [reply, error] {
        let calls = vec![call(1, 2, 7), call(1, 2, 8), answer(2, 1, 8)];
        assert_eq!(waits(2, calls, &[0, 0, 0]), ["1 1 2 1 0", "2 0 0 0 0"]);
    }
    let both = vec![call(1, 2, 7), call(1, 2, 8), error(2, 1, 7), reply(2, 1, 8)];
    assert_eq!(waits(2, both, &[0; 4]), ["1 0 2 2 0", "2 0 0 0 0"]);
    // The same serial may wait again after its reply.
    let again = vec![call(1, 2, 7), reply(2, 1, 7), call(1, 2, 7)];
    assert_eq!(waits(2, again, &[0; 3]), ["1 1 2 1 0", "2 0 0 0 0"]);
}

#[test]
fn a_reply_that_nobody_awaits_counts_nothing() {
    let calls =
        vec![call(1, 2, 7), reply(3, 1, 7), error(2, 1, 8), reply(1, 2, 7), reply(2, 1, 7), reply(2, 1, 7)];
    assert_eq!(waits(3, calls, &[0, 24, 24, 24, 0, 24]), ["1 0 1 1 0", "2 0 0 0 0", "3 0 0 0 0"]);
    let bus = send(2, Message::method_return(1, 7).to("org.freedesktop.DBus"));
    let nowhere = send(2, Message::method_return(1, 7));
    assert_eq!(waits(2, vec![call(1, 2, 7), bus, nowhere], &[0, 24, 24]), ["1 1 1 0 0", "2 0 0 0 0"]);
}

#[test]
fn a_call_to_oneself_counts_once() {
    assert_eq!(waits(1, vec![call(1, 1, 7)], &[0]), ["1 1 1 0 0"]);
    assert_eq!(waits(1, vec![call(1, 1, 7), reply(1, 1, 7)], &[0, 0]), ["1 0 1 1 0"]);
    let refused = vec![call(1, 1, 7), call(1, 1, 7), error(1, 1, 7), error(1, 1, 7)];
    assert_eq!(waits(1, refused, &[0, 25, 0, 24]), ["1 0 1 1 0"]);
    let leaves = vec![call(1, 1, 7), call(1, 2, 7), call(2, 2, 7), leave(2)];
    assert_eq!(waits(2, leaves, &[0; 4]), ["1 1 2 0 1"]);
}

#[test]
fn only_flag_bit_0_counts() {
    let flagged = |flags: u8| vec![send(1, message_to(7, 2).flags(flags))];
    for flags in 0..=255_u8 {
        let line = if flags & NO_REPLY_EXPECTED == 0 { "1 1 1 0 0" } else { "1 0 0 0 0" };
        assert_eq!(waits(2, flagged(flags), &[0])[0], line, "flags {flags}");
    }
    // A reply to a call that does not wait is 24; a reply's own flags do not matter.
    let unawaited = vec![send(1, message_to(7, 2).flags(1)), reply(2, 1, 7)];
    assert_eq!(waits(2, unawaited, &[0, 24]), ["1 0 0 0 0", "2 0 0 0 0"]);
    let replied = vec![call(1, 2, 7), send(2, Message::method_return(1, 7).to(":1.1").flags(0xff))];
    assert_eq!(waits(2, replied, &[0, 0]), ["1 0 1 1 0", "2 0 0 0 0"]);
    let big = vec![send(1, message_to(7, 2).order(ByteOrder::Big).flags(4))];
    assert_eq!(waits(2, big, &[0]), ["1 1 1 0 0", "2 0 0 0 0"]);
}

#[test]
fn refused_calls_count_nothing() {
    let rules = format!("{OPEN}\ntransaction user 1 deny send any\ntransaction user 2 deny receive any");
    let mut calls: Vec<Call> =
        [1, 2, 3].map(|uid| Call::Connect { uid: Uid(uid), gids: Vec::new() }).to_vec();
    calls.extend([call(1, 3, 7), call(3, 2, 7), call(3, 9, 7), call(3, 1, 7), call(3, 1, 7)]);
    let (waits, answers) = run_under(&rules, calls);
    assert_eq!(answers[3..], [22, 23, 21, 0, 25]);
    assert_eq!(waits, ["1 0 0 0 0", "2 0 0 0 0", "3 1 1 0 0"]);
}

#[test]
fn sixteen_waits_and_one_more() {
    let mut calls: Vec<Call> = (1..=17).map(|serial| call(1, 2 + serial % 2, serial)).collect();
    let mut answers = vec![0; 16];
    answers.push(26);
    assert_eq!(waits(3, calls.clone(), &answers)[0], "1 16 16 0 0");
    calls.extend([call(1, 3, 1), send(1, message_to(17, 1).flags(1)), reply(3, 1, 1), call(1, 1, 17)]);
    calls.extend([call(1, 1, 18)]);
    answers.extend([25, 0, 0, 0, 26]);
    assert_eq!(waits(3, calls, &answers), ["1 16 17 1 0", "2 0 0 0 0", "3 0 0 0 0"]);
}

#[test]
fn a_callee_leaves() {
    let several = vec![call(1, 2, 7), call(1, 2, 8), call(3, 2, 7), call(1, 3, 7), call(2, 3, 7), leave(2)];
    assert_eq!(waits(4, several, &[0; 6]), ["1 1 3 0 2", "3 0 1 0 1", "4 0 0 0 0"]);
    let some_replied = vec![call(1, 2, 7), call(1, 2, 8), call(1, 2, 9), error(2, 1, 8), leave(2)];
    assert_eq!(waits(2, some_replied, &[0; 5]), ["1 0 3 1 2"]);
    let all_replied = vec![call(1, 2, 7), reply(2, 1, 7), leave(2)];
    assert_eq!(waits(2, all_replied, &[0; 3]), ["1 0 1 1 0"]);
    let twice = vec![call(1, 2, 7), leave(2), leave(2), connect(), call(1, 3, 7), leave(3)];
    assert_eq!(waits(2, twice, &[0, 0, 30, 0, 0, 0]), ["1 0 2 0 2"]);
}

#[test]
fn a_caller_leaves_and_another_takes_its_slot() {
    let start = vec![call(1, 2, 7), call(1, 2, 8), reply(2, 1, 8), call(2, 1, 7), leave(1)];
    assert_eq!(waits(2, start.clone(), &[0; 5]), ["2 0 1 0 1"]);
    let mut newcomer = start.clone();
    newcomer.push(connect());
    assert_eq!(waits(2, newcomer, &[0; 6]), ["3 0 0 0 0", "2 0 1 0 1"]);
    let mut calls = start;
    calls.extend([connect(), call(3, 2, 7), reply(2, 1, 7), leave(2)]);
    assert_eq!(waits(2, calls, &[0, 0, 0, 0, 0, 0, 0, 24, 0]), ["3 0 1 0 1"]);
}

#[test]
fn a_refused_connect_changes_nothing() {
    let too_many = Call::Connect { uid: Uid(1), gids: vec![second::policy::Gid(1); 17] };
    assert_eq!(waits(2, vec![call(1, 2, 7), too_many], &[0, 37]), ["1 1 1 0 0", "2 0 0 0 0"]);
}

#[test]
fn a_start_begins_anew() {
    let before = vec![call(1, 2, 7), call(1, 2, 8), reply(2, 1, 8), call(2, 1, 7), Call::Start];
    assert!(waits(2, before.clone(), &[0; 5]).is_empty());
    let mut calls = before;
    calls.extend([
        connect(),
        connect(),
        reply(2, 1, 7),
        call(1, 2, 7),
        call(1, 2, 9),
        reply(2, 1, 9),
        leave(2),
    ]);
    assert_eq!(waits(2, calls, &[0, 0, 0, 0, 0, 0, 0, 24, 0, 0, 0, 0]), ["1 0 2 1 1"]);
}

fn tick(tick: u64, limit: u64) -> Call {
    Call::Tick { tick, limit }
}

#[test]
fn a_tick_ends_otherwise() {
    let (far, late) = (u64::MAX, 24);
    let calls = vec![call(1, 2, 7), tick(5, far), call(1, 2, 8), call(3, 1, 7), tick(9, 5), reply(2, 1, 7)];
    let (lines, answers) = (["1 1 2 0 1", "2 0 0 0 0", "3 1 1 0 0"], [0, 0, 0, 0, 0, late]);
    assert_eq!(waits(3, calls.clone(), &answers), lines);
    // A refused tick ends nothing; neither does one with nothing old enough.
    let more = [calls.clone(), vec![tick(8, 0), tick(9, 5), tick(9, 5)]].concat();
    assert_eq!(waits(3, more, &[0, 0, 0, 0, 0, late, 41, 0, 0]), lines);
    // Each caller has its own; what ended does not end again with its callee.
    let both = [calls, vec![tick(10, 5), leave(2)]].concat();
    assert_eq!(waits(3, both, &[0, 0, 0, 0, 0, late, 0, 0]), ["1 0 2 0 2", "3 0 1 0 1"]);
}

#[test]
fn replied_ended_and_open() {
    let calls = vec![call(1, 2, 1), call(1, 2, 2), tick(3, u64::MAX), call(1, 2, 3), call(1, 1, 3)];
    let start = [calls, vec![reply(2, 1, 1), tick(4, 4)]].concat();
    assert_eq!(waits(2, start.clone(), &[0; 7]), ["1 2 4 1 1", "2 0 0 0 0"]);
    // The reply was to the older of two: only what is left counts at a tick and when the callee goes.
    let calls = vec![call(1, 2, 1), tick(3, u64::MAX), call(1, 2, 2), reply(2, 1, 2), tick(3, 3)];
    assert_eq!(waits(2, calls, &[0; 5]), ["1 0 2 1 1", "2 0 0 0 0"]);
    let again = [start, vec![call(1, 2, 2), tick(4, 1), leave(2)]].concat();
    assert_eq!(waits(2, again, &[0; 10]), ["1 0 5 1 4"]);
}

#[test]
fn ticks_over_a_start_and_for_a_newcomer() {
    let calls = vec![tick(9, 0), call(1, 2, 1), Call::Start, connect(), connect(), call(1, 2, 1), tick(4, 5)];
    assert_eq!(waits(2, calls.clone(), &[0; 7]), ["1 1 1 0 0", "2 0 0 0 0"]);
    assert_eq!(waits(2, [calls, vec![tick(5, 5)]].concat(), &[0; 8]), ["1 0 1 0 1", "2 0 0 0 0"]);
    // Who comes into a slot has none of its last peer's ends.
    let calls = vec![call(1, 2, 1), tick(1, 1), leave(1), connect(), call(3, 2, 1), tick(1, 1)];
    assert_eq!(waits(2, calls, &[0; 6]), ["3 1 1 0 0", "2 0 0 0 0"]);
}

#[test]
fn other_messages_count_nothing() {
    let calls = vec![
        send(1, Message::call(7, "/", "M")),
        send(1, Message::call(7, "/", "M").to("org.freedesktop.DBus")),
        send(1, Message::signal(7, "/", "a.b", "S")),
        send(1, Message::signal(7, "/", "a.b", "S").to(":1.2")),
        send(1, Message::new(5, 7).to(":1.2")),
        Call::Piece { peer: 1, bytes: Vec::new() },
    ];
    assert_eq!(waits(2, calls, &[0, 0, 0, 0, 20, 10]), ["1 0 0 0 0", "2 0 0 0 0"]);
}

#[test]
fn names_do_not_matter() {
    let own = |peer| Call::Own { peer, name: b"org.a".to_vec() };
    let to_name = |from, serial| send(from, Message::call(serial, "/", "M").to("org.a"));
    let release = Call::Release { peer: 2, name: b"org.a".to_vec() };
    let calls = vec![own(2), to_name(1, 7), release, own(3), to_name(1, 7), leave(2)];
    assert_eq!(waits(3, calls, &[0; 6]), ["1 1 2 0 1", "3 0 0 0 0"]);
}

#[test]
fn pieces_of_a_message_count_once() {
    let bytes = message_to(7, 2).body(&[1; 9]).bytes();
    let each_byte = bytes.iter().map(|&byte| Call::Piece { peer: 1, bytes: vec![byte] }).collect();
    let mut answers = vec![10; bytes.len() - 1];
    assert_eq!(waits(2, vec![Call::Piece { peer: 1, bytes: bytes[..72].to_vec() }], &[10])[0], "1 0 0 0 0");
    answers.push(0);
    assert_eq!(waits(2, each_byte, &answers), ["1 1 1 0 0", "2 0 0 0 0"]);
    // Two messages in one piece: the call takes the first only.
    let two = [message_to(7, 2).bytes(), message_to(8, 2).bytes()].concat();
    assert_eq!(waits(2, vec![Call::Piece { peer: 1, bytes: two }], &[0])[0], "1 1 1 0 0");
    // A stream that broke keeps its peer's waits; its pieces are refused.
    let broken = vec![call(1, 2, 7), Call::Piece { peer: 1, bytes: vec![0; 16] }, call(1, 2, 8)];
    assert_eq!(waits(2, broken, &[0, 1, 40])[0], "1 1 1 0 0");
}

#[test]
fn a_bad_image_admits_nothing() {
    let calls = after_connects(2, vec![call(1, 2, 7), leave(1)]);
    let file = capture::write(&Capture { image: b"no image".to_vec(), calls });
    assert_eq!(replay_with_waits(&file), replay(&file));
    assert!(replay(&file).contains("piece 50 0 0 0 0 0 0\n"));
}

#[test]
fn a_broken_capture_has_no_waits() {
    let calls = after_connects(2, vec![call(1, 2, 7)]);
    let mut file = capture::write(&Capture { image: image_of(OPEN), calls });
    file.push(0);
    assert_eq!(replay_with_waits(&file), replay(&file));
    assert!(replay(&file).ends_with("piece 0 64 2 2 0 1 1\nbad capture\n"));
    assert_eq!(replay_with_waits(&[]), "bad capture\n");
}

/// The counts of each `waits` line must add up; without these lines, the rest is as ever.
fn adds_up(file: &[u8]) -> usize {
    let text = replay_with_waits(file);
    let lines = replay(file);
    let added = text.strip_prefix(&lines).expect("the lines of the calls come first, unchanged");
    for line in added.lines() {
        let words: Vec<&str> = line.split(' ').collect();
        let ["waits", numbers @ ..] = words.as_slice() else { panic!("{line}") };
        let numbers: Vec<u64> = numbers.iter().map(|word| word.parse().expect("a number")).collect();
        let [_, count, admitted, replied, otherwise] = numbers.as_slice() else { panic!("{line}") };
        assert_eq!(count + replied + otherwise, *admitted, "{line}");
        assert!(*count <= 16, "{line}");
    }
    added.lines().count()
}

#[test]
fn generated_counts_add_up() {
    let mut peers = 0;
    for seed in 1..=30 {
        peers += adds_up(&generate(seed, 1200, Mode::Mixed));
        peers += adds_up(&generate(seed, 20, Mode::BadImage));
        assert_eq!(adds_up(&generate(seed, 40, Mode::BadLayout)), 0);
        let (whole, split) = generate_pair(seed, 120);
        let found = adds_up(&whole);
        assert_eq!(found, adds_up(&split));
        peers += found;
    }
    for seed in 1..=5 {
        peers += adds_up(&generate(seed, 1500, Mode::Full));
    }
    assert!(peers > 200, "only {peers} peers");
}

#[test]
fn the_option() {
    let calls = after_connects(2, vec![call(1, 2, 7)]);
    let path = concat!(env!("CARGO_TARGET_TMPDIR"), "/waits.capture");
    std::fs::write(path, capture::write(&Capture { image: image_of(OPEN), calls }))
        .expect("it can be written");
    let printed = |arguments: &[&str]| {
        let done = std::process::Command::new(env!("CARGO_BIN_EXE_second")).args(arguments).output();
        String::from_utf8(done.expect("it runs").stdout).expect("text")
    };
    let lines = "connect 0 1 0 1 0\nconnect 0 2 1 1 0\npiece 0 64 2 2 0 1 1\n";
    assert_eq!(printed(&[path]), lines);
    assert_eq!(printed(&["--waits", path]), format!("{lines}waits 1 1 1 0 0\nwaits 2 0 0 0 0\n"));
    assert_eq!(printed(&["--waits", "no such file"]), "bad capture\n");
    assert_eq!(printed(&[path, "--waits"]), "");
}
