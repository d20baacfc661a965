//! The guard's calls: peers, names, receivers, replies, and what each leaves behind.

mod common;

use common::{Bench, OPEN};
use second::answer::{Answer, Receiver};
use second::guard::Guard;
use second::message::Message;
use second::policy::{Gid, Uid};
use second::wire::NO_REPLY_EXPECTED;

fn call(serial: u32, to: &str) -> Message {
    Message::call(serial, "/", "M").to(to)
}

fn signal() -> Message {
    Message::signal(1, "/", "a.b", "S")
}

#[test]
fn connect_order_of_answers() {
    let mut bench = Bench::new("connect default allow uid 1");
    let gids = |count: usize| vec![Gid(7); count];
    let mut answer =
        |uid, count| bench.guard.connect(Some(&bench.policy), Uid(uid), &gids(count)).answer.number();
    assert_eq!(answer(2, 17), 37);
    assert_eq!(answer(2, 16), 36);
    for _ in 0..16 {
        assert_eq!(answer(1, 16), 0);
    }
    assert_eq!(answer(1, 17), 37);
    assert_eq!(answer(2, 0), 36);
    assert_eq!(answer(1, 0), 38);
    let bad = bench.guard.connect(None, Uid(2), &gids(17));
    assert_eq!((bad.answer.number(), bad.number, bad.slot), (50, 0, 0));
}

#[test]
fn numbers_and_slots() {
    let mut bench = Bench::with_peers(OPEN, 16);
    let connect = |bench: &mut Bench| bench.guard.connect(Some(&bench.policy), Uid(0), &[]);
    assert_eq!(connect(&mut bench).answer, Answer::SlotsFull);
    bench.guard.disconnect(9);
    bench.guard.disconnect(4);
    let first = connect(&mut bench);
    assert_eq!((first.number, first.slot), (17, 3));
    let second = connect(&mut bench);
    assert_eq!((second.number, second.slot), (18, 8));
    assert_eq!(bench.guard.start(), Answer::Done);
    let again = connect(&mut bench);
    assert_eq!((again.number, again.slot), (1, 0));
}

#[test]
fn last_number() {
    let mut bench = Bench::new(OPEN);
    bench.guard = Guard::with_last_number(u32::MAX - 1);
    let last = bench.connect(0, &[]);
    assert_eq!(last, u32::MAX);
    assert_eq!(bench.sends(last, call(1, ":1.4294967295")), 0);
    let refused = bench.guard.connect(Some(&bench.policy), Uid(0), &[]);
    assert_eq!((refused.answer.number(), refused.number, refused.slot), (39, 0, 0));
    bench.guard.disconnect(last);
    assert_eq!(bench.guard.connect(Some(&bench.policy), Uid(0), &[]).answer, Answer::NumbersUsedUp);
}

#[test]
fn own_order_of_answers() {
    let rules = "connect default allow any\nown default allow any\nown mandatory deny prefix org.no";
    let mut bench = Bench::with_peers(rules, 2);
    assert_eq!(bench.guard.own(None, 9, b"").answer.number(), 50);
    assert_eq!(bench.own(0, ""), 30);
    assert_eq!(bench.own(3, "org.a"), 30);
    let not_names = ["", "org", ":1.1", "org.1a", "org.freedesktop.DBus", "a..b"];
    for bad in not_names {
        assert_eq!(bench.own(1, bad), 31, "{bad}");
        assert_eq!(bench.guard.release(1, bad.as_bytes()).number(), 31, "{bad}");
    }
    assert_eq!(bench.own(1, &("a.".to_string() + &"b".repeat(254))), 31);
    assert_eq!(bench.own(1, &("a.".to_string() + &"b".repeat(253))), 0);
    assert_eq!(bench.own(1, "org.no.way"), 32);
    for name in ["a.b", "a.c", "a.d"] {
        assert_eq!(bench.own(1, name), 0);
    }
    assert_eq!(bench.own(1, "a.e"), 34);
    assert_eq!(bench.own(1, "a.d"), 0);
    assert_eq!(bench.own(2, "a.d"), 33);
    for name in ["b.a", "b.b", "b.c", "b.d"] {
        assert_eq!(bench.own(2, name), 0);
    }
    assert_eq!(bench.own(2, "a.d"), 33);
    assert_eq!(bench.own(2, "b.e"), 34);
}

#[test]
fn release() {
    let mut bench = Bench::with_peers(OPEN, 2);
    assert_eq!(bench.own(1, "a.b"), 0);
    assert_eq!(bench.guard.release(3, b"a.b").number(), 30);
    assert_eq!(bench.guard.release(2, b"a.b").number(), 35);
    assert_eq!(bench.guard.release(2, b"a.c").number(), 35);
    assert_eq!(bench.guard.release(1, b"a.b").number(), 0);
    assert_eq!(bench.guard.release(1, b"a.b").number(), 35);
    assert_eq!(bench.own(2, "a.b"), 0);
    bench.guard.disconnect(2);
    assert_eq!(bench.own(1, "a.b"), 0);
}

#[test]
fn calls_and_signals_to_the_bus() {
    let rules = "connect default allow any\ntransaction default allow send any name=org.freedesktop.DBus";
    let mut bench = Bench::with_peers(rules, 1);
    let no_destination = Message::call(1, "/", "M");
    for _ in 0..17 {
        assert_eq!(bench.send(1, no_destination.clone()), (0, Receiver::Bus));
        assert_eq!(bench.send(1, call(1, "org.freedesktop.DBus")), (0, Receiver::Bus));
    }
    assert_eq!(bench.send(1, signal().to("org.freedesktop.DBus")), (0, Receiver::Bus));
    assert!(bench.guard.waits().is_empty());
    assert_eq!(bench.send(1, signal()), (0, Receiver::Slots(0)));
    assert_eq!(bench.sends(1, call(1, ":1.1")), 22);
}

#[test]
fn calls_without_an_interface_to_the_bus() {
    let answers = |rules: &str| {
        let mut bench = Bench::with_peers(&format!("{OPEN}\n{rules}"), 1);
        [
            bench.sends(1, Message::call(1, "/", "M")),
            bench.sends(1, call(1, "org.freedesktop.DBus")),
            bench.sends(1, call(1, "org.freedesktop.DBus").interface("a.b")),
            bench.sends(1, Message::call(1, "/", "M").interface("a.c")),
            bench.sends(1, signal().to("org.freedesktop.DBus")),
            bench.sends(1, Message::signal(1, "/", "a.c", "S").to("org.freedesktop.DBus")),
        ]
    };
    assert_eq!(answers("transaction default deny send any interface=a.b"), [22, 22, 22, 0, 22, 0]);
    let named = "transaction default deny send call name=org.freedesktop.DBus interface=a.b path=/";
    assert_eq!(answers(named), [22, 22, 22, 0, 0, 0]);
    for other in ["any name=org.a", "any path=/a", "any member=N"] {
        let rule = format!("transaction default deny send {other} interface=a.b");
        assert_eq!(answers(&rule), [0; 6], "{other}");
    }
    // The bus has no receive rules.
    assert_eq!(answers("transaction default deny receive any interface=a.b"), [0; 6]);
    let only = "transaction default deny send any\ntransaction default allow send any interface=a.b";
    assert_eq!(answers(only), [22, 22, 0, 22, 0, 22]);
}

#[test]
fn a_call_refused_for_want_of_an_interface_does_not_wait() {
    let rules = format!("{OPEN}\ntransaction default deny receive call interface=a.b");
    let mut bench = Bench::with_peers(&rules, 2);
    assert_eq!(bench.sends(1, call(1, ":1.2")), 23);
    assert!(bench.guard.waits().is_empty());
    assert_eq!(bench.sends(1, call(1, ":1.2").interface("a.c")), 0);
    assert_eq!(bench.sends(1, call(1, ":1.2")), 23);
    assert_eq!(bench.send(1, signal()), (0, Receiver::Slots(0b11)));
}

#[test]
fn destinations_that_are_nobodys() {
    let mut bench = Bench::with_peers(OPEN, 7);
    for to in [":1.07", ":1.0", ":1.8", ":2.7", ":1.7.7", ":1.7a", ":1.-7", ":1.4294967303", "org.a.b"] {
        assert_eq!(bench.sends(1, call(1, to)), 21, "{to}");
        assert_eq!(bench.sends(1, signal().to(to)), 21, "{to}");
        assert_eq!(bench.sends(1, Message::method_return(1, 1).to(to)), 24, "{to}");
    }
    assert_eq!(bench.send(1, call(1, ":1.7")), (0, Receiver::Peer(7)));
    bench.guard.disconnect(7);
    assert_eq!(bench.sends(1, call(2, ":1.7")), 21);
}

#[test]
fn broadcasts() {
    let rules = "connect default allow any
        own default allow any
        transaction default allow send any
        transaction default deny send any name=org.deaf
        transaction default allow receive any
        transaction user 7 deny receive signal interface=a.b";
    let mut bench = Bench::with_peers(rules, 3);
    assert_eq!(bench.send(2, signal()), (0, Receiver::Slots(0b111)));
    assert_eq!(bench.own(1, "org.deaf"), 0);
    bench.connect(7, &[]);
    bench.connect(8, &[7]);
    assert_eq!(bench.send(2, signal()), (0, Receiver::Slots(0b10110)));
    assert_eq!(bench.send(4, Message::signal(1, "/", "a.c", "S")), (0, Receiver::Slots(0b11110)));
    assert_eq!(bench.answers(5, &[0; 16]), (1, 16));
    assert_eq!(bench.send(2, signal()), (0, Receiver::Slots(0b10110)));
    bench.guard.disconnect(5);
    assert_eq!(bench.send(2, signal().flags(0xff)), (0, Receiver::Slots(0b110)));
}

#[test]
fn send_comes_before_receive() {
    let rules = "connect default allow any
        transaction default allow send any
        transaction user 1 deny send any
        transaction default allow receive any
        transaction user 2 deny receive any";
    let mut bench = Bench::new(rules);
    for uid in [1, 2, 3] {
        bench.connect(uid, &[]);
    }
    assert_eq!(bench.sends(1, call(1, ":1.2")), 22);
    assert_eq!(bench.sends(3, call(1, ":1.2")), 23);
    assert_eq!(bench.sends(3, signal().to(":1.2")), 23);
    assert_eq!(bench.sends(1, signal().to(":1.3")), 22);
    assert_eq!(bench.send(2, signal().to(":1.3")), (0, Receiver::Peer(3)));
    assert_eq!(bench.send(2, call(1, ":1.3")), (0, Receiver::Peer(3)));
    assert_eq!(bench.sends(2, call(1, ":1.3")), 25);
}

#[test]
fn waits() {
    let mut bench = Bench::with_peers(OPEN, 3);
    assert_eq!(bench.own(2, "org.b"), 0);
    assert_eq!(bench.own(1, "org.a"), 0);
    assert_eq!(bench.sends(1, call(5, "org.b")), 0);
    assert_eq!(bench.sends(1, call(5, ":1.2")), 25);
    assert_eq!(bench.sends(1, call(5, ":1.3")), 0);
    assert_eq!(bench.sends(1, call(5, ":1.2").flags(NO_REPLY_EXPECTED)), 0);
    assert_eq!(bench.sends(3, call(5, ":1.2")), 0);
    assert_eq!(bench.sends(2, Message::method_return(1, 5)), 24);
    assert_eq!(bench.sends(2, Message::method_return(1, 5).to("org.freedesktop.DBus")), 24);
    assert_eq!(bench.sends(2, Message::method_return(1, 6).to("org.a")), 24);
    assert_eq!(bench.sends(1, Message::method_return(1, 5).to(":1.2")), 24);
    assert_eq!(bench.guard.release(2, b"org.b").number(), 0);
    assert_eq!(bench.send(2, Message::error(1, 5, "a.b").to("org.a")), (0, Receiver::Peer(1)));
    assert_eq!(bench.sends(2, Message::error(1, 5, "a.b").to("org.a")), 24);
    assert_eq!(bench.sends(1, call(9, ":1.1")), 0);
    assert_eq!(bench.send(1, Message::method_return(1, 9).to(":1.1")), (0, Receiver::Peer(1)));
}

#[test]
fn sixteen_waits_over_all_callees() {
    let mut bench = Bench::with_peers(OPEN, 3);
    for serial in 1..=8 {
        assert_eq!(bench.sends(1, call(serial, ":1.2")), 0);
        assert_eq!(bench.sends(1, call(serial, ":1.3")), 0);
        assert_eq!(bench.sends(3, call(serial, ":1.2")), 0);
    }
    assert_eq!(bench.sends(1, call(8, ":1.2")), 25);
    assert_eq!(bench.sends(1, call(9, ":1.2")), 26);
    assert_eq!(bench.sends(1, call(9, ":1.1")), 26);
    assert_eq!(bench.sends(1, call(9, ":1.2").flags(NO_REPLY_EXPECTED)), 0);
    assert_eq!(bench.sends(1, Message::call(9, "/", "M")), 0);
    assert_eq!(bench.sends(3, call(9, ":1.2")), 0);
    bench.guard.disconnect(3);
    assert_eq!(bench.guard.waits().len(), 8);
    assert_eq!(bench.sends(1, call(9, ":1.2")), 0);
}

#[test]
fn disconnect_ends_waits_of_caller_and_callee() {
    let mut bench = Bench::with_peers(OPEN, 3);
    assert_eq!(bench.sends(1, call(1, ":1.2")), 0);
    assert_eq!(bench.sends(2, call(1, ":1.3")), 0);
    assert_eq!(bench.sends(3, call(1, ":1.1")), 0);
    assert_eq!(bench.guard.disconnect(2).answer, Answer::Done);
    assert_eq!(bench.guard.waits().len(), 1);
    assert_eq!(bench.guard.disconnect(2).answer, Answer::NoSuchPeer);
    assert_eq!(bench.sends(1, Message::method_return(1, 1).to(":1.3")), 0);
}

#[test]
fn disconnect_counts_bytes() {
    let message = Message::call(1, "/", "M").body(&[1; 100]).bytes();
    for taken in [0, 1, 15, 16, 47, 48, 49, 147] {
        let mut bench = Bench::with_peers(OPEN, 1);
        assert_eq!(bench.answers(1, &message).0, 0);
        assert_eq!(bench.answers(1, &message[..taken]), (10, taken));
        assert_eq!(bench.guard.disconnect(1).bytes, taken as u64);
    }
    let mut broken = Bench::with_peers(OPEN, 1);
    let head = Message::new(1, 1).sender(":1.1").body(&[1; 9]).bytes();
    assert_eq!(broken.answers(1, &head), (9, 32));
    assert_eq!(broken.guard.disconnect(1).bytes, 32);
    assert_eq!(broken.guard.disconnect(1).bytes, 0);
}

#[test]
fn piece_order_of_answers() {
    let mut bench = Bench::with_peers(OPEN, 1);
    assert_eq!(bench.answers(1, &[0; 20]), (1, 16));
    assert_eq!(bench.guard.piece(None, 1, &[0]).answer.number(), 50);
    assert_eq!(bench.guard.piece(None, 2, &[0]).answer.number(), 50);
    assert_eq!(bench.answers(2, &[0]), (30, 0));
    assert_eq!(bench.answers(0, &[]), (30, 0));
    assert_eq!(bench.answers(1, &[]), (40, 0));
    bench.guard.disconnect(1);
    assert_eq!(bench.answers(1, &[]), (30, 0));
}

#[test]
fn a_broken_stream_keeps_its_peer() {
    let mut bench = Bench::with_peers(OPEN, 2);
    assert_eq!(bench.sends(2, call(1, ":1.1")), 0);
    assert_eq!(bench.answers(2, &[0; 16]), (1, 16));
    assert_eq!(bench.own(2, "a.b"), 0);
    assert_eq!(bench.sends(1, call(1, "a.b")), 0);
    assert_eq!(bench.sends(1, Message::method_return(1, 1).to("a.b")), 0);
    assert_eq!(bench.guard.release(2, b"a.b").number(), 0);
}

#[test]
fn the_moment_of_the_last_byte_decides() {
    let mut bench = Bench::with_peers(OPEN, 2);
    let bytes = call(1, "a.b").body(b"12").bytes();
    let (most, last) = bytes.split_at(bytes.len() - 1);
    assert_eq!(bench.answers(1, most), (10, most.len()));
    assert_eq!(bench.own(2, "a.b"), 0);
    let judged = bench.piece(1, last);
    assert_eq!((judged.answer, judged.taken, judged.receiver), (Answer::Done, 1, Receiver::Peer(2)));
}
