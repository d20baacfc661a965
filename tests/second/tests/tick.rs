//! Ticks: which are refused, what they end, and what may come behind them. Each limit and one beyond.

mod common;

use common::{Bench, OPEN};
use second::answer::Receiver;
use second::capture::Call;
use second::message::Message;
use second::wire::NO_REPLY_EXPECTED;

const LARGEST: u64 = u64::MAX;

fn call(serial: u32, to: &str) -> Message {
    Message::call(serial, "/", "M").to(to)
}

fn reply(serial: u32, to: &str) -> Message {
    Message::method_return(9, serial).to(to)
}

/// The answer of a tick and how many calls it ended.
fn tick(bench: &mut Bench, tick: u64, limit: u64) -> (u32, usize) {
    let ticked = bench.guard.tick(tick, limit);
    (ticked.answer.number(), ticked.ended)
}

/// A guard with two peers, in which peer 1 called peer 2 with serials 1, 2 and on, one at each of these ticks.
fn called_at(ticks: &[u64]) -> Bench {
    let mut bench = Bench::with_peers(OPEN, 2);
    for (&at, serial) in ticks.iter().zip(1..) {
        assert_eq!(tick(&mut bench, at, LARGEST), (0, 0));
        assert_eq!(bench.sends(1, call(serial, ":1.2")), 0);
    }
    bench
}

/// The serials that still wait.
fn left(bench: &Bench) -> Vec<u32> {
    bench.guard.waits().iter().map(|wait| wait.serial).collect()
}

#[test]
fn an_empty_guard_is_at_0() {
    let mut bench = Bench::new(OPEN);
    assert_eq!(bench.guard.last_tick(), 0);
    for limit in [0, 1, LARGEST] {
        assert_eq!(tick(&mut bench, 0, limit), (0, 0));
    }
    assert_eq!(tick(&mut bench, LARGEST, 0), (0, 0));
    assert_eq!(tick(&mut bench, LARGEST, 0), (0, 0));
    assert_eq!(tick(&mut bench, LARGEST - 1, 0), (41, 0));
    assert_eq!(tick(&mut bench, 0, 0), (41, 0));
}

#[test]
fn equal_and_lower() {
    let mut bench = called_at(&[0]);
    for (now, answer) in [(10, 0), (9, 41), (0, 41), (9, 41), (10, 0), (11, 0), (10, 41), (11, 0)] {
        assert_eq!(tick(&mut bench, now, LARGEST), (answer, 0), "{now}");
    }
    assert_eq!(bench.guard.last_tick(), 11);
    // Not even the top half alone makes a tick higher, and the top bit is no sign.
    for (now, answer) in [(1 << 63, 0), ((1 << 63) - 1, 41), (LARGEST - 1, 0), (1 << 63, 41), (1 << 32, 41)] {
        assert_eq!(tick(&mut bench, now, LARGEST), (answer, 0), "{now}");
    }
}

#[test]
fn a_refused_tick_changes_nothing() {
    let mut bench = called_at(&[5, 10]);
    for limit in [0, 1, 5, LARGEST] {
        assert_eq!(tick(&mut bench, 9, limit), (41, 0));
    }
    assert_eq!(left(&bench), [1, 2]);
    assert_eq!(bench.sends(1, call(3, ":1.2")), 0);
    assert_eq!(bench.guard.waits()[2].tick, 10);
    assert_eq!(tick(&mut bench, 10, 5), (0, 1));
}

#[test]
fn just_as_old_and_one_younger() {
    for (limit, ended) in [(11, 0), (10, 1), (9, 1), (1, 1), (0, 1)] {
        let mut bench = called_at(&[5]);
        assert_eq!(tick(&mut bench, 15, limit), (0, ended), "{limit}");
        assert_eq!(left(&bench).len(), 1 - ended);
    }
    let mut bench = called_at(&[5]);
    for (now, ended) in [(14, 0), (14, 0), (15, 1), (15, 0)] {
        assert_eq!(tick(&mut bench, now, 10), (0, ended), "{now}");
    }
}

#[test]
fn limits_0_and_1() {
    let mut bench = called_at(&[0, 7, 7]);
    assert_eq!(tick(&mut bench, 7, 1), (0, 1));
    assert_eq!(left(&bench), [2, 3]);
    assert_eq!(tick(&mut bench, 7, 1), (0, 0));
    assert_eq!(tick(&mut bench, 7, 0), (0, 2));
    assert!(left(&bench).is_empty());
    assert_eq!(tick(&mut bench, 7, 0), (0, 0));
}

#[test]
fn the_largest_numbers() {
    let mut bench = called_at(&[0, 1]);
    assert_eq!(tick(&mut bench, LARGEST - 1, LARGEST), (0, 0));
    assert_eq!(tick(&mut bench, LARGEST, LARGEST), (0, 1));
    assert_eq!(left(&bench), [2]);
    assert_eq!(tick(&mut bench, LARGEST, LARGEST), (0, 0));
    assert_eq!(bench.sends(1, call(3, ":1.2")), 0);
    assert_eq!(tick(&mut bench, LARGEST, LARGEST - 1), (0, 1));
    assert_eq!(tick(&mut bench, LARGEST, 1), (0, 0));
    assert_eq!(left(&bench), [3]);
    assert_eq!(tick(&mut bench, LARGEST, 0), (0, 1));
}

/// A sum of tick and limit would be 2^64 and more.
#[test]
fn old_ticks_and_large_limits() {
    let mut bench = called_at(&[LARGEST - 10]);
    for limit in [10, 11, 12, 1 << 63, LARGEST] {
        assert_eq!(tick(&mut bench, LARGEST - 1, limit), (0, 0), "{limit}");
    }
    assert_eq!(tick(&mut bench, LARGEST - 1, 9), (0, 1));
    // Ages and limits that differ only above their low halves.
    let mut bench = called_at(&[3]);
    assert_eq!(tick(&mut bench, (1 << 32) + 3, (1 << 32) + 1), (0, 0));
    assert_eq!(tick(&mut bench, (1 << 32) + 3, 1 << 32), (0, 1));
    let mut bench = called_at(&[3]);
    assert_eq!(tick(&mut bench, 8, (1 << 32) + 5), (0, 0));
    assert_eq!(tick(&mut bench, (1 << 40) + 3, 7), (0, 1));
}

#[test]
fn a_late_reply_and_the_same_call_again() {
    let mut bench = called_at(&[1, 2]);
    assert_eq!(tick(&mut bench, 4, 3), (0, 1));
    assert_eq!(bench.sends(2, reply(1, ":1.1")), 24);
    assert_eq!(bench.sends(1, call(2, ":1.2")), 25);
    assert_eq!(bench.sends(1, call(1, ":1.2")), 0);
    assert_eq!(bench.sends(1, call(1, ":1.2")), 25);
    assert_eq!(bench.send(2, reply(2, ":1.1")), (0, Receiver::Peer(1)));
    // The call that waits again is as old as its second admission.
    assert_eq!(tick(&mut bench, 6, 3), (0, 0));
    assert_eq!(bench.send(2, reply(1, ":1.1")), (0, Receiver::Peer(1)));
    assert_eq!(bench.sends(2, reply(1, ":1.1")), 24);
    assert_eq!(tick(&mut bench, 6, 0), (0, 0));
}

/// Neither a 25 nor another call makes a waiting call younger.
#[test]
fn calls_keep_their_own_ticks() {
    let mut bench = called_at(&[1, 3]);
    assert_eq!(bench.sends(1, call(1, ":1.2")), 25);
    assert_eq!(bench.guard.waits().iter().map(|wait| wait.tick).collect::<Vec<_>>(), [1, 3]);
    assert_eq!(tick(&mut bench, 4, 3), (0, 1));
    assert_eq!(tick(&mut bench, 5, 3), (0, 0));
    assert_eq!(tick(&mut bench, 6, 3), (0, 1));
}

#[test]
fn sixteen_wait_and_one_ends() {
    let mut bench = called_at(&[2]);
    assert_eq!(tick(&mut bench, 3, LARGEST), (0, 0));
    for serial in 2..=16 {
        assert_eq!(bench.sends(1, call(serial, ":1.2")), 0);
    }
    assert_eq!(bench.sends(1, call(17, ":1.2")), 26);
    assert_eq!(tick(&mut bench, 9, 8), (0, 0));
    assert_eq!(bench.sends(1, call(17, ":1.2")), 26);
    assert_eq!(tick(&mut bench, 10, 8), (0, 1));
    assert_eq!(bench.sends(1, call(17, ":1.2")), 0);
    assert_eq!(bench.sends(1, call(18, ":1.2")), 26);
    assert_eq!(tick(&mut bench, 11, 8), (0, 15));
    assert_eq!(left(&bench), [17]);
    for serial in 1..=15 {
        assert_eq!(bench.sends(1, call(serial, ":1.2")), 0);
    }
    assert_eq!(bench.sends(1, call(16, ":1.2")), 26);
}

/// All that may wait in a guard, one caller after the other from the last slot on.
#[test]
fn every_slot() {
    let mut bench = Bench::with_peers(OPEN, 16);
    for caller in (1..=16).rev() {
        assert_eq!(tick(&mut bench, u64::from(40 - caller), LARGEST), (0, 0));
        for serial in 1..=16 {
            assert_eq!(bench.sends(caller, call(serial, &format!(":1.{serial}"))), 0);
        }
    }
    assert_eq!(bench.guard.waits().len(), 256);
    assert_eq!(tick(&mut bench, 40, 16), (0, 16));
    assert!(bench.guard.waits().iter().all(|wait| wait.caller != 16));
    assert_eq!(tick(&mut bench, 40, 2), (0, 14 * 16));
    assert!(bench.guard.waits().iter().all(|wait| wait.caller == 1));
    assert_eq!(tick(&mut bench, 40, 0), (0, 16));
    for caller in 1..=16 {
        for serial in 1..=16 {
            assert_eq!(bench.sends(caller, call(serial, ":1.16")), 0);
        }
    }
    assert_eq!(tick(&mut bench, 41, 1), (0, 256));
}

/// A call begins to wait with its last byte.
#[test]
fn between_pieces_of_a_message() {
    let bytes = call(1, ":1.2").body(b"12").bytes();
    for at in [1, 15, 16, 64, bytes.len() - 1] {
        let mut bench = Bench::with_peers(OPEN, 2);
        assert_eq!(tick(&mut bench, 5, 0), (0, 0));
        assert_eq!(bench.answers(1, &bytes[..at]), (10, at));
        assert_eq!(tick(&mut bench, 8, 0), (0, 0));
        assert_eq!(tick(&mut bench, 7, 0), (41, 0));
        assert_eq!(bench.answers(1, &bytes[at..]), (0, bytes.len() - at));
        assert_eq!(tick(&mut bench, 10, 3), (0, 0));
        // A reply whose first bytes came in time is late with its last.
        let late = reply(1, ":1.1").bytes();
        assert_eq!(bench.answers(2, &late[..at.min(39)]).0, 10);
        assert_eq!(tick(&mut bench, 10, 2), (0, 1));
        assert_eq!(bench.answers(2, &late[at.min(39)..]).0, 24);
    }
    let mut closed = Bench::with_peers(OPEN, 1);
    assert_eq!(closed.answers(1, &[0; 16]), (1, 16));
    assert_eq!(tick(&mut closed, 1, 0), (0, 0));
    assert_eq!(closed.answers(1, &bytes), (40, 0));
    assert_eq!(closed.guard.disconnect(1).bytes, 16);
}

#[test]
fn who_comes_and_goes_does_not_change_the_tick() {
    let mut bench = called_at(&[4]);
    bench.connect(1000, &[]);
    assert_eq!(tick(&mut bench, 3, 0), (41, 0));
    assert_eq!(bench.sends(3, call(1, ":1.1")), 0);
    bench.guard.disconnect(2);
    assert_eq!(tick(&mut bench, 3, 0), (41, 0));
    assert_eq!(left(&bench).len(), 1);
    bench.guard.disconnect(1);
    bench.guard.disconnect(3);
    assert_eq!(bench.guard.peers().count(), 0);
    assert_eq!(tick(&mut bench, 3, 0), (41, 0));
    assert_eq!(tick(&mut bench, 4, 0), (0, 0));
    let newcomer = bench.connect(1000, &[]);
    assert_eq!(bench.sends(newcomer, call(1, &format!(":1.{newcomer}"))), 0);
    assert_eq!(tick(&mut bench, 4, 1), (0, 0));
    assert_eq!(tick(&mut bench, 5, 1), (0, 1));
}

#[test]
fn a_start_sets_it_to_0() {
    let mut bench = called_at(&[7]);
    bench.guard.start();
    assert_eq!(bench.guard.last_tick(), 0);
    for number in [1, 2] {
        assert_eq!(bench.connect(1000, &[]), number);
    }
    assert_eq!(bench.sends(2, reply(1, ":1.1")), 24);
    assert_eq!(bench.sends(1, call(1, ":1.2")), 0);
    assert_eq!(tick(&mut bench, 6, 7), (0, 0));
    assert_eq!(tick(&mut bench, 7, 7), (0, 1));
}

#[test]
fn what_does_not_wait_does_not_end() {
    let mut bench = Bench::with_peers(OPEN, 2);
    assert_eq!(bench.sends(1, call(1, ":1.2").flags(NO_REPLY_EXPECTED)), 0);
    assert_eq!(bench.sends(1, Message::call(2, "/", "M")), 0);
    assert_eq!(bench.sends(1, Message::signal(3, "/", "a.b", "S").to(":1.2")), 0);
    assert_eq!(tick(&mut bench, 9, 0), (0, 0));
    // A call to oneself is one call, and it ends as every other does.
    assert_eq!(bench.sends(1, call(4, ":1.1")), 0);
    assert_eq!(tick(&mut bench, 10, 1), (0, 1));
    assert_eq!(bench.sends(1, reply(4, ":1.1")), 24);
}

#[test]
fn lines() {
    let mut bench = called_at(&[1, 1]);
    let mut line = |tick, limit| bench.line(Call::Tick { tick, limit });
    assert_eq!(line(2, 2), "tick 0 0");
    assert_eq!(line(1, 0), "tick 41 0");
    assert_eq!(line(2, 1), "tick 0 2");
}
