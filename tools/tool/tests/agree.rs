//! A tool whose own knowledge is wrong says so: each test spoils one thing that it knows, and the next call must be told as one that
//! is read otherwise than the guard reads it.

use forms::capture::Capture;
use forms::script;
use tool::book::{Pending, Wait};
use tool::cli::Style;
use tool::explain::words::{self, Boxes};
use tool::explain::{json, Teller};
use tool::rules::Rules;

const OPEN: &str = "rule connect default allow any
    rule own default allow any
    rule transaction default allow send any
    rule transaction default allow receive any
    connect 1
    connect 2
    own 2 org.a.b\n";

const CALL: &str = "piece 1 message call serial=7 path=/ member=M destination=org.a.b\n";
const REPLY: &str = "piece 2 message return serial=1 reply=7 destination=:1.1\n";

fn capture(calls: &[&str]) -> Capture {
    script::parse(&(OPEN.to_string() + &calls.concat()), &|_| Err("no file".to_string())).expect("good")
}

/// What is said of the last call of a capture, before which something is spoiled.
fn last(calls: &[&str], spoil: impl Fn(&mut Teller)) -> Option<String> {
    let capture = capture(calls);
    let rules = Rules::of_image(&capture.image);
    let mut teller = Teller::new(&capture, &rules);
    for _ in 1..capture.calls.len() {
        assert_eq!(teller.step().expect("a call").disagreement, None);
    }
    spoil(&mut teller);
    teller.step().expect("a call").disagreement
}

/// The call is told as usual where nothing is spoiled, and otherwise where it is.
fn found(calls: &[&str], spoil: impl Fn(&mut Teller)) {
    assert_eq!(last(calls, |_| {}), None, "{calls:?}");
    assert!(last(calls, spoil).is_some_and(|told| told.starts_with("the guard says ")), "{calls:?}");
}

#[test]
fn bytes_of_a_stream() {
    let part = "piece 1 hex 6c01000100000000\n";
    let take = |teller: &mut Teller| teller.book.peer_mut(1).expect("peer 1").stream.take(b"x");
    found(&[CALL], take);
    found(&[part], |teller| teller.book.peer_mut(1).expect("peer 1").stream.take(&[b'x'; 9]));
    found(&["piece 1 message call version=2 path=/ member=M\n"], take);
    found(&[part, "piece 1 hex 010000001a000000\n"], |teller| {
        teller.book.peer_mut(1).expect("peer 1").stream.begin();
        teller.book.peer_mut(1).expect("peer 1").stream.take(&[b'x'; 8]);
    });
}

#[test]
fn closed_streams() {
    found(&[CALL], |teller| teller.book.peer_mut(1).expect("peer 1").stream.closed = Some((1, 1)));
    found(&["piece 1 hex 00112233445566778899aabbccddeeff\n", "piece 1 empty\n"], |teller| {
        teller.book.peer_mut(1).expect("peer 1").stream.closed = None;
    });
}

#[test]
fn peers_and_names() {
    found(&[CALL], |teller| teller.book.disconnect(1, 9));
    found(&[CALL], |teller| teller.book.disconnect(2, 9));
    found(&[CALL], |teller| teller.book.release(2, "org.a.b", 9));
    found(&["piece 1 message call path=/ member=M destination=org.a.c\n"], |teller| {
        teller.book.own(2, "org.a.c")
    });
    found(&["own 1 org.a.b\n"], |teller| teller.book.release(2, "org.a.b", 9));
    found(&["own 1 org.a.c\n"], |teller| teller.book.own(2, "org.a.c"));
    found(&["own 2 org.a.c\n"], |teller| {
        ["a.b", "a.c", "a.d"].map(|name| teller.book.own(2, name)).iter().for_each(drop)
    });
    found(&["release 2 org.a.b\n"], |teller| teller.book.release(2, "org.a.b", 9));
    found(&["release 1 org.a.b\n"], |teller| teller.book.own(1, "org.a.b"));
    found(&["disconnect 2\n"], |teller| teller.book.disconnect(2, 9));
}

#[test]
fn waits() {
    let wait = |serial| Pending { wait: Wait { caller: 1, callee: 2, serial }, call: 1, tick: 0 };
    found(&[CALL, REPLY], |teller| teller.book.waits.clear());
    found(&[CALL, REPLY, REPLY], |teller| teller.book.waits.push(wait(7)));
    found(&[CALL, CALL], |teller| teller.book.waits.clear());
    found(&[CALL], |teller| teller.book.waits.push(wait(7)));
    found(&[CALL], |teller| teller.book.waits.extend((100..116).map(wait)));
}

#[test]
fn ticks() {
    let at = |tick, limit| format!("tick {tick} {limit}\n");
    // The last tick: too high, too low, and too low where a refusal is told.
    found(&[&at(5, 1)], |teller| teller.book.tick = 6);
    found(&[&at(6, 1), &at(5, 1)], |teller| teller.book.tick = 5);
    // The waits: one too few, one too many, one that is too young or too old.
    found(&[CALL, &at(5, 5)], |teller| teller.book.waits.clear());
    found(&[&at(5, 5)], |teller| {
        let wait = Wait { caller: 1, callee: 2, serial: 7 };
        teller.book.waits.push(Pending { wait, call: 1, tick: 0 });
    });
    found(&[CALL, &at(5, 5)], |teller| teller.book.waits[0].tick = 1);
    found(&[&at(1, 9), CALL, &at(5, 5)], |teller| teller.book.waits[0].tick = 0);
    // What has ended is not waited for, and may be asked again.
    found(&[CALL, &at(5, 5), REPLY], |teller| {
        let wait = Wait { caller: 1, callee: 2, serial: 7 };
        teller.book.waits.push(Pending { wait, call: 1, tick: 0 });
    });
    assert_eq!(last(&[CALL, &at(5, 5), CALL], |_| {}), None);
    assert_eq!(last(&[CALL, &at(5, 6), CALL], |_| {}), None);
}

#[test]
fn images() {
    let good = capture(&[]);
    let bad = Capture { image: good.image[1..].to_vec(), calls: good.calls.clone() };
    for (lent, read) in [(&good, &bad), (&bad, &good)] {
        let rules = Rules::of_image(&read.image);
        let mut teller = Teller::new(lent, &rules);
        let story = teller.step().expect("a call");
        assert!(words::tell(&story, Boxes::Broken, Style::PLAIN).contains("DISAGREEMENT: the guard says "));
        assert!(json::line(&story).contains("\"disagreement\":\"the guard says "));
    }
}
