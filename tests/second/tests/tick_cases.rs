//! What coverage sees of ticks.

mod common;

use common::{policy, OPEN};
use second::capture::Call;
use second::coverage::Coverage;
use second::generate::{generate, generate_pair, Mode};
use second::guard::Guard;
use second::message::Message;
use second::policy::Uid;
use second::replay::run;
use second::tick_cases::{Before, TickCases, CASES};

const LARGEST: u64 = u64::MAX;

/// A guard with peers, and what its calls have shown.
struct Watched {
    guard: Guard,
    cases: TickCases,
}

impl Watched {
    fn with_peers(peers: usize) -> Watched {
        let mut watched = Watched { guard: Guard::default(), cases: TickCases::default() };
        watched.connect(peers);
        watched
    }

    fn connect(&mut self, peers: usize) {
        for _ in 0..peers {
            assert!(self.make(Call::Connect { uid: Uid(0), gids: Vec::new() }, None).is_empty());
        }
    }

    /// What a call shows, without the word that all cases begin with. The message is one that the call ends.
    fn make(&mut self, call: Call, message: Option<&Message>) -> Vec<&'static str> {
        let before = Before::of(&self.guard);
        let outcome = run(&mut self.guard, Some(&policy(OPEN)), &call);
        let read = |message: &Message| {
            let bytes = message.bytes();
            let head = second::header::Header::read(&bytes).expect("the head is good");
            (sender_of(&call), head)
        };
        let message = message.map(read);
        short(self.cases.see(&before, &self.guard, &call, &outcome, message.as_ref()))
    }

    fn tick(&mut self, tick: u64, limit: u64) -> Vec<&'static str> {
        self.make(Call::Tick { tick, limit }, None)
    }

    fn send(&mut self, from: u32, to: u32, message: Message) -> Vec<&'static str> {
        let message = message.to(&format!(":1.{to}"));
        self.make(Call::Piece { peer: from, bytes: message.bytes() }, Some(&message))
    }

    fn call(&mut self, from: u32, to: u32, serial: u32) -> Vec<&'static str> {
        self.send(from, to, Message::call(serial, "/", "M"))
    }

    fn reply(&mut self, from: u32, to: u32, serial: u32) -> Vec<&'static str> {
        self.send(from, to, Message::method_return(1, serial))
    }
}

fn sender_of(call: &Call) -> u32 {
    match call {
        Call::Piece { peer, .. } => *peer,
        _ => 0,
    }
}

fn short(cases: Vec<&'static str>) -> Vec<&'static str> {
    assert!(cases.iter().all(|case| CASES.contains(case)), "{cases:?}");
    cases.into_iter().map(|case| case.strip_prefix("ticks, ").expect("they begin alike")).collect()
}

const NOTHING: &str = "ended nothing though calls waited";
const SOME: &str = "ended some and left some";
const SOME_OF_ONE: &str = "ended some and left some of one caller";
const ALL: &str = "ended all that waited";
const SEVERAL: &str = "ended calls of several callers";
const EXACT: &str = "a call just as old as the limit";
const YOUNGER: &str = "a call one tick younger than the limit";
const EQUAL: &str = "equal to the last, which was not 0";

#[test]
fn ends() {
    let mut watched = Watched::with_peers(3);
    assert!(watched.tick(1, 0).is_empty());
    watched.call(1, 2, 1);
    watched.call(2, 1, 1);
    assert_eq!(watched.tick(3, 5), [NOTHING]);
    watched.call(1, 2, 2);
    assert_eq!(watched.tick(4, 4), [NOTHING, YOUNGER]);
    assert_eq!(watched.tick(4, 3), [SOME, SOME_OF_ONE, SEVERAL, EQUAL, EXACT]);
    watched.call(3, 3, 1);
    assert_eq!(watched.tick(5, 2), [SOME, EXACT, YOUNGER]);
    assert_eq!(watched.tick(9, 2), [ALL]);
    assert_eq!(watched.tick(9, 2), [EQUAL]);
}

#[test]
fn limits_and_large_ticks() {
    let mut watched = Watched::with_peers(1);
    watched.call(1, 1, 1);
    assert_eq!(watched.tick(0, 0), [ALL, "limit 0 that ended something"]);
    watched.call(1, 1, 1);
    assert_eq!(watched.tick(1, 1), [ALL, EXACT, "limit 1 that ended something"]);
    watched.call(1, 1, 1);
    let far = "more than 32 bits above the last";
    assert_eq!(watched.tick(1 << 32, LARGEST), [NOTHING]);
    assert_eq!(watched.tick(1 << 33, LARGEST), [NOTHING, far]);
    let (largest, left) = ("set to the largest", "the largest limit at the largest tick that left something");
    assert_eq!(watched.tick(LARGEST, LARGEST), [NOTHING, far, YOUNGER, left, largest]);
    let mut watched = Watched::with_peers(1);
    watched.call(1, 1, 1);
    let ended = "the largest limit that ended something";
    assert_eq!(watched.tick(LARGEST, LARGEST), [ALL, far, EXACT, ended, largest]);
}

#[test]
fn the_last_slot() {
    let last = "ended calls of the peer in the last slot";
    let mut watched = Watched::with_peers(16);
    watched.call(15, 16, 1);
    watched.tick(1, LARGEST);
    watched.call(16, 16, 1);
    assert_eq!(watched.tick(2, 2), [SOME, EXACT, YOUNGER]);
    assert_eq!(watched.tick(3, 2), [ALL, last, EXACT]);
}

#[test]
fn refusals() {
    let mut watched = Watched::with_peers(1);
    watched.tick(9, 0);
    watched.call(1, 1, 1);
    assert!(watched.tick(5, 1).is_empty());
    let (again, old) = (
        "41 though not below one that was refused before",
        "41 while calls waited that the limit would have ended",
    );
    assert!(watched.tick(4, 1).is_empty());
    assert_eq!(watched.tick(4, 0), [old, again]);
    watched.tick(9, 9);
    assert!(watched.tick(8, 1).is_empty());
    watched.tick(9, 9);
    watched.connect(1);
    assert!(watched.make(Call::Disconnect { peer: 3 }, None).is_empty());
    assert!(watched.tick(8, 1).is_empty());
    watched.make(Call::Disconnect { peer: 1 }, None);
    let left = "41 behind a disconnect";
    assert_eq!(watched.tick(7, 1), [left]);
    watched.tick(9, 9);
    watched.make(Call::Disconnect { peer: 2 }, None);
    assert_eq!(watched.tick(7, 1), [left, "41 on a guard without peers"]);
}

#[test]
fn starts_and_empty_guards() {
    let mut watched = Watched::with_peers(0);
    assert!(watched.make(Call::Start, None).is_empty());
    assert_eq!(watched.tick(0, 0), ["set on an empty guard"]);
    assert_eq!(watched.tick(5, 0), ["set on an empty guard"]);
    assert!(watched.tick(6, 0).is_empty());
    assert_eq!(watched.make(Call::Start, None), ["a start behind them"]);
    watched.connect(1);
    let lower = "good though below one from before the start";
    assert_eq!(watched.tick(5, 0), [lower]);
    assert!(watched.tick(6, 0).is_empty());
}

#[test]
fn messages() {
    let mut watched = Watched::with_peers(2);
    assert!(watched.call(1, 2, 1).is_empty());
    assert!(watched.call(1, 2, 1).is_empty());
    assert!(watched.reply(2, 1, 5).is_empty());
    watched.call(1, 2, 2);
    watched.tick(1, LARGEST);
    assert_eq!(watched.call(1, 2, 1), ["25 at a later one than the first call's"]);
    assert_eq!(watched.reply(2, 1, 1), ["a reply passed at a later one than its call's"]);
    assert!(watched.reply(2, 1, 1).is_empty());
    watched.call(1, 2, 3);
    assert!(watched.reply(2, 1, 3).is_empty());
    watched.tick(1, 1);
    let late = "24 for a reply to a call that they ended";
    assert_eq!(watched.reply(2, 1, 2), [late]);
    assert_eq!(watched.reply(2, 1, 2), [late]);
    assert!(watched.reply(1, 2, 2).is_empty());
    assert_eq!(watched.call(1, 2, 2), ["a call that they ended waits again"]);
    assert!(watched.reply(2, 1, 2).is_empty());
    assert!(watched.reply(2, 1, 2).is_empty());
    assert!(watched.send(1, 2, Message::signal(2, "/", "a.b", "S")).is_empty());
}

#[test]
fn sixteen() {
    let freed = "a call admitted in the place of one of sixteen that they ended";
    let mut watched = Watched::with_peers(2);
    for serial in 1..=16 {
        watched.call(1, 2, serial);
        watched.tick(serial.into(), LARGEST);
    }
    assert_eq!(watched.tick(16, 15), [SOME, SOME_OF_ONE, EQUAL, EXACT, YOUNGER]);
    assert!(watched.call(2, 2, 1).is_empty());
    assert_eq!(watched.call(1, 2, 20), [freed]);
    assert_eq!(watched.call(1, 2, 21), [freed]);
    assert!(watched.call(1, 2, 22).is_empty());
    // Where a reply made the room, a tick did not.
    let mut watched = Watched::with_peers(2);
    for serial in 1..=16 {
        watched.call(1, 2, serial);
        watched.tick(serial.into(), LARGEST);
    }
    watched.tick(16, 16);
    watched.reply(2, 1, 9);
    assert!(watched.call(1, 2, 20).is_empty());
    assert_eq!(watched.call(1, 2, 21), [freed]);
}

#[test]
fn cut_messages() {
    let mut watched = Watched::with_peers(1);
    let message = Message::call(1, "/", "M").to(":1.1");
    let (front, rest) = (message.bytes()[..20].to_vec(), message.bytes()[20..].to_vec());
    let piece = |bytes: &[u8]| Call::Piece { peer: 1, bytes: bytes.to_vec() };
    assert!(watched.make(piece(&front), None).is_empty());
    assert_eq!(watched.tick(1, 1), ["set while a message was cut"]);
    let later = "a call admitted at a later one than it began at";
    assert_eq!(watched.make(piece(&rest), Some(&message)), [later]);
    assert_eq!(watched.tick(2, 2), [NOTHING, YOUNGER]);
    assert_eq!(watched.tick(3, 2), [ALL, EXACT]);
    watched.make(piece(&front), None);
    assert_eq!(watched.make(piece(&rest), Some(&message)), ["a call that they ended waits again"]);
    // A stream that is closed is not cut.
    watched.make(piece(&[0; 16]), None);
    assert_eq!(watched.tick(4, 9), [NOTHING]);
}

#[test]
fn at_the_end() {
    let all = "a peer at the end with calls replied to, ended by them and open";
    let mut watched = Watched::with_peers(2);
    let at_end = |watched: &Watched| short(watched.cases.at_end(&watched.guard));
    watched.call(1, 2, 1);
    watched.call(1, 2, 2);
    watched.reply(2, 1, 1);
    assert!(at_end(&watched).is_empty());
    watched.tick(1, 1);
    assert!(at_end(&watched).is_empty());
    watched.call(1, 2, 1);
    assert_eq!(at_end(&watched), [all]);
    watched.make(Call::Disconnect { peer: 1 }, None);
    assert!(at_end(&watched).is_empty());
}

/// Calls of every kind of capture come with ticks that end some calls, all of them or none, and with refused ones.
#[test]
fn ticks_in_each_mode() {
    let pairs = (1..=89).flat_map(|seed| <[_; 2]>::from(generate_pair(seed, 120)));
    let full = (1..=23).map(|seed| generate(seed, 1500, Mode::Full));
    let mixed = (1..=60).map(|seed| generate(seed, 1200, Mode::Mixed));
    let batches = (1..=150).map(|seed| generate(seed, 100, Mode::Batches));
    let wanted = [
        "ended nothing though",
        "ended some and left some",
        "ended all",
        "41 while",
        "24 for",
        "waits again",
    ];
    for files in [pairs.collect::<Vec<_>>(), full.collect(), mixed.collect(), batches.collect()] {
        let mut coverage = Coverage::default();
        files.iter().for_each(|file| coverage.add(file));
        let report = coverage.report();
        for case in wanted {
            assert!(
                report.lines().any(|line| line.starts_with("case ticks, ") && line.contains(case)),
                "{case}"
            );
        }
    }
}
