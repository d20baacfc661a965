//! What coverage sees of waiting calls.

mod common;

use common::{policy, OPEN};
use second::capture::Call;
use second::guard::Guard;
use second::message::Message;
use second::policy::Uid;
use second::replay::run;
use second::wait_cases::{WaitCases, CASES};

/// A guard with peers, and what its calls have shown.
struct Watched {
    guard: Guard,
    cases: WaitCases,
}

impl Watched {
    fn with_peers(peers: usize) -> Watched {
        let mut watched = Watched { guard: Guard::default(), cases: WaitCases::default() };
        for _ in 0..peers {
            assert!(watched.connect().is_empty());
        }
        watched
    }

    /// What a call shows, without the word that all cases begin with.
    fn make(&mut self, call: Call) -> Vec<&'static str> {
        let outcome = run(&mut self.guard, Some(&policy(OPEN)), &call);
        short(self.cases.see(&call, &outcome))
    }

    fn connect(&mut self) -> Vec<&'static str> {
        self.make(Call::Connect { uid: Uid(0), gids: Vec::new() })
    }

    fn leave(&mut self, peer: u32) -> Vec<&'static str> {
        self.make(Call::Disconnect { peer })
    }

    fn send(&mut self, from: u32, to: u32, message: Message) -> Vec<&'static str> {
        self.make(Call::Piece { peer: from, bytes: message.to(&format!(":1.{to}")).bytes() })
    }

    fn call(&mut self, from: u32, to: u32, serial: u32) -> Vec<&'static str> {
        self.send(from, to, Message::call(serial, "/", "M"))
    }

    fn at_end(&self) -> Vec<&'static str> {
        short(self.cases.at_end())
    }
}

fn short(cases: Vec<&'static str>) -> Vec<&'static str> {
    assert!(cases.iter().all(|case| CASES.contains(case)), "{cases:?}");
    cases.into_iter().map(|case| case.strip_prefix("waits, ").expect("they begin alike")).collect()
}

#[test]
fn messages() {
    let mut watched = Watched::with_peers(2);
    assert!(watched.call(1, 2, 1).is_empty());
    assert_eq!(watched.call(1, 2, 1), ["25 at a call"]);
    assert_eq!(watched.call(2, 2, 1), ["call to oneself admitted"]);
    for to in [1, 2] {
        let no_reply = Message::call(5, "/", "M").flags(1);
        assert_eq!(watched.send(2, to, no_reply), ["call without a reply passed to a peer"]);
    }
    assert_eq!(watched.send(2, 1, Message::error(1, 1, "a.b")), ["reply by error passed"]);
    assert!(watched.send(2, 1, Message::error(1, 1, "a.b")).is_empty());
    let both = ["reply by return passed", "reply to oneself passed"];
    assert_eq!(watched.send(2, 2, Message::method_return(1, 1)), both);
    assert!(watched.send(2, 1, Message::signal(1, "/", "a.b", "S")).is_empty());
    for serial in 1..=16 {
        assert!(watched.call(1, 2, serial).is_empty());
    }
    assert_eq!(watched.call(1, 2, 17), ["26 at a call"]);
}

#[test]
fn disconnects() {
    let (ended, open) = ("ended for a peer by the callee's disconnect", "open at their caller's disconnect");
    let mut watched = Watched::with_peers(3);
    watched.call(1, 2, 1);
    watched.call(1, 2, 2);
    watched.call(3, 2, 1);
    assert_eq!(watched.leave(2), [ended, ended]);
    assert!(watched.leave(2).is_empty());
    // Peer 2 had called nobody.
    assert!(watched.connect().is_empty());
    watched.call(1, 3, 1);
    watched.call(3, 3, 1);
    assert_eq!(watched.leave(1), [open]);
    assert_eq!(watched.connect(), ["a newcomer in the slot of a caller that left with some"]);
    assert_eq!(watched.leave(3), [open]);
    // The newcomer leaves without having called, and his slot is like any other again.
    assert!(watched.leave(5).is_empty());
    assert!(watched.connect().is_empty());
}

#[test]
fn starts() {
    let mut watched = Watched::with_peers(2);
    assert!(watched.make(Call::Start).is_empty());
    watched = Watched::with_peers(2);
    watched.call(2, 1, 1);
    assert_eq!(watched.make(Call::Start), ["open at a start"]);
    assert!(watched.connect().is_empty());
    assert_eq!(watched.connect(), ["a newcomer in the slot of a caller that had some at a start"]);
    assert!(watched.make(Call::Start).is_empty());
}

#[test]
fn ends() {
    let mut watched = Watched::with_peers(3);
    watched.call(1, 2, 1);
    watched.call(1, 2, 2);
    watched.send(2, 1, Message::method_return(1, 1));
    assert!(watched.at_end().is_empty());
    watched.leave(2);
    let all = "a peer at the end with calls admitted, replied and ended otherwise";
    assert_eq!(watched.at_end(), [all]);
    watched.call(1, 3, 1);
    assert_eq!(watched.at_end(), [all, "a peer at the end with open ones after replies and ends"]);
    watched.leave(1);
    assert!(watched.at_end().is_empty());
}
