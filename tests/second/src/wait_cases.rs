//! What becomes of waiting calls: the cases that a capture shows, from its calls and answers.

use crate::answer::{Answer, Receiver};
use crate::capture::Call;
use crate::guard::{Judged, SLOTS};
use crate::header::{ERROR, METHOD_CALL, METHOD_RETURN};
use crate::replay::Outcome;
use crate::tally::Tally;

const TO_ONESELF: &str = "waits, call to oneself admitted";
const REPLY_TO_ONESELF: &str = "waits, reply to oneself passed";
const BY_RETURN: &str = "waits, reply by return passed";
const BY_ERROR: &str = "waits, reply by error passed";
const NO_REPLY: &str = "waits, call without a reply passed to a peer";
const SAME_TRIPLE: &str = "waits, 25 at a call";
const TOO_MANY: &str = "waits, 26 at a call";
const CALLEE_LEFT: &str = "waits, ended for a peer by the callee's disconnect";
const CALLER_LEFT: &str = "waits, open at their caller's disconnect";
const OPEN_AT_START: &str = "waits, open at a start";
const NEWCOMER: &str = "waits, a newcomer in the slot of a caller that left with some";
const NEWCOMER_AFTER_START: &str = "waits, a newcomer in the slot of a caller that had some at a start";
const ALL_COUNTS: &str = "waits, a peer at the end with calls admitted, replied and ended otherwise";
const STILL_OPEN: &str = "waits, a peer at the end with open ones after replies and ends";

/// Every case; a good set of captures meets each of them often.
pub const CASES: [&str; 14] = [
    TO_ONESELF,
    REPLY_TO_ONESELF,
    BY_RETURN,
    BY_ERROR,
    NO_REPLY,
    SAME_TRIPLE,
    TOO_MANY,
    CALLEE_LEFT,
    CALLER_LEFT,
    OPEN_AT_START,
    NEWCOMER,
    NEWCOMER_AFTER_START,
    ALL_COUNTS,
    STILL_OPEN,
];

/// Follows one capture, call by call.
#[derive(Default)]
pub struct WaitCases {
    tally: Tally,
    /// For a slot whose last peer had open calls when it went: the case of the next peer there.
    next: [Option<&'static str>; SLOTS],
}

impl WaitCases {
    /// The cases that a call shows, some of them several times.
    pub fn see(&mut self, call: &Call, outcome: &Outcome) -> Vec<&'static str> {
        let cases = match (call, outcome) {
            (Call::Start, _) => self.start(),
            (_, Outcome::Connect(connected)) if connected.answer == Answer::Done => {
                self.next[connected.slot].take().into_iter().collect()
            }
            (Call::Disconnect { peer }, _) => self.disconnect(*peer),
            (Call::Piece { peer, .. }, Outcome::Piece(judged)) => of_message(*peer, judged),
            _ => Vec::new(),
        };
        self.tally.see(call, outcome);
        cases
    }

    fn start(&mut self) -> Vec<&'static str> {
        self.next = [None; SLOTS];
        for (slot, _) in self.tally.peers().filter(|(_, peer)| peer.counts.open() > 0) {
            self.next[slot] = Some(NEWCOMER_AFTER_START);
        }
        match self.next == [None; SLOTS] {
            true => Vec::new(),
            false => vec![OPEN_AT_START],
        }
    }

    /// A disconnect about to be counted; nobody waits for a stranger.
    fn disconnect(&mut self, number: u32) -> Vec<&'static str> {
        let mut cases = Vec::new();
        for (slot, peer) in self.tally.peers() {
            if peer.number != number && self.tally.open_between(peer.number, number) > 0 {
                cases.push(CALLEE_LEFT);
            }
            if peer.number == number {
                self.next[slot] = (peer.counts.open() > 0).then_some(NEWCOMER);
                cases.extend(self.next[slot].map(|_| CALLER_LEFT));
            }
        }
        cases
    }

    /// The cases of the peers that are left when the capture ends.
    pub fn at_end(&self) -> Vec<&'static str> {
        let mut cases = Vec::new();
        for (_, peer) in self.tally.peers() {
            if peer.counts.replied > 0 && peer.counts.otherwise > 0 {
                cases.push(ALL_COUNTS);
                cases.extend((peer.counts.open() > 0).then_some(STILL_OPEN));
            }
        }
        cases
    }
}

fn of_message(sender: u32, judged: &Judged) -> Vec<&'static str> {
    let Some(message) = judged.message else { return Vec::new() };
    let is_own = judged.receiver == Receiver::Peer(sender);
    let reply = |case| if is_own { vec![case, REPLY_TO_ONESELF] } else { vec![case] };
    match (message.message_type, judged.answer, judged.receiver) {
        (METHOD_CALL, Answer::AlreadyWaits, _) => vec![SAME_TRIPLE],
        (METHOD_CALL, Answer::TooManyWaits, _) => vec![TOO_MANY],
        (METHOD_CALL, Answer::Done, Receiver::Peer(_)) if !message.expects_reply() => vec![NO_REPLY],
        (METHOD_CALL, Answer::Done, Receiver::Peer(_)) if is_own => vec![TO_ONESELF],
        (METHOD_RETURN, Answer::Done, _) => reply(BY_RETURN),
        (ERROR, Answer::Done, _) => reply(BY_ERROR),
        _ => Vec::new(),
    }
}
