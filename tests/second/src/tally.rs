//! What became of each peer's calls since it connected, counted from the calls on the guard,
//! the messages that they ended and their answers alone.
//!
//! The guard's own list of waits is never looked at, so that its length can be held against
//! what these counts leave open.

use crate::answer::{Answer, Receiver};
use crate::capture::Call;
use crate::guard::{Connected, Judged, SLOTS};
use crate::header::{ERROR, METHOD_CALL, METHOD_RETURN};
use crate::replay::Outcome;
use std::collections::BTreeMap;

#[derive(Clone, Copy, Debug, Default, PartialEq, Eq)]
pub struct Counts {
    /// Calls that were admitted to wait.
    pub admitted: u64,
    /// Replies that were passed to the peer.
    pub replied: u64,
    /// Waits that ended because the callee left or because a tick found them too old.
    pub otherwise: u64,
}

impl Counts {
    /// How many of the calls must still be waiting.
    pub fn open(&self) -> u64 {
        self.admitted - self.replied - self.otherwise
    }
}

/// The counts of the peer in one slot; all zero while the slot is free, number 0.
#[derive(Clone, Copy, Debug, Default)]
pub struct Sheet {
    pub number: u32,
    pub counts: Counts,
}

#[derive(Clone, Debug, Default)]
pub struct Tally {
    sheets: [Sheet; SLOTS],
    /// The last tick that was set.
    tick: u64,
    /// Calls that were admitted and have not ended, by caller, callee and serial, each with the
    /// tick of its admission.
    open: BTreeMap<(u32, u32, u32), u64>,
}

impl Tally {
    /// The connected peers, each with its slot.
    pub fn peers(&self) -> impl Iterator<Item = (usize, &Sheet)> {
        self.sheets.iter().enumerate().filter(|(_, sheet)| sheet.number != 0)
    }

    /// The counts of a connected peer.
    pub fn of(&self, number: u32) -> Counts {
        let sheet = self.sheets.iter().find(|sheet| sheet.number == number);
        sheet.map_or(Counts::default(), |sheet| sheet.counts)
    }

    /// How many calls of one peer to another must still be waiting.
    pub fn open_between(&self, caller: u32, callee: u32) -> u64 {
        self.open.keys().filter(|triple| (triple.0, triple.1) == (caller, callee)).count() as u64
    }

    /// Sees a call on the guard with what came back.
    pub fn see(&mut self, call: &Call, outcome: &Outcome) {
        match (call, outcome) {
            (Call::Start, _) => *self = Tally::default(),
            (_, Outcome::Connect(Connected { answer: Answer::Done, number, slot, .. })) => {
                self.sheets[*slot].number = *number;
            }
            (Call::Disconnect { peer }, Outcome::Disconnect(left)) if left.answer == Answer::Done => {
                self.leave(*peer);
            }
            (Call::Piece { peer, .. }, Outcome::Piece(judged)) => self.see_message(*peer, judged),
            (Call::Tick { tick, limit }, Outcome::Tick(ticked)) if ticked.answer == Answer::Done => {
                self.expire(*tick, *limit);
            }
            _ => {}
        }
    }

    /// A call counts for its sender, a reply for its receiver.
    fn see_message(&mut self, sender: u32, judged: &Judged) {
        let (Some(message), Some(receiver)) = (judged.message, peer_reached(judged)) else { return };
        match message.message_type {
            METHOD_CALL if message.expects_reply() => self.admit((sender, receiver, message.serial)),
            METHOD_RETURN | ERROR => self.reply(receiver, sender, judged.reply_serial),
            _ => {}
        }
    }

    fn admit(&mut self, triple: (u32, u32, u32)) {
        self.count(triple.0, |counts| counts.admitted += 1);
        self.open.insert(triple, self.tick);
    }

    fn reply(&mut self, caller: u32, callee: u32, serial: Option<u32>) {
        self.count(caller, |counts| counts.replied += 1);
        self.open.retain(|triple, _| Some(triple.2) != serial || (triple.0, triple.1) != (caller, callee));
    }

    /// The others' open calls to a peer that leaves end; its own counts go with it.
    fn leave(&mut self, number: u32) {
        self.end_otherwise(|triple, _| triple.1 == number);
        self.open.retain(|triple, _| triple.0 != number);
        for sheet in self.sheets.iter_mut().filter(|sheet| sheet.number == number) {
            *sheet = Sheet::default();
        }
    }

    /// Open calls of at least `limit` ticks end, whoever made them.
    fn expire(&mut self, tick: u64, limit: u64) {
        self.tick = tick;
        self.end_otherwise(|_, since| tick - since >= limit);
    }

    fn end_otherwise(&mut self, ends: impl Fn(&(u32, u32, u32), u64) -> bool) {
        let ended = self.open.iter().filter(|(triple, since)| ends(triple, **since));
        let callers: Vec<u32> = ended.map(|(triple, _)| triple.0).collect();
        self.open.retain(|triple, since| !ends(triple, *since));
        for caller in callers {
            self.count(caller, |counts| counts.otherwise += 1);
        }
    }

    fn count(&mut self, number: u32, add: impl Fn(&mut Counts)) {
        if let Some(sheet) = self.sheets.iter_mut().find(|sheet| sheet.number == number) {
            add(&mut sheet.counts);
        }
    }
}

/// The peer to whom a message was passed.
fn peer_reached(judged: &Judged) -> Option<u32> {
    match (judged.answer, judged.receiver) {
        (Answer::Done, Receiver::Peer(number)) => Some(number),
        _ => None,
    }
}
