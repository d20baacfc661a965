//! What a host knows of its peers from the calls that it made and the answers that it got: who is connected, who owns which
//! name, which calls await a reply, and since which tick. It is for words alone; the guard keeps its own.

use crate::head::Head;
use forms::message::{METHOD_CALL, METHOD_RETURN, SIGNAL};
use forms::policy::{Gid, Uid};
use std::collections::HashMap;

pub const BUS_NAME: &str = "org.freedesktop.DBus";

/// Bit 0 of the flags: the caller expects no reply.
const NO_REPLY_EXPECTED: u8 = 1;

/// As much of a message as a head can have; what comes behind it is counted only.
pub const HEAD_ROOM: usize = 2_048;

/// The message that a peer's stream is in.
#[derive(Clone, Debug, Default)]
pub struct Stream {
    /// The first bytes of the message, as many as a head can have.
    pub bytes: Vec<u8>,
    pub taken: u64,
    /// The call that closed the stream, and its answer.
    pub closed: Option<(usize, u32)>,
}

impl Stream {
    pub fn take(&mut self, bytes: &[u8]) {
        let room = HEAD_ROOM.saturating_sub(self.bytes.len());
        self.bytes.extend(&bytes[..bytes.len().min(room)]);
        self.taken += bytes.len() as u64;
    }

    /// The next byte begins a message.
    pub fn begin(&mut self) {
        self.bytes.clear();
        self.taken = 0;
    }
}

#[derive(Clone, Debug)]
pub struct Peer {
    pub number: u32,
    pub slot: u32,
    pub uid: Uid,
    pub gids: Vec<Gid>,
    pub names: Vec<String>,
    pub stream: Stream,
}

/// A call that awaits its reply, by the numbers of the peers.
#[derive(Clone, Copy, Debug, PartialEq, Eq, Hash)]
pub struct Wait {
    pub caller: u32,
    pub callee: u32,
    pub serial: u32,
}

/// A wait that has not ended: the call in which it began, and the last tick then.
#[derive(Clone, Copy, Debug, PartialEq, Eq)]
pub struct Pending {
    pub wait: Wait,
    pub call: usize,
    pub tick: u64,
}

impl Pending {
    /// How many ticks old it is at a tick, which is no earlier one.
    pub fn age(&self, now: u64) -> u64 {
        now.saturating_sub(self.tick)
    }
}

/// How a wait ended, and in which call.
#[derive(Clone, Copy, Debug, PartialEq, Eq)]
pub enum Ending {
    Replied(usize),
    CalleeLeft(usize),
    CallerLeft(usize),
    Expired(Expiry),
}

/// A wait's end by its age: in which call and at which tick, the call in which it had begun, and how old it was.
#[derive(Clone, Copy, Debug, PartialEq, Eq)]
pub struct Expiry {
    pub call: usize,
    pub tick: u64,
    pub began: usize,
    pub age: u64,
}

impl Ending {
    fn call(self) -> usize {
        match self {
            Ending::Replied(call) | Ending::CalleeLeft(call) | Ending::CallerLeft(call) => call,
            Ending::Expired(expiry) => expiry.call,
        }
    }
}

/// Whom a destination means.
#[derive(Clone, Copy, Debug, PartialEq, Eq)]
pub enum Destination {
    Bus,
    Peer(u32),
    Nobody,
}

#[derive(Clone, Debug, Default)]
pub struct Book {
    pub peers: Vec<Peer>,
    pub waits: Vec<Pending>,
    /// The last tick, and the call that set it first; none where it is still the 0 of an empty guard.
    pub tick: u64,
    pub tick_since: Option<usize>,
    /// How the last wait of these three numbers ended.
    ended: HashMap<Wait, Ending>,
    /// Who had a name last, and until which call.
    former: HashMap<String, (u32, usize)>,
    /// In which call a peer left.
    gone: HashMap<u32, usize>,
}

impl Book {
    pub fn peer(&self, number: u32) -> Option<&Peer> {
        self.peers.iter().find(|peer| peer.number == number)
    }

    pub fn peer_mut(&mut self, number: u32) -> Option<&mut Peer> {
        self.peers.iter_mut().find(|peer| peer.number == number)
    }

    pub fn in_slot(&self, slot: u32) -> Option<&Peer> {
        self.peers.iter().find(|peer| peer.slot == slot)
    }

    pub fn owner(&self, name: &str) -> Option<&Peer> {
        self.peers.iter().find(|peer| peer.names.iter().any(|owned| owned == name))
    }

    /// Whom a name means now, by the very text of unique names.
    pub fn resolve(&self, name: &str) -> Destination {
        let by_number = || self.peers.iter().find(|peer| format!(":1.{}", peer.number) == name);
        match self.owner(name).or_else(by_number) {
            _ if name == BUS_NAME => Destination::Bus,
            Some(peer) => Destination::Peer(peer.number),
            None => Destination::Nobody,
        }
    }

    pub fn left_in(&self, peer: u32) -> Option<usize> {
        self.gone.get(&peer).copied()
    }

    pub fn former_owner(&self, name: &str) -> Option<(u32, usize)> {
        self.former.get(name).copied()
    }

    pub fn ending(&self, wait: &Wait) -> Option<Ending> {
        self.ended.get(wait).copied()
    }

    /// Another peer whose reply to that serial the caller has awaited, the last one.
    pub fn other_callee(&self, wait: &Wait) -> Option<(u32, Ending)> {
        let is_other =
            |(other, _): &(&Wait, &Ending)| other.caller == wait.caller && other.serial == wait.serial;
        let last = self.ended.iter().filter(is_other).max_by_key(|(_, ending)| ending.call());
        last.map(|(other, ending)| (other.callee, *ending))
    }

    pub fn pending(&self, wait: &Wait) -> Option<&Pending> {
        self.waits.iter().find(|pending| pending.wait == *wait)
    }

    pub fn waits_of(&self, caller: u32) -> impl Iterator<Item = &Pending> {
        self.waits.iter().filter(move |pending| pending.wait.caller == caller)
    }

    /// The waits that a tick ends which is not refused.
    pub fn expiring(&self, tick: u64, limit: u64) -> Vec<Pending> {
        self.waits.iter().filter(|pending| pending.age(tick) >= limit).copied().collect()
    }

    pub fn connect(&mut self, number: u32, slot: u32, uid: Uid, gids: &[Gid]) {
        let (names, stream) = (Vec::new(), Stream::default());
        self.peers.push(Peer { number, slot, uid, gids: gids.to_vec(), names, stream });
        self.peers.sort_by_key(|peer| peer.slot);
    }

    pub fn own(&mut self, number: u32, name: &str) {
        if let Some(peer) = self.peer_mut(number) {
            if !peer.names.iter().any(|owned| owned == name) {
                peer.names.push(name.to_string());
            }
        }
    }

    pub fn release(&mut self, number: u32, name: &str, call: usize) {
        if let Some(peer) = self.peer_mut(number) {
            peer.names.retain(|owned| owned != name);
        }
        self.former.insert(name.to_string(), (number, call));
    }

    /// A peer goes, with its names and with every wait that it is part of.
    pub fn disconnect(&mut self, number: u32, call: usize) {
        let names = self.peer(number).map(|peer| peer.names.clone()).unwrap_or_default();
        for name in names {
            self.former.insert(name, (number, call));
        }
        self.peers.retain(|peer| peer.number != number);
        self.gone.insert(number, call);
        let (over, left): (Vec<Pending>, Vec<Pending>) = self
            .waits
            .drain(..)
            .partition(|pending| pending.wait.caller == number || pending.wait.callee == number);
        self.waits = left;
        for Pending { wait, .. } in over {
            let ending =
                if wait.caller == number { Ending::CallerLeft(call) } else { Ending::CalleeLeft(call) };
            self.ended.insert(wait, ending);
        }
    }

    /// The host's clock has gone on, and waits that are old enough have ended.
    pub fn tick(&mut self, tick: u64, limit: u64, call: usize) {
        if tick != self.tick {
            self.tick_since = Some(call);
        }
        self.tick = tick;
        for over in self.expiring(tick, limit) {
            let expiry = Expiry { call, tick, began: over.call, age: over.age(tick) };
            self.ended.insert(over.wait, Ending::Expired(expiry));
        }
        self.waits.retain(|pending| pending.age(tick) < limit);
    }

    /// A message has passed to one peer: a call may begin a wait, a reply ends one.
    pub fn passed(&mut self, sender: u32, receiver: u32, head: &Head, call: usize) {
        if head.message_type == METHOD_CALL && head.flags & NO_REPLY_EXPECTED == 0 {
            let wait = Wait { caller: sender, callee: receiver, serial: head.serial };
            self.waits.push(Pending { wait, call, tick: self.tick });
        } else if let (true, Some(serial)) = (is_reply(head), head.reply_serial) {
            let wait = Wait { caller: receiver, callee: sender, serial };
            self.waits.retain(|pending| pending.wait != wait);
            self.ended.insert(wait, Ending::Replied(call));
        }
    }
}

pub fn is_reply(head: &Head) -> bool {
    (METHOD_RETURN..SIGNAL).contains(&head.message_type)
}

/// Whether a call that passes to a peer awaits its reply.
pub fn awaits(head: &Head) -> bool {
    head.message_type == METHOD_CALL && head.flags & NO_REPLY_EXPECTED == 0
}
