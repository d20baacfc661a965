//! One call with all that is told of it.

use super::{agree, why, Teller};
use crate::book::{Destination, Peer, Pending};
use crate::guard::{Place, BY_RULE, NO_RULE, TO_BUS, TO_PEER, TO_SLOTS};
use crate::head::{Head, Outcome, Reading};
use crate::rules::Named;
use crate::slid::{self, Neighbour};
use forms::capture::Call;
use forms::policy::Section;

/// A message as far as a piece brought it.
#[derive(Clone, Debug)]
pub struct Message {
    /// What was taken of it, as far as a head can reach.
    pub bytes: Vec<u8>,
    pub taken: u64,
    pub reading: Reading,
    /// Of a broken message all that is known of the stream from its first byte on.
    pub known: Vec<u8>,
}

impl Message {
    pub fn head(&self) -> Option<&Head> {
        match &self.reading.outcome {
            Outcome::Good(head) => Some(head),
            _ => None,
        }
    }

    pub fn neighbour(&self) -> Option<Neighbour> {
        slid::neighbour(&self.known)
    }
}

/// Who decided, in words.
#[derive(Clone, Debug, PartialEq, Eq)]
pub enum Decided {
    NotShown,
    Rule(Named),
    /// A rule that the policy as the tool reads it does not have.
    Unknown(Section, u32),
    NoRule(Section),
}

/// Whom a message that passed goes to, by the peers' numbers.
#[derive(Clone, Debug, PartialEq, Eq)]
pub enum Receiver {
    Nobody,
    Bus,
    Peer(u32),
    Peers(Vec<u32>),
}

pub struct Story<'a> {
    /// Calls are counted from 1, as the lines of replay.
    pub number: usize,
    pub call: &'a Call,
    pub place: Place,
    /// The peer as it was before the call; the new one of a connect.
    pub peer: Option<Peer>,
    pub message: Option<Message>,
    pub destination: Option<(String, Destination)>,
    pub receiver: Receiver,
    pub decided: Decided,
    /// The waits that a tick ended, as the host knows them.
    pub expired: Vec<Pending>,
    /// Sentences that say why, each a line.
    pub why: Vec<String>,
    /// What the tool read otherwise than the guard.
    pub disagreement: Option<String>,
}

impl<'a> Story<'a> {
    pub fn of(teller: &Teller, call: &'a Call, place: Place, message: Option<Message>) -> Story<'a> {
        let section = match call {
            Call::Connect { .. } => Section::Connect,
            Call::Own { .. } => Section::Own,
            _ => Section::Transaction,
        };
        let head = message.as_ref().and_then(Message::head);
        let destination = head.and_then(|head| head.destination.clone()).map(|name| {
            let means = teller.book.resolve(&name);
            (name, means)
        });
        let mut story = Story {
            number: teller.made,
            call,
            place,
            peer: call.peer().and_then(|number| teller.book.peer(number)).cloned(),
            destination,
            receiver: receiver(teller, &place, call),
            decided: decided(teller, section, &place),
            expired: expired(teller, &place, call),
            message,
            why: Vec::new(),
            disagreement: None,
        };
        story.why = why::sentences(teller, &story);
        story.disagreement = agree::difference(teller, &story);
        story
    }

    pub fn head(&self) -> Option<&Head> {
        self.message.as_ref().and_then(Message::head)
    }

    /// The number of the peer that the call is about; 0 is nobody's.
    pub fn sender(&self) -> u32 {
        self.call.peer().unwrap_or(0)
    }

    /// Whether somebody did not get what was asked for: everything but done and unfinished.
    pub fn is_refused(&self) -> bool {
        !matches!(self.place.answer, 0 | 10)
    }

    /// Whether the call is one of a peer, reaches it, or ends a wait that it is part of.
    pub fn is_about(&self, number: u32) -> bool {
        let is_new =
            matches!(self.call, Call::Connect { .. }) && self.place.answer == 0 && self.place.value == number;
        let is_meant = matches!(self.destination, Some((_, Destination::Peer(peer))) if peer == number);
        let is_reached = match &self.receiver {
            Receiver::Peer(peer) => *peer == number,
            Receiver::Peers(peers) => peers.contains(&number),
            Receiver::Nobody | Receiver::Bus => false,
        };
        let is_part = |pending: &Pending| pending.wait.caller == number || pending.wait.callee == number;
        let has_ended = self.expired.iter().any(is_part);
        self.call.peer() == Some(number) || is_new || is_meant || is_reached || has_ended
    }
}

fn expired(teller: &Teller, place: &Place, call: &Call) -> Vec<Pending> {
    match (call, place.answer) {
        (Call::Tick { tick, limit }, 0) => teller.book.expiring(*tick, *limit),
        _ => Vec::new(),
    }
}

fn receiver(teller: &Teller, place: &Place, call: &Call) -> Receiver {
    if !matches!(call, Call::Piece { .. }) {
        return Receiver::Nobody;
    }
    match place.kind {
        TO_BUS => Receiver::Bus,
        TO_PEER => Receiver::Peer(place.value),
        TO_SLOTS => {
            let set = |slot: &u32| place.value >> slot & 1 == 1;
            // A slot that is set is a connected peer's; should the book not have it, its place is kept as number 0.
            let number = |slot| teller.book.in_slot(slot).map_or(0, |peer| peer.number);
            Receiver::Peers((0..16).filter(set).map(number).collect())
        }
        _ => Receiver::Nobody,
    }
}

fn decided(teller: &Teller, section: Section, place: &Place) -> Decided {
    match place.decider {
        BY_RULE => match teller.rules.named(section, place.position as usize) {
            Some(named) => Decided::Rule(named),
            None => Decided::Unknown(section, place.position),
        },
        NO_RULE => Decided::NoRule(section),
        _ => Decided::NotShown,
    }
}
