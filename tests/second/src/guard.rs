//! The guard: its peers, the names they own, their streams and the waiting calls.

use crate::answer::{Answer, Receiver};
use crate::header::{HeadFault, Header, ERROR, METHOD_CALL, METHOD_RETURN, SIGNAL};
use crate::names::{is_well_known, unique_name_of, BUS_NAME};
use crate::policy::{Credentials, Decision, Gid, Policy, Uid};
use crate::stream::{Step, Stream};
use crate::wait::Wait;
use crate::wire::FixedPart;

pub const SLOTS: usize = 16;
pub const MAX_GIDS: usize = 16;
pub const MAX_NAMES: usize = 4;
pub const MAX_WAITS: usize = 16;

#[derive(Clone, Debug)]
pub struct Peer {
    pub number: u32,
    pub uid: Uid,
    pub gids: Vec<Gid>,
    pub names: Vec<String>,
    pub stream: Stream,
}

impl Peer {
    pub fn credentials(&self) -> Credentials<'_> {
        Credentials { uid: self.uid, gids: &self.gids }
    }
}

/// In this and the other reports `decider` is what the policy's search came to, where the
/// answer shows it.
#[derive(Clone, Copy, Debug, PartialEq, Eq)]
pub struct Connected {
    pub answer: Answer,
    pub number: u32,
    pub slot: usize,
    pub decider: Option<Decision>,
}

#[derive(Clone, Copy, Debug, PartialEq, Eq)]
pub struct Owned {
    pub answer: Answer,
    pub decider: Option<Decision>,
}

#[derive(Clone, Copy, Debug, PartialEq, Eq)]
pub struct Disconnected {
    pub answer: Answer,
    pub bytes: u64,
}

/// `ended` is how many calls wait no longer.
#[derive(Clone, Copy, Debug, PartialEq, Eq)]
pub struct Ticked {
    pub answer: Answer,
    pub ended: usize,
}

/// What a piece call says. For people, tests and the tally: why 1 to 9 came, how the message
/// began that the piece ended, and which serial it replied to.
#[derive(Clone, Copy, Debug, PartialEq, Eq)]
pub struct Judged {
    pub answer: Answer,
    pub taken: usize,
    pub receiver: Receiver,
    pub decider: Option<Decision>,
    pub fault: Option<HeadFault>,
    pub message: Option<FixedPart>,
    pub reply_serial: Option<u32>,
}

impl Judged {
    fn refused(answer: Answer, taken: usize) -> Judged {
        let (receiver, decider, fault) = (Receiver::Nobody, None, None);
        Judged { answer, taken, receiver, decider, fault, message: None, reply_serial: None }
    }
}

/// Where a destination leads.
#[derive(Clone, Copy, Debug, PartialEq, Eq)]
enum Resolved<'a> {
    Absent,
    Bus,
    Peer(&'a str),
}

/// A policy is lent to each call that needs one; `None` stands for a bad image.
pub type LentPolicy<'a> = Option<&'a Policy>;

/// A refusal leaves everything as it was, apart from the bytes taken.
struct Refusal {
    answer: Answer,
    decider: Option<Decision>,
}

/// Most refusals show no rule.
impl From<Answer> for Refusal {
    fn from(answer: Answer) -> Refusal {
        Refusal { answer, decider: None }
    }
}

fn showing(answer: Answer, decision: Decision) -> Refusal {
    Refusal { answer, decider: Some(decision) }
}

/// Who gets a message, and what the pass shows.
type Verdict = Result<(Receiver, Option<Decision>), Refusal>;

#[derive(Clone, Debug, Default)]
pub struct Guard {
    last_number: u32,
    last_tick: u64,
    slots: [Option<Peer>; SLOTS],
    waits: Vec<Wait>,
}

impl Guard {
    /// Start empties everything, the last number and the last tick too.
    pub fn start(&mut self) -> Answer {
        *self = Guard::default();
        Answer::Done
    }

    pub fn peers(&self) -> impl Iterator<Item = &Peer> {
        self.slots.iter().flatten()
    }

    pub fn peer(&self, number: u32) -> Option<&Peer> {
        self.peers().find(|peer| peer.number == number)
    }

    pub fn peer_in(&self, slot: usize) -> Option<&Peer> {
        self.slots[slot].as_ref()
    }

    pub fn waits(&self) -> &[Wait] {
        &self.waits
    }

    pub fn last_number(&self) -> u32 {
        self.last_number
    }

    pub fn last_tick(&self) -> u64 {
        self.last_tick
    }

    /// For tests of the last number only: no run could connect so many peers.
    pub fn with_last_number(last_number: u32) -> Guard {
        Guard { last_number, ..Guard::default() }
    }

    fn peer_mut(&mut self, number: u32) -> Option<&mut Peer> {
        self.slots.iter_mut().flatten().find(|peer| peer.number == number)
    }

    pub fn connect(&mut self, policy: LentPolicy, uid: Uid, gids: &[Gid]) -> Connected {
        let refused =
            |Refusal { answer, decider }: Refusal| Connected { answer, number: 0, slot: 0, decider };
        self.try_connect(policy, uid, gids).unwrap_or_else(refused)
    }

    fn try_connect(&mut self, policy: LentPolicy, uid: Uid, gids: &[Gid]) -> Result<Connected, Refusal> {
        let policy = policy.ok_or(Answer::BadImage)?;
        if gids.len() > MAX_GIDS {
            return Err(Answer::TooManyGids.into());
        }
        let decision = policy.connect(Credentials { uid, gids });
        if !decision.allows() {
            return Err(showing(Answer::ConnectDenied, decision));
        }
        let free = self.slots.iter().position(Option::is_none);
        let slot = free.ok_or(showing(Answer::SlotsFull, decision))?;
        let number = self.last_number.checked_add(1).ok_or(showing(Answer::NumbersUsedUp, decision))?;
        self.last_number = number;
        let (gids, names, stream) = (gids.to_vec(), Vec::new(), Stream::default());
        self.slots[slot] = Some(Peer { number, uid, gids, names, stream });
        Ok(Connected { answer: Answer::Done, number, slot, decider: Some(decision) })
    }

    pub fn own(&mut self, policy: LentPolicy, number: u32, name: &[u8]) -> Owned {
        let refused = |Refusal { answer, decider }: Refusal| Owned { answer, decider };
        self.try_own(policy, number, name).unwrap_or_else(refused)
    }

    fn try_own(&mut self, policy: LentPolicy, number: u32, name: &[u8]) -> Result<Owned, Refusal> {
        let policy = policy.ok_or(Answer::BadImage)?;
        let peer = self.peer(number).ok_or(Answer::NoSuchPeer)?;
        let name = ownable(name).ok_or(Answer::NotAName)?;
        let decision = policy.own(peer.credentials(), &name);
        let granted = Owned { answer: Answer::Done, decider: Some(decision) };
        if !decision.allows() {
            return Err(showing(Answer::OwnDenied, decision));
        }
        match self.owner_of(&name) {
            Some(owner) if owner.number == number => return Ok(granted),
            Some(_) => return Err(showing(Answer::OwnedByAnother, decision)),
            None => {}
        }
        if peer.names.len() == MAX_NAMES {
            return Err(showing(Answer::TooManyNames, decision));
        }
        self.peer_mut(number).ok_or(Answer::NoSuchPeer)?.names.push(name);
        Ok(granted)
    }

    pub fn release(&mut self, number: u32, name: &[u8]) -> Answer {
        self.try_release(number, name).err().unwrap_or(Answer::Done)
    }

    fn try_release(&mut self, number: u32, name: &[u8]) -> Result<(), Answer> {
        let peer = self.peer_mut(number).ok_or(Answer::NoSuchPeer)?;
        let name = ownable(name).ok_or(Answer::NotAName)?;
        let place = peer.names.iter().position(|own| *own == name).ok_or(Answer::NotItsName)?;
        peer.names.remove(place);
        Ok(())
    }

    /// Names go with their peer; waits go where it is caller or callee.
    pub fn disconnect(&mut self, number: u32) -> Disconnected {
        let holds_it = |slot: &Option<Peer>| slot.as_ref().is_some_and(|peer| peer.number == number);
        let Some(slot) = self.slots.iter().position(holds_it) else {
            return Disconnected { answer: Answer::NoSuchPeer, bytes: 0 };
        };
        let bytes = self.slots[slot].take().map_or(0, |peer| peer.stream.count());
        self.waits.retain(|wait| wait.caller != number && wait.callee != number);
        Disconnected { answer: Answer::Done, bytes }
    }

    /// Sets the tick, then ends what has waited for at least `limit` ticks. No policy is asked.
    pub fn tick(&mut self, tick: u64, limit: u64) -> Ticked {
        if tick < self.last_tick {
            return Ticked { answer: Answer::TickTooLow, ended: 0 };
        }
        self.last_tick = tick;
        let before = self.waits.len();
        self.waits.retain(|wait| wait.age(tick) < limit);
        Ticked { answer: Answer::Done, ended: before - self.waits.len() }
    }

    /// Takes bytes up to the first that breaks a head or ends a message, or all.
    pub fn piece(&mut self, policy: LentPolicy, number: u32, bytes: &[u8]) -> Judged {
        let Some(policy) = policy else {
            return Judged::refused(Answer::BadImage, 0);
        };
        let Some(peer) = self.peer_mut(number) else {
            return Judged::refused(Answer::NoSuchPeer, 0);
        };
        if peer.stream.is_closed() {
            return Judged::refused(Answer::StreamClosed, 0);
        }
        for (index, &byte) in bytes.iter().enumerate() {
            let taken = index + 1;
            match peer.stream.take(byte) {
                Step::Continues => {}
                Step::Broke(fault) => {
                    return Judged { fault: Some(fault), ..Judged::refused(fault.answer(), taken) };
                }
                Step::Ended(header) => return self.judged(policy, number, &header, taken),
            }
        }
        Judged::refused(Answer::Unfinished, bytes.len())
    }

    fn judged(&mut self, policy: &Policy, sender: u32, message: &Header, taken: usize) -> Judged {
        let (answer, receiver, decider) = match self.judge(policy, sender, message) {
            Ok((receiver, decider)) => (Answer::Done, receiver, decider),
            Err(Refusal { answer, decider }) => (answer, Receiver::Nobody, decider),
        };
        let reply_serial = message.reply_serial;
        Judged { answer, taken, receiver, decider, fault: None, message: Some(message.fixed), reply_serial }
    }

    /// Judges a whole message by the peers, names and waits of this moment.
    fn judge(&mut self, policy: &Policy, sender: u32, message: &Header) -> Verdict {
        let destination = match message.destination.as_deref() {
            None => Resolved::Absent,
            Some(BUS_NAME) => Resolved::Bus,
            Some(name) => Resolved::Peer(name),
        };
        match (message.fixed.message_type, destination) {
            (METHOD_CALL, Resolved::Absent | Resolved::Bus) => self.judge_to_bus(policy, sender, message),
            (METHOD_CALL, Resolved::Peer(name)) => self.judge_call(policy, sender, name, message),
            (METHOD_RETURN | ERROR, Resolved::Peer(name)) => self.judge_reply(sender, name, message),
            (METHOD_RETURN | ERROR, _) => Err(Answer::ReplyNotAwaited.into()),
            (SIGNAL, Resolved::Absent) => self.judge_broadcast(policy, sender, message),
            (SIGNAL, Resolved::Bus) => self.judge_to_bus(policy, sender, message),
            (SIGNAL, Resolved::Peer(name)) => self.judge_signal(policy, sender, name, message),
            _ => Err(Answer::UnknownType.into()),
        }
    }

    fn judge_to_bus(&self, policy: &Policy, sender: u32, message: &Header) -> Verdict {
        let sender = self.peer(sender).ok_or(Answer::NoSuchPeer)?;
        let send = policy.send(sender.credentials(), &[BUS_NAME.to_string()], message);
        match send.allows() {
            true => Ok((Receiver::Bus, Some(send))),
            false => Err(showing(Answer::SendDenied, send)),
        }
    }

    /// A call or signal to one peer: 21, 22, 23, or the receiver's number with what let it in.
    fn judge_directed(
        &self,
        policy: &Policy,
        from: u32,
        to: &str,
        message: &Header,
    ) -> Result<(u32, Decision), Refusal> {
        let sender = self.peer(from).ok_or(Answer::NoSuchPeer)?;
        let receiver = self.resolve(to).ok_or(Answer::DestinationIsNobody)?;
        let send = policy.send(sender.credentials(), &receiver.names, message);
        if !send.allows() {
            return Err(showing(Answer::SendDenied, send));
        }
        let receive = policy.receive(receiver.credentials(), &sender.names, message);
        if !receive.allows() {
            return Err(showing(Answer::ReceiveDenied, receive));
        }
        Ok((receiver.number, receive))
    }

    fn judge_signal(&self, policy: &Policy, sender: u32, to: &str, message: &Header) -> Verdict {
        let (number, receive) = self.judge_directed(policy, sender, to, message)?;
        Ok((Receiver::Peer(number), Some(receive)))
    }

    fn judge_call(&mut self, policy: &Policy, caller: u32, to: &str, message: &Header) -> Verdict {
        let (callee, receive) = self.judge_directed(policy, caller, to, message)?;
        if message.fixed.expects_reply() {
            let wait = Wait { caller, callee, serial: message.fixed.serial, tick: self.last_tick };
            if self.waits.iter().any(|other| other.triple() == wait.triple()) {
                return Err(showing(Answer::AlreadyWaits, receive));
            }
            if self.waits.iter().filter(|other| other.caller == caller).count() == MAX_WAITS {
                return Err(showing(Answer::TooManyWaits, receive));
            }
            self.waits.push(wait);
        }
        Ok((Receiver::Peer(callee), Some(receive)))
    }

    /// A reply passes exactly when it is awaited, whatever the policy, and ends the wait. No
    /// rule was asked, so none is shown.
    fn judge_reply(&mut self, callee: u32, to: &str, message: &Header) -> Verdict {
        let caller = self.resolve(to).ok_or(Answer::ReplyNotAwaited)?.number;
        let serial = message.reply_serial.ok_or(Answer::ReplyNotAwaited)?;
        let place = self.waits.iter().position(|wait| wait.triple() == (caller, callee, serial));
        self.waits.remove(place.ok_or(Answer::ReplyNotAwaited)?);
        Ok((Receiver::Peer(caller), None))
    }

    /// A broadcast reaches every peer for whom send and receive both allow. Each of them may
    /// have other rules, so none is shown.
    fn judge_broadcast(&self, policy: &Policy, sender: u32, message: &Header) -> Verdict {
        let sender = self.peer(sender).ok_or(Answer::NoSuchPeer)?;
        let mut mask = 0_u16;
        for (slot, peer) in self.slots.iter().enumerate() {
            if let Some(peer) = peer {
                if policy.send(sender.credentials(), &peer.names, message).allows()
                    && policy.receive(peer.credentials(), &sender.names, message).allows()
                {
                    mask |= 1 << slot;
                }
            }
        }
        Ok((Receiver::Slots(mask), None))
    }

    fn owner_of(&self, name: &str) -> Option<&Peer> {
        self.peers().find(|peer| peer.names.iter().any(|own| own == name))
    }

    /// A unique name leads to a peer only as the exact text that the peer was given.
    pub fn resolve(&self, destination: &str) -> Option<&Peer> {
        match destination.starts_with(':') {
            true => self.peers().find(|peer| unique_name_of(peer.number) == destination),
            false => self.owner_of(destination),
        }
    }
}

/// A name that a peer may ask for: well-known, and not the bus's own.
fn ownable(name: &[u8]) -> Option<String> {
    match is_well_known(name) && name != BUS_NAME.as_bytes() {
        true => Some(String::from_utf8_lossy(name).into_owned()),
        false => None,
    }
}
