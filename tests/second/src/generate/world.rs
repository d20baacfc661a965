//! The peers of a generated capture: what they do next, and what they still have to send.

use super::random::Random;
use super::{deciders, faults, interfaces, messages, talks, ticks, vocabulary};
use crate::answer::ends_an_offer;
use crate::batch;
use crate::capture::Call;
use crate::guard::Guard;
use crate::message::Message;
use crate::names::unique_name_of;
use crate::policy::{Gid, Policy, Uid};
use crate::replay::{run, Outcome};
use std::collections::BTreeMap;

/// Beyond this many missing bytes a peer would swallow the rest of the capture.
const ENDLESS: u64 = 2_000;

/// How a stretch of the capture behaves; it changes now and then.
#[derive(Clone, Copy)]
struct Phase {
    peers: usize,
    cut: Cut,
    faults: usize,
}

#[derive(Clone, Copy)]
enum Cut {
    Whole,
    EachByte,
    Anywhere,
    Borders,
}

pub struct World {
    pub random: Random,
    pub guard: Guard,
    pub policy: Option<Policy>,
    /// Bytes that a peer has not yet offered.
    unsent: BTreeMap<u32, Vec<u8>>,
    phase: Phase,
    pub calls: Vec<Call>,
    beside: usize,
}

impl World {
    pub fn new(mut random: Random, policy: Option<Policy>) -> World {
        let phase = new_phase(&mut random);
        let (guard, unsent) = (Guard::default(), BTreeMap::new());
        World { random, guard, policy, unsent, phase, calls: Vec::new(), beside: 0 }
    }

    /// How many calls there are, without those beside.
    pub fn length(&self) -> usize {
        self.calls.len() - self.beside
    }

    /// Calls about time come beside the number that a capture is to have, as all ticks do, so
    /// that they take nothing from the others.
    pub fn beside(&mut self, make: impl FnOnce(&mut World)) {
        let (length, beside) = (self.calls.len(), self.beside);
        make(self);
        self.beside = beside + self.calls.len() - length;
    }

    /// Makes a call on the generator's own guard, so that the next steps can aim well.
    pub fn call(&mut self, call: Call) -> Outcome {
        let outcome = run(&mut self.guard, self.policy.as_ref(), &call);
        self.beside += usize::from(matches!(call, Call::Tick { .. }));
        self.calls.push(call);
        outcome
    }

    /// One step of the world: calls that are made at once, or a peer to send something.
    pub fn step(&mut self) -> Option<u32> {
        if self.random.chance(1) {
            self.phase = new_phase(&mut self.random);
        }
        let peers = self.guard.peers().count();
        let connect = if peers < self.phase.peers { 20 } else { 2 };
        let disconnect = if peers > self.phase.peers { 8 } else { 1 };
        match self.random.below(1000) {
            0 => self.start(),
            1..=15 => self.call_for_a_stranger(),
            16..=75 => self.own_or_release(),
            76..=77 => self.own_too_much(),
            78..=81 => talks::talk(self),
            82..=93 => self.own_what_rules_name(),
            94..=113 => self.beside(ticks::step),
            _ if peers == 0 && self.random.chance(10) => ticks::tick(self),
            _ if peers == 0 && self.random.chance(30) => self.call_for_a_stranger(),
            _ if peers == 0 || self.random.chance(connect) => self.connect(),
            _ if self.random.chance(disconnect) => self.disconnect_someone(),
            _ => return self.choose_sender(),
        }
        None
    }

    pub fn start(&mut self) {
        self.unsent.clear();
        self.call(Call::Start);
        if self.random.chance(25) {
            ticks::tick(self);
        }
    }

    /// True for a peer that can begin a message.
    pub fn is_ready(&self, peer: u32) -> bool {
        self.guard.peer(peer).is_some_and(|peer| peer.stream.count() == 0 && !peer.stream.is_closed())
    }

    pub fn connect(&mut self) {
        let count = match self.random.below(20) {
            0 => 16,
            1 => 17,
            2 => self.random.between(18, 30),
            _ => self.random.below(4),
        };
        let gids = (0..count).map(|_| Gid(vocabulary::id(&mut self.random))).collect();
        let uid = Uid(vocabulary::id(&mut self.random));
        self.call(Call::Connect { uid, gids });
    }

    pub fn disconnect(&mut self, peer: u32) {
        self.unsent.remove(&peer);
        self.call(Call::Disconnect { peer });
    }

    fn disconnect_someone(&mut self) {
        let peer = self.any_peer();
        self.disconnect(peer);
    }

    /// A connected peer, the oldest more often, so that a few of them meet a lot.
    fn any_peer(&mut self) -> u32 {
        let peers: Vec<u32> = self.guard.peers().map(|peer| peer.number).collect();
        match peers.len() {
            0 => 1,
            length if self.random.chance(50) => peers[self.random.below(length.min(3))],
            length => peers[self.random.below(length)],
        }
    }

    fn call_for_a_stranger(&mut self) {
        let given = self.guard.last_number();
        let peer = self.random.pick(&[0, given.wrapping_add(1), u32::MAX, given.saturating_sub(17)]);
        let name = vocabulary::name(&mut self.random).into_bytes();
        let call = match self.random.below(4) {
            0 => Call::Own { peer, name },
            1 => Call::Release { peer, name },
            2 => Call::Piece { peer, bytes: self.random.bytes(3) },
            _ => Call::Disconnect { peer },
        };
        self.call(call);
    }

    fn own_or_release(&mut self) {
        let peer = self.any_peer();
        let held: Vec<String> = self.guard.peer(peer).map(|peer| peer.names.clone()).unwrap_or_default();
        let owns = self.random.chance(70);
        let held_again = if owns { 2 } else { 6 };
        let name = match self.random.below(10) {
            0 => vocabulary::not_well_known(&mut self.random),
            choice if choice <= held_again && !held.is_empty() => self.random.pick(&held).into_bytes(),
            _ => vocabulary::name(&mut self.random).into_bytes(),
        };
        let call = match owns {
            true => Call::Own { peer, name },
            false => Call::Release { peer, name },
        };
        self.call(call);
    }

    /// One name more than a peer may hold, none of which is likely to be taken.
    fn own_too_much(&mut self) {
        let peer = self.any_peer();
        for index in 0..5 {
            self.call(Call::Own { peer, name: format!("org.foo.p{peer}.n{index}").into_bytes() });
        }
    }

    /// Several names for one peer: one of its own, then names that transaction rules are about.
    fn own_what_rules_name(&mut self) {
        let peer = self.any_peer();
        let rules = self.policy.iter().flat_map(|policy| &policy.transaction);
        let mut names: Vec<String> = rules.filter_map(|rule| rule.name.clone()).collect();
        names.push(vocabulary::name(&mut self.random));
        self.call(Call::Own { peer, name: format!("org.foo.p{peer}").into_bytes() });
        for _ in 0..2 {
            let name = self.random.pick(&names).into_bytes();
            self.call(Call::Own { peer, name });
        }
    }

    /// A peer that may go on sending. Broken and endless streams end soon.
    fn choose_sender(&mut self) -> Option<u32> {
        let peer = self.any_peer();
        let stream = &self.guard.peer(peer)?.stream;
        let is_stuck = stream.is_closed() || stream.wanted().is_some_and(|wanted| wanted > ENDLESS);
        if is_stuck && self.random.chance(60) {
            self.disconnect(peer);
            return None;
        }
        Some(peer)
    }

    /// Bytes that the peer offers when its turn comes.
    pub fn send_later(&mut self, peer: u32, bytes: Vec<u8>) {
        self.unsent.insert(peer, bytes);
    }

    /// Bytes that the peer has begun and not yet offered.
    pub fn take_unsent(&mut self, peer: u32) -> Vec<u8> {
        self.unsent.remove(&peer).unwrap_or_default()
    }

    /// Offers bytes to the generator's own guard alone; false where an answer ended the offer.
    pub fn try_out(&mut self, peer: u32, bytes: &[u8]) -> bool {
        let offered = batch::offer(&mut self.guard, self.policy.as_ref(), peer, bytes, 64);
        offered.last().and_then(|last| last.places.last()).is_some_and(|last| !ends_an_offer(last[0]))
    }

    /// Offers the next bytes of a peer in one call.
    pub fn send_piece(&mut self, peer: u32) {
        if self.random.chance(2) {
            self.call(Call::Piece { peer, bytes: Vec::new() });
            return;
        }
        if self.random.chance(2) {
            // Something else than what the peer began comes next.
            self.unsent.remove(&peer);
        }
        let mut unsent = self.unsent.remove(&peer).unwrap_or_default();
        if unsent.is_empty() {
            unsent = self.new_bytes(peer);
        }
        let length = self.cut_length(peer, unsent.len());
        let outcome = self.call(Call::Piece { peer, bytes: unsent[..length].to_vec() });
        let Outcome::Piece(judged) = outcome else { return };
        if !judged.answer.ends_an_offer() {
            unsent.drain(..judged.taken);
            self.unsent.insert(peer, unsent);
        }
    }

    /// How much of the unsent bytes goes into the next piece.
    fn cut_length(&mut self, peer: u32, unsent: usize) -> usize {
        let to_the_end = self.guard.peer(peer).and_then(|peer| peer.stream.wanted()).unwrap_or(16) as usize;
        let length = match self.phase.cut {
            Cut::Whole => unsent,
            Cut::EachByte => 1,
            Cut::Anywhere => self.random.between(1, unsent),
            Cut::Borders => (to_the_end + self.random.below(3)).saturating_sub(1).max(1),
        };
        length.min(unsent)
    }

    /// One message or several, good or broken, or plain noise.
    pub fn new_bytes(&mut self, peer: u32) -> Vec<u8> {
        match self.random.below(100) {
            0 => {
                let length = self.random.between(1, 40);
                self.random.bytes(length)
            }
            1 => self.burst_of_calls(),
            2..=12 => {
                let count = self.random.between(2, 5);
                (0..count).flat_map(|_| self.one_message(peer)).collect()
            }
            _ => self.one_message(peer),
        }
    }

    fn one_message(&mut self, peer: u32) -> Vec<u8> {
        if self.random.chance(2) {
            return messages::at_limit(&mut self.random).bytes();
        }
        let message = self.good_message(peer);
        if self.random.chance(self.phase.faults) {
            return faults::broken(&mut self.random, &message);
        }
        // There are many ways to break an unknown field, and each is to come often.
        match self.random.chance(self.phase.faults * 3 / 2) {
            true => faults::with_unknown_field(&mut self.random, &message).bytes(),
            false => message.bytes(),
        }
    }

    pub fn good_message(&mut self, peer: u32) -> Message {
        let aim = self.random.below(100);
        let aimed = match (&self.policy, aim) {
            (Some(policy), 0..=19) => interfaces::message(&mut self.random, &self.guard, policy),
            (Some(policy), 20..=34) => deciders::message(&mut self.random, &self.guard, policy, peer),
            _ => None,
        };
        let message = aimed.unwrap_or_else(|| messages::good(&mut self.random, &self.guard, peer));
        messages::dress(&mut self.random, message)
    }

    /// More calls to one peer than may wait for a reply.
    fn burst_of_calls(&mut self) -> Vec<u8> {
        let to = unique_name_of(self.any_peer());
        let first = self.random.pick(&[1_u32, 3, 50, u32::MAX - 17]);
        let count = self.random.between(15, 18) as u32;
        (0..count).flat_map(|more| Message::call(first + more, "/", "M").to(&to).bytes()).collect()
    }
}

fn new_phase(random: &mut Random) -> Phase {
    let cut = match random.below(20) {
        0..=8 => Cut::Whole,
        9 => Cut::EachByte,
        10..=14 => Cut::Anywhere,
        _ => Cut::Borders,
    };
    Phase { peers: random.pick(&[1, 2, 3, 3, 5, 8, 16, 16]), cut, faults: random.pick(&[0, 2, 10, 25]) }
}
