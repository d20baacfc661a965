//! The same streams twice: once offered in whole pieces, once cut at other places.

use super::random::Random;
use super::world::World;
use crate::capture::Call;
use crate::guard::Guard;
use crate::policy::Policy;
use crate::replay::{run, Outcome};

/// The calls of both captures.
pub struct Pair {
    pub whole: Vec<Call>,
    pub split: Vec<Call>,
}

/// `steps` calls and offers, told twice.
pub fn generate(random: Random, policy: &Policy, steps: usize) -> Pair {
    let mut cuts = random.clone();
    let mut world = World::new(random, Some(policy.clone()));
    let mut other = Telling { guard: Guard::default(), policy, calls: Vec::new() };
    let mut whole = Telling { guard: Guard::default(), policy, calls: Vec::new() };
    for _ in 0..steps {
        let before = world.calls.len();
        let sender = world.step();
        for call in &world.calls[before..] {
            whole.make(call.clone());
            other.make(call.clone());
        }
        if let Some(peer) = sender {
            let mut bytes = world.new_bytes(peer);
            if world.random.chance(15) {
                let most = world.random.between(0, bytes.len());
                bytes.truncate(most);
            }
            whole.offer(peer, &bytes);
            other.offer_in_parts(&mut cuts, peer, &bytes);
            world.guard = whole.guard.clone();
        }
    }
    Pair { whole: whole.calls, split: other.calls }
}

/// One of the two ways in which the same streams are told.
struct Telling<'a> {
    guard: Guard,
    policy: &'a Policy,
    calls: Vec<Call>,
}

impl Telling<'_> {
    fn make(&mut self, call: Call) -> Outcome {
        let outcome = run(&mut self.guard, Some(self.policy), &call);
        self.calls.push(call);
        outcome
    }

    /// Calls with the piece, then at once with what is left. False when the offer was
    /// ended by an answer rather than by the last byte.
    fn offer(&mut self, peer: u32, bytes: &[u8]) -> bool {
        let mut left = bytes;
        loop {
            let Outcome::Piece(judged) = self.make(Call::Piece { peer, bytes: left.to_vec() }) else {
                return false;
            };
            if judged.answer.ends_an_offer() {
                return false;
            }
            left = &left[judged.taken..];
            if left.is_empty() {
                return true;
            }
        }
    }

    /// Offers the same bytes in parts; some of them are empty.
    fn offer_in_parts(&mut self, cuts: &mut Random, peer: u32, bytes: &[u8]) {
        let longest = match cuts.below(8) {
            0 if bytes.len() <= 300 => 1,
            1..=3 => 20,
            _ => bytes.len().max(1),
        };
        let mut left = bytes;
        while !left.is_empty() {
            let (part, rest) = left.split_at(cuts.between(1, longest.min(left.len())));
            if cuts.chance(5) {
                self.offer(peer, &[]);
            }
            // Behind a broken head it makes no difference whether the rest is offered.
            if !self.offer(peer, part) && cuts.chance(50) {
                return;
            }
            left = rest;
        }
        if cuts.chance(5) {
            self.offer(peer, &[]);
        }
    }
}
