//! Pieces of many messages, so that lists of places are filled, filled exactly, and not filled.

use super::random::Random;
use super::world::World;
use super::{faults, images, messages, policies};
use crate::capture::Call;
use crate::header::{DESTINATION, SIGNAL};
use crate::message::Message;
use crate::names::unique_name_of;
use crate::policy::Policy;
use crate::replay::lent_policy;

/// The most messages that a piece is meant to have.
const MOST: usize = 80;

/// Mostly random policies; some let everything pass, and a few images are bad.
pub fn policy_and_image(random: &mut Random) -> (Option<Policy>, Vec<u8>) {
    match random.below(20) {
        0..=1 => {
            let image = images::broken(random);
            (lent_policy(&image), image)
        }
        2..=5 => {
            let (policy, image) = policies::open_image(random);
            (Some(policy), image)
        }
        _ => {
            let (policy, image) = policies::policy_and_image(random);
            (Some(policy), image)
        }
    }
}

/// A step of the world in which a peer that sends something sends a lot. Under a bad image there
/// are only strangers.
pub fn step(world: &mut World) {
    let stranger = if world.policy.is_none() { 50 } else { 5 };
    if world.random.chance(stranger) {
        let given = world.guard.last_number();
        let peer = world.random.pick(&[0, given.wrapping_add(1), u32::MAX, given.saturating_sub(17)]);
        send(world, peer);
    } else if let Some(peer) = world.step() {
        send(world, peer);
    }
}

/// How many messages a piece has. Lists of 1, 2, 7 and 64 are to be filled by just so many.
fn count(random: &mut Random) -> usize {
    match random.below(20) {
        0 => 0,
        1..=2 => random.pick(&[1, 2, 3, 7]),
        3..=4 => random.pick(&[6, 7, 8, 14]),
        5..=6 => random.pick(&[63, 64, 64, 64, 65]),
        7..=13 => random.between(1, 10),
        14..=18 => random.between(3, 30),
        _ => random.between(20, MOST),
    }
}

/// One piece: what the peer has begun, some messages, and perhaps the beginning of another.
fn send(world: &mut World, peer: u32) {
    let mut piece = Piece { peer, bytes: Vec::new(), messages: 0, is_open: true };
    if world.random.chance(6) {
        piece.call(world);
        return;
    }
    let begun = world.take_unsent(peer);
    if !begun.is_empty() && world.random.chance(95) {
        piece.add(world, &begun);
    }
    let wanted = count(&mut world.random);
    let broken_at = if world.random.chance(25) { world.random.below(wanted + 1) } else { MOST };
    while piece.messages < wanted {
        if piece.messages >= broken_at && piece.is_open {
            let bytes = broken(world, peer);
            piece.add(world, &bytes);
        } else {
            let messages = run(world, peer);
            let most = wanted - piece.messages;
            messages.iter().take(most).for_each(|message| piece.add(world, &message.bytes()));
        }
    }
    if world.random.chance(30) {
        let message = world.good_message(peer).bytes();
        let (front, rest) = message.split_at(world.random.between(1, message.len() - 1));
        piece.add(world, front);
        world.send_later(peer, rest.to_vec());
    }
    piece.call(world);
}

/// A piece while it is put together. Each message is tried out at once, so that the next one can
/// aim at what it left behind.
struct Piece {
    peer: u32,
    bytes: Vec<u8>,
    messages: usize,
    is_open: bool,
}

impl Piece {
    fn add(&mut self, world: &mut World, bytes: &[u8]) {
        self.bytes.extend(bytes);
        self.messages += 1;
        // Behind a broken head nothing is offered any more.
        self.is_open = self.is_open && world.try_out(self.peer, bytes);
    }

    /// The call itself. The guard has seen its bytes already.
    fn call(self, world: &mut World) {
        world.calls.push(Call::Piece { peer: self.peer, bytes: self.bytes });
    }
}

/// Some messages that belong together.
fn run(world: &mut World, peer: u32) -> Vec<Message> {
    match world.random.below(20) {
        0..=8 => vec![world.good_message(peer)],
        9..=15 => {
            // The same message again mostly has the same answer again.
            let message = world.good_message(peer);
            vec![message; world.random.between(2, 5)]
        }
        16 => burst_of_calls(world, peer),
        17 => talk_to_oneself(&mut world.random, peer),
        18 => {
            let broadcast = broadcast(world, peer);
            vec![broadcast; world.random.between(1, 3)]
        }
        _ => awaited_replies(world, peer),
    }
}

/// More calls than may wait, to oneself or somebody else, each with a serial of its own.
fn burst_of_calls(world: &mut World, peer: u32) -> Vec<Message> {
    let others: Vec<u32> = world.guard.peers().map(|peer| peer.number).collect();
    let to = if others.is_empty() { peer } else { world.random.pick(&others) };
    let first = world.random.between(100, 100_000) as u32;
    let count = world.random.between(14, 24) as u32;
    (first..first + count).map(|serial| Message::call(serial, "/", "M").to(&unique_name_of(to))).collect()
}

/// Calls to oneself, each of them replied to at once or a little later.
fn talk_to_oneself(random: &mut Random, peer: u32) -> Vec<Message> {
    let name = unique_name_of(peer);
    let first = messages::serial(random).min(1_000_000);
    let calls: Vec<u32> = (first..).take(random.between(1, 3)).collect();
    let call = |serial: &u32| Message::call(*serial, "/", "M").to(&name);
    match random.chance(50) {
        true => {
            let pair = |serial: &u32| [call(serial), messages::reply(random, *serial).to(&name)];
            calls.iter().flat_map(pair).collect()
        }
        false => {
            let replies: Vec<Message> =
                calls.iter().map(|serial| messages::reply(random, *serial).to(&name)).collect();
            calls.iter().map(call).chain(replies).collect()
        }
    }
}

/// A signal to everybody.
fn broadcast(world: &mut World, peer: u32) -> Message {
    loop {
        let message = world.good_message(peer);
        if message.message_type == SIGNAL {
            let fields = message.fields.iter().filter(|field| field.code != DESTINATION);
            return Message { fields: fields.cloned().collect(), ..message };
        }
    }
}

/// Replies to those who wait for the peer.
fn awaited_replies(world: &mut World, peer: u32) -> Vec<Message> {
    let waits: Vec<(u32, u32)> = world
        .guard
        .waits()
        .iter()
        .filter(|wait| wait.callee == peer)
        .map(|wait| (wait.caller, wait.serial))
        .collect();
    let reply = |(caller, serial): &(u32, u32)| {
        messages::reply(&mut world.random, *serial).to(&unique_name_of(*caller))
    };
    waits.iter().map(reply).collect()
}

/// A message that closes the stream, or in a few cases one that only looks as if it did. Faults
/// of the first 16 bytes and missing fields are few among the others, so they have shares of
/// their own.
fn broken(world: &mut World, peer: u32) -> Vec<u8> {
    let message = world.good_message(peer);
    match world.random.below(10) {
        0..=4 => faults::in_fixed_part(&mut world.random, &message),
        5..=6 => faults::broken(&mut world.random, &message),
        7 => faults::without_required_field(&mut world.random, message).bytes(),
        _ => faults::with_unknown_field(&mut world.random, &message).bytes(),
    }
}
