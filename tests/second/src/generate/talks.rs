//! Talks: a few peers call one of them, it replies to some of the calls, and then it leaves.
//!
//! Peers that act at random seldom keep calls open with somebody who goes.

use super::random::Random;
use super::world::World;
use super::{messages, ticks};
use crate::capture::Call;
use crate::guard::MAX_WAITS;
use crate::message::Message;
use crate::names::unique_name_of;
use crate::policy::{Gid, Uid};
use crate::wait::Wait;
use crate::wire::NO_REPLY_EXPECTED;

/// One talk in the middle of a capture. At its end the callee leaves, or all do, or nobody, or
/// time comes to its end.
pub fn talk(world: &mut World) {
    gather(world, 3);
    let Some(callee) = exchange(world) else { return };
    match world.random.below(10) {
        0 => {
            ticks::end_all(world);
            start_again(world);
        }
        1..=2 => start_again(world),
        3 => talk_between_starts(world),
        4 => world.beside(talk_at_the_largest_tick),
        5..=8 => replace(world, callee),
        _ => return ticks::end_all(world),
    }
    if world.random.chance(60) {
        gather(world, 3);
        if let Some(callee) = exchange(world) {
            world.disconnect(callee);
        }
    }
}

/// Talks with which a capture ends, so that those who stay have calls of every fate.
pub fn last_talk(world: &mut World) {
    match world.random.below(10) {
        0..=2 => talk_between_starts(world),
        3..=5 => talk_at_the_largest_tick(world),
        _ => {}
    }
    gather(world, 8);
    for _ in 0..2 {
        if let Some(callee) = exchange(world) {
            ticks::tick(world);
            world.disconnect(callee);
        }
    }
    exchange(world);
    if world.random.chance(50) {
        ticks::tick(world);
    }
}

/// Peers that can begin a message.
pub fn ready(world: &World) -> Vec<u32> {
    world.guard.peers().map(|peer| peer.number).filter(|number| world.is_ready(*number)).collect()
}

/// The ids of those who are there; what was granted to them is granted again.
fn ids(world: &World) -> Vec<(Uid, Vec<Gid>)> {
    world.guard.peers().map(|peer| (peer.uid, peer.gids.clone())).collect()
}

/// Sees to it that some peers can talk, as far as there are slots.
fn gather(world: &mut World, wanted: usize) {
    let known = ids(world);
    for _ in ready(world).len()..wanted {
        if known.is_empty() {
            return world.connect();
        }
        let (uid, gids) = world.random.pick(&known);
        world.call(Call::Connect { uid, gids });
    }
}

/// The same peers come again after a start, under the numbers from 1.
fn start_again(world: &mut World) {
    let known = ids(world);
    world.start();
    for (uid, gids) in known {
        world.call(Call::Connect { uid, gids });
    }
}

/// Behind the second start the same numbers mean the same peers as before it, so that whatever
/// outlives a start meets its like.
fn talk_between_starts(world: &mut World) {
    start_again(world);
    gather(world, 3);
    exchange(world);
    start_again(world);
}

/// Calls of the first tick and of later ones meet the largest; only a start comes behind it. Where
/// a policy lets peers talk, they do so several times.
fn talk_at_the_largest_tick(world: &mut World) {
    start_again(world);
    for _ in 0..6 {
        gather(world, 3);
        exchange(world);
        let is_first = world.guard.waits().iter().any(|wait| wait.tick == 0);
        ticks::to_the_largest(world);
        start_again(world);
        if !is_first {
            return;
        }
    }
}

/// Somebody leaves, and his like takes the lowest free slot.
fn replace(world: &mut World, peer: u32) {
    let left = world.guard.peer(peer).map(|peer| (peer.uid, peer.gids.clone()));
    world.disconnect(peer);
    if let Some((uid, gids)) = left {
        world.call(Call::Connect { uid, gids });
    }
}

/// Calls to one peer, each caller's at once, and its replies to some of them.
fn exchange(world: &mut World) -> Option<u32> {
    let peers = ready(world);
    if peers.is_empty() {
        return None;
    }
    // Often the first one, so that the same two meet again after a start.
    let callee = if world.random.chance(40) { peers[0] } else { world.random.pick(&peers) };
    for caller in peers.into_iter().take(8) {
        for serial in serials(&mut world.random) {
            send_call(world, caller, callee, serial);
        }
        for _ in 0..world.random.pick(&[0, 1, 1, 2]) {
            send_reply(world, callee, caller);
        }
        if world.random.chance(25) {
            ticks::pass(world);
        }
    }
    Some(callee)
}

/// The serials of one peer's calls. Some come twice, and a few peers try more than may wait.
fn serials(random: &mut Random) -> Vec<u32> {
    let first = messages::serial(random).min(1_000_000);
    let too_many = random.chance(4);
    let count = if too_many { MAX_WAITS + 1 } else { random.between(2, 4) };
    let mut serials: Vec<u32> = (first..).take(count).collect();
    if too_many || random.chance(20) {
        let again = random.pick(&serials);
        serials.push(again);
    }
    serials
}

fn send_call(world: &mut World, caller: u32, callee: u32, serial: u32) {
    let to = if world.random.chance(10) { caller } else { callee };
    let message = Message::call(serial, "/", "M").to(&unique_name_of(to)).flags(flags(&mut world.random));
    world.call(Call::Piece { peer: caller, bytes: message.bytes() });
}

fn flags(random: &mut Random) -> u8 {
    match random.below(10) {
        0 => NO_REPLY_EXPECTED,
        1 => random.byte(),
        2 => random.byte() & !NO_REPLY_EXPECTED,
        _ => 0,
    }
}

/// A reply to one of the caller's open calls.
fn send_reply(world: &mut World, callee: u32, caller: u32) {
    let is_theirs = |wait: &&Wait| wait.callee == callee && wait.caller == caller;
    let awaited: Vec<u32> = world.guard.waits().iter().filter(is_theirs).map(|wait| wait.serial).collect();
    if awaited.is_empty() {
        return;
    }
    let serial = world.random.pick(&awaited);
    let reply = messages::reply(&mut world.random, serial).to(&unique_name_of(caller));
    world.call(Call::Piece { peer: callee, bytes: reply.bytes() });
}
