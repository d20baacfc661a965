//! Ticks: time goes on in small and large steps, and calls end that have waited for long.
//!
//! Most limits are about the age of the oldest call. So few calls end at a time, and the others
//! still meet their replies, their like, and the most that may wait.

use super::random::Random;
use super::world::World;
use super::{messages, talks};
use crate::capture::Call;
use crate::guard::{Guard, MAX_WAITS, SLOTS};
use crate::message::Message;
use crate::names::unique_name_of;
use crate::replay::Outcome;
use crate::wait::Wait;

/// One step of the world that is about time, mostly where calls wait.
pub fn step(world: &mut World) {
    match world.random.below(24) {
        0 => fill_and_expire(world),
        1..=2 => cut_call(world),
        3..=10 if world.guard.peer_in(SLOTS - 1).is_some() => last_slot(world),
        3..=14 if world.guard.waits().is_empty() => {}
        _ => tick(world),
    }
}

/// A tick, and now and then what shows which calls it ended.
pub fn tick(world: &mut World) {
    let tick = next(&mut world.random, world.guard.last_tick());
    let limit = limit(&mut world.random, &world.guard, tick);
    match tick < world.guard.last_tick() {
        true => refused(world, tick, limit),
        false => make(world, tick, limit),
    }
}

/// A tick that is too low, perhaps with a limit that would end everything, and perhaps another
/// one between it and the last.
fn refused(world: &mut World, tick: u64, limit: u64) {
    let limit = world.random.pick(&[limit, 0, 1]);
    world.call(Call::Tick { tick, limit });
    if world.random.chance(50) {
        let less = world.guard.last_tick() - tick;
        let tick = tick + world.random.next_u64() % less;
        world.call(Call::Tick { tick, limit });
    }
}

/// Ends every call, or every call of earlier ticks.
pub fn end_all(world: &mut World) {
    let last = world.guard.last_tick();
    let tick = world.random.pick(&[last, last.saturating_add(1)]);
    let limit = world.random.pick(&[0, 1]);
    make(world, tick, limit);
}

/// Time goes on by a little, and nothing ends unless it is as old as can be.
pub fn pass(world: &mut World) {
    let tick = a_little_later(&mut world.random, world.guard.last_tick());
    world.call(Call::Tick { tick, limit: u64::MAX });
}

fn a_little_later(random: &mut Random, last: u64) -> u64 {
    last.saturating_add(random.between(1, 9) as u64)
}

/// The next tick. The largest one of all is rare, because nothing but a start comes behind it.
fn next(random: &mut Random, last: u64) -> u64 {
    let rest = u64::MAX - last;
    match random.below(40) {
        0..=5 => last,
        6..=7 => last.saturating_sub(1),
        8 => random.pick(&[0, last / 2, last.saturating_sub(9)]),
        9..=10 => random.next_u64() % last.max(1),
        11 => last.saturating_add(random.between(10, 5_000) as u64),
        12..=13 => last.saturating_add(random.pick(&[1 << 32, (1 << 32) - 1, (1 << 32) + 1, 3 << 32])),
        14 => last + rest / random.pick(&[2, 3, 1 << 8, 1 << 20]),
        15 if random.chance(10) => u64::MAX,
        _ => a_little_later(random, last),
    }
}

/// A limit that parts the waiting calls in two, or ends none of them, or all.
fn limit(random: &mut Random, guard: &Guard, tick: u64) -> u64 {
    let ages: Vec<u64> = guard.waits().iter().map(|wait| tick.saturating_sub(wait.tick)).collect();
    let oldest = ages.iter().max().map_or(3, |age| *age).max(1);
    let any = if ages.is_empty() { oldest } else { random.pick(&ages) };
    match random.below(40) {
        0 => 0,
        1 => 1,
        2..=6 => u64::MAX,
        7..=18 => oldest,
        19..=28 => oldest.saturating_add(1),
        29..=31 => any,
        32..=35 => any.saturating_add(1),
        36 => any.saturating_sub(1),
        37 => u64::MAX - random.between(1, 3) as u64,
        38 => oldest.saturating_add(random.pick(&[1 << 8, 1 << 32, 1 << 63])),
        _ => random.next_u64(),
    }
}

/// Makes the tick; behind it come replies to calls that it ended, and the same calls again.
fn make(world: &mut World, tick: u64, limit: u64) {
    let mut ended = world.guard.waits().to_vec();
    world.call(Call::Tick { tick, limit });
    ended.retain(|wait| !world.guard.waits().contains(wait));
    let some = if ended.is_empty() { world.guard.waits() } else { &ended };
    if some.is_empty() {
        return;
    }
    let wait = world.random.pick(some);
    match world.random.below(10) {
        0..=2 => reply(world, wait),
        3..=5 => again(world, wait),
        6 => {
            again(world, wait);
            reply(world, wait);
        }
        7 => {
            reply(world, wait);
            again(world, wait);
        }
        _ => {}
    }
}

fn reply(world: &mut World, wait: Wait) {
    if world.is_ready(wait.callee) {
        let reply = messages::reply(&mut world.random, wait.serial).to(&unique_name_of(wait.caller));
        world.call(Call::Piece { peer: wait.callee, bytes: reply.bytes() });
    }
}

fn again(world: &mut World, wait: Wait) {
    if world.is_ready(wait.caller) {
        call(world, wait.caller, wait.callee, wait.serial);
    }
}

/// True where the call passed.
fn call(world: &mut World, caller: u32, callee: u32, serial: u32) -> bool {
    let bytes = Message::call(serial, "/", "M").to(&unique_name_of(callee)).bytes();
    matches!(world.call(Call::Piece { peer: caller, bytes }), Outcome::Piece(judged) if judged.answer.number() == 0)
}

/// Two peers that can begin a message, or one of them twice.
fn two(world: &mut World) -> Option<(u32, u32)> {
    let ready = talks::ready(world);
    if ready.is_empty() {
        return None;
    }
    Some((world.random.pick(&ready), world.random.pick(&ready)))
}

/// As many calls of one peer as may wait and one more, at several ticks; then some of them end,
/// and it calls again.
fn fill_and_expire(world: &mut World) {
    let Some((caller, callee)) = two(world) else { return };
    let mut serial = world.random.between(200, 60_000) as u32;
    while call(world, caller, callee, serial) {
        serial += 1;
        if world.random.chance(15) {
            pass(world);
        }
    }
    let is_own = |wait: &&Wait| wait.caller == caller;
    let own: Vec<Wait> = world.guard.waits().iter().filter(is_own).copied().collect();
    if own.len() == MAX_WAITS {
        let last = world.guard.last_tick();
        let tick = last.saturating_add(world.random.below(4) as u64);
        let limit = world.random.pick(&own).age(tick).max(1);
        world.call(Call::Tick { tick, limit });
        for more in 0..world.random.between(1, 3) as u32 {
            call(world, caller, callee, serial + more);
        }
    }
}

/// A call of the peer in the last slot, which then is old enough to end.
fn last_slot(world: &mut World) {
    let Some(caller) = world.guard.peer_in(SLOTS - 1).map(|peer| peer.number) else { return };
    if !world.is_ready(caller) {
        return tick(world);
    }
    let serial = messages::serial(&mut world.random);
    let to = world.random.pick(&talks::ready(world));
    if call(world, caller, to, serial) {
        let passed = world.guard.last_tick();
        pass(world);
        let tick = a_little_later(&mut world.random, world.guard.last_tick());
        make(world, tick, (tick - passed).max(1));
    }
}

/// A call between whose pieces time goes on. It is as old as its last byte, not as its first.
fn cut_call(world: &mut World) {
    let Some((caller, callee)) = two(world) else { return };
    let serial = messages::serial(&mut world.random);
    let bytes = Message::call(serial, "/", "M").to(&unique_name_of(callee)).bytes();
    let (front, rest) = bytes.split_at(world.random.between(1, bytes.len() - 1));
    let began = world.guard.last_tick();
    world.call(Call::Piece { peer: caller, bytes: front.to_vec() });
    pass(world);
    if world.random.chance(20) {
        return world.send_later(caller, rest.to_vec());
    }
    world.call(Call::Piece { peer: caller, bytes: rest.to_vec() });
    let passed = world.guard.last_tick();
    let tick = passed.saturating_add(world.random.between(0, 4) as u64);
    world.call(Call::Tick { tick, limit: (tick - began).max(1) });
    if world.random.chance(50) {
        make(world, tick, (tick - passed).max(1));
    }
}

/// The largest tick, and what may come behind it. Calls from tick 0 are then as old as can be.
pub fn to_the_largest(world: &mut World) {
    let limit = u64::MAX - world.random.pick(&[0, 0, 0, 1, 5]);
    make(world, u64::MAX, limit);
    for _ in 0..world.random.below(4) {
        let tick = world.random.pick(&[u64::MAX, u64::MAX, u64::MAX - 1, 0]);
        let limit = world.random.pick(&[u64::MAX, u64::MAX - 1, 1 << 63, 1, 0]);
        make(world, tick, limit);
    }
}
