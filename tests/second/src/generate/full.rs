//! A guard with every place in use: peers, gids, names, waits and half-read heads.

use super::ticks;
use super::world::World;
use super::{messages, vocabulary};
use crate::capture::Call;
use crate::guard::{MAX_GIDS, MAX_NAMES, MAX_WAITS, SLOTS};
use crate::message::Message;
use crate::names::unique_name_of;
use crate::policy::{Gid, Uid};

/// Fills each limit and tries one beyond it.
pub fn fill(world: &mut World) {
    for _ in world.guard.peers().count()..=SLOTS {
        let gids = (0..MAX_GIDS).map(|_| Gid(vocabulary::id(&mut world.random))).collect();
        let uid = Uid(vocabulary::id(&mut world.random));
        world.call(Call::Connect { uid, gids });
    }
    let mut peers: Vec<u32> = world.guard.peers().map(|peer| peer.number).collect();
    // The oldest calls are then not always those of the first slot.
    world.random.shuffle(&mut peers);
    for &peer in &peers {
        for index in 0..=MAX_NAMES {
            let name = vocabulary::longer(&format!("org.p{peer}.n{index}."), 255);
            world.call(Call::Own { peer, name: name.into_bytes() });
        }
    }
    for &caller in &peers {
        for serial in 1..=MAX_WAITS as u32 + 1 {
            let callee = unique_name_of(world.random.pick(&peers));
            let bytes = Message::call(serial, "/", "M").to(&callee).bytes();
            world.call(Call::Piece { peer: caller, bytes });
        }
        if world.random.chance(50) {
            ticks::pass(world);
        }
    }
    world.beside(|world| expire_and_call_again(world, &peers));
    for &peer in &peers {
        begin_longest_head(world, peer);
    }
    ticks::tick(world);
}

/// Some of the calls end, sometimes those of everybody, and some callers have as many again as
/// may wait.
fn expire_and_call_again(world: &mut World, callers: &[u32]) {
    ticks::tick(world);
    for &caller in &callers[..callers.len().min(4)] {
        let waits = world.guard.waits().iter().filter(|wait| wait.caller == caller).count();
        for more in 0..=(MAX_WAITS - waits) as u32 {
            let callee = unique_name_of(world.random.pick(callers));
            let bytes = Message::call(20 + more, "/", "M").to(&callee).bytes();
            world.call(Call::Piece { peer: caller, bytes });
        }
    }
}

/// All but the last byte of the longest head that there can be.
fn begin_longest_head(world: &mut World, peer: u32) {
    let mut bytes = messages::with_array_length(&mut world.random, 2_032).bytes();
    let last = bytes.split_off(bytes.len() - 1);
    world.call(Call::Piece { peer, bytes });
    if world.random.chance(50) {
        world.send_later(peer, last);
    }
}
