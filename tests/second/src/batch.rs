//! Many messages in one call: a piece is offered for as long as a lent list has places.

use crate::answer::ends_an_offer;
use crate::guard::{Guard, LentPolicy};
use crate::replay::piece_numbers;

/// Seven little-endian numbers of four bytes.
pub const PLACE_LENGTH: usize = 28;

/// What a batch reports beside its places.
#[derive(Clone, Copy, Debug, Default, PartialEq, Eq)]
pub struct Batch {
    pub written: usize,
    pub taken: usize,
}

/// Calls with the piece, then at once with what is left, and writes a place for each call. It
/// ends where the room has no further whole place, where nothing is left, or behind an answer
/// that ends an offer. The rest of the room keeps its bytes.
pub fn batch(guard: &mut Guard, policy: LentPolicy, peer: u32, bytes: &[u8], room: &mut [u8]) -> Batch {
    let mut batch = Batch::default();
    let mut left = bytes;
    for place in room.chunks_exact_mut(PLACE_LENGTH) {
        let judged = guard.piece(policy, peer, left);
        write_place(place, piece_numbers(&judged));
        batch.written += 1;
        batch.taken += judged.taken;
        left = &left[judged.taken..];
        if left.is_empty() || judged.answer.ends_an_offer() {
            break;
        }
    }
    batch
}

fn write_place(place: &mut [u8], numbers: [u32; 7]) {
    for (four, number) in place.chunks_exact_mut(4).zip(numbers) {
        four.copy_from_slice(&number.to_le_bytes());
    }
}

fn read_place(place: &[u8]) -> [u32; 7] {
    std::array::from_fn(|index| u32::from_le_bytes(std::array::from_fn(|byte| place[4 * index + byte])))
}

/// One batch of an offer, the numbers of its places, and how many bytes were left behind it.
#[derive(Clone, Debug, PartialEq, Eq)]
pub struct Offered {
    pub batch: Batch,
    pub places: Vec<[u32; 7]>,
    pub left: usize,
}

/// Offers a piece by batches of `places`, which is not 0: what a full list leaves goes into the
/// next one.
pub fn offer(guard: &mut Guard, policy: LentPolicy, peer: u32, bytes: &[u8], places: usize) -> Vec<Offered> {
    let mut offered = Vec::new();
    let mut left = bytes;
    loop {
        let mut room = vec![0; places * PLACE_LENGTH];
        let batch = batch(guard, policy, peer, left, &mut room);
        left = &left[batch.taken..];
        let written: Vec<[u32; 7]> =
            room.chunks_exact(PLACE_LENGTH).take(batch.written).map(read_place).collect();
        let is_ended = written.last().is_none_or(|numbers| ends_an_offer(numbers[0]));
        offered.push(Offered { batch, places: written, left: left.len() });
        if is_ended || batch.written < places || left.is_empty() {
            return offered;
        }
    }
}
