//! Capture files: a policy image and the calls made on the guard.

use crate::policy::{Gid, Uid};
use crate::wire::ByteOrder;

#[derive(Clone, Debug, PartialEq, Eq)]
pub enum Call {
    Start,
    Connect { uid: Uid, gids: Vec<Gid> },
    Own { peer: u32, name: Vec<u8> },
    Release { peer: u32, name: Vec<u8> },
    Piece { peer: u32, bytes: Vec<u8> },
    Disconnect { peer: u32 },
    Tick { tick: u64, limit: u64 },
}

#[derive(Clone, Debug, Default, PartialEq, Eq)]
pub struct Capture {
    pub image: Vec<u8>,
    pub calls: Vec<Call>,
}

/// The calls before the first fault of the layout, and whether there was one.
#[derive(Clone, Debug, Default, PartialEq, Eq)]
pub struct Reading {
    pub capture: Capture,
    pub is_whole: bool,
}

/// Takes a little-endian number from the front of `bytes`.
fn take_u32(bytes: &mut &[u8]) -> Option<u32> {
    let number = bytes.get(..4).map(|four| ByteOrder::Little.read_u32(four, 0))?;
    *bytes = &bytes[4..];
    Some(number)
}

fn take_u64(bytes: &mut &[u8]) -> Option<u64> {
    let (low, high) = (take_u32(bytes)?, take_u32(bytes)?);
    Some(u64::from(high) << 32 | u64::from(low))
}

fn take_bytes<'a>(bytes: &mut &'a [u8], length: u32) -> Option<&'a [u8]> {
    let taken = bytes.get(..length as usize)?;
    *bytes = &bytes[length as usize..];
    Some(taken)
}

pub fn read(file: &[u8]) -> Reading {
    let mut rest = file;
    let mut reading = Reading::default();
    let Some(image) = take_u32(&mut rest).and_then(|length| take_bytes(&mut rest, length)) else {
        return reading;
    };
    reading.capture.image = image.to_vec();
    while !rest.is_empty() {
        match read_call(&mut rest) {
            Some(call) => reading.capture.calls.push(call),
            None => return reading,
        }
    }
    reading.is_whole = true;
    reading
}

/// One call from the front of `rest`; none where it breaks the layout.
fn read_call(rest: &mut &[u8]) -> Option<Call> {
    let kind = take_u32(rest)?;
    let length = take_u32(rest)?;
    let mut bytes = take_bytes(rest, length)?;
    if kind == 0 {
        return bytes.is_empty().then_some(Call::Start);
    }
    if kind == 6 {
        let (tick, limit) = (take_u64(&mut bytes)?, take_u64(&mut bytes)?);
        return bytes.is_empty().then_some(Call::Tick { tick, limit });
    }
    let first = take_u32(&mut bytes)?;
    match kind {
        1 => Some(Call::Connect { uid: Uid(first), gids: read_gids(bytes)? }),
        2 => Some(Call::Own { peer: first, name: bytes.to_vec() }),
        3 => Some(Call::Release { peer: first, name: bytes.to_vec() }),
        4 => Some(Call::Piece { peer: first, bytes: bytes.to_vec() }),
        5 => bytes.is_empty().then_some(Call::Disconnect { peer: first }),
        _ => None,
    }
}

fn read_gids(mut bytes: &[u8]) -> Option<Vec<Gid>> {
    let mut gids = Vec::new();
    while !bytes.is_empty() {
        gids.push(Gid(take_u32(&mut bytes)?));
    }
    Some(gids)
}

pub fn write(capture: &Capture) -> Vec<u8> {
    let mut file = Vec::new();
    file.extend((capture.image.len() as u32).to_le_bytes());
    file.extend(&capture.image);
    for call in &capture.calls {
        let (kind, bytes) = call_bytes(call);
        file.extend(u32::to_le_bytes(kind));
        file.extend((bytes.len() as u32).to_le_bytes());
        file.extend(bytes);
    }
    file
}

fn call_bytes(call: &Call) -> (u32, Vec<u8>) {
    let join = |first: &u32, rest: &[u8]| [&first.to_le_bytes(), rest].concat();
    match call {
        Call::Start => (0, Vec::new()),
        Call::Connect { uid, gids } => {
            let rest: Vec<u8> = gids.iter().flat_map(|gid| gid.0.to_le_bytes()).collect();
            (1, join(&uid.0, &rest))
        }
        Call::Own { peer, name } => (2, join(peer, name)),
        Call::Release { peer, name } => (3, join(peer, name)),
        Call::Piece { peer, bytes } => (4, join(peer, bytes)),
        Call::Disconnect { peer } => (5, join(peer, &[])),
        Call::Tick { tick, limit } => (6, [tick.to_le_bytes(), limit.to_le_bytes()].concat()),
    }
}
