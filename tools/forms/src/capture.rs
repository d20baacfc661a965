//! Capture files: a policy image and the calls made on the guard.
//!
//! All numbers are little-endian and have 32 bits, ticks and limits 64: the image's length, the image, then the calls, each
//! with its kind, its length and that many bytes.

use crate::policy::{Gid, Uid};

#[derive(Clone, Debug, PartialEq, Eq)]
pub enum Call {
    Start,
    Connect { uid: Uid, gids: Vec<Gid> },
    Own { peer: u32, name: Vec<u8> },
    Release { peer: u32, name: Vec<u8> },
    Piece { peer: u32, bytes: Vec<u8> },
    Disconnect { peer: u32 },
    Tick { tick: u64, limit: u64 },
}

impl Call {
    /// The peer that the call is about, where it names one.
    pub fn peer(&self) -> Option<u32> {
        match self {
            Call::Start | Call::Connect { .. } | Call::Tick { .. } => None,
            Call::Own { peer, .. }
            | Call::Release { peer, .. }
            | Call::Piece { peer, .. }
            | Call::Disconnect { peer } => Some(*peer),
        }
    }
}

#[derive(Clone, Debug, Default, PartialEq, Eq)]
pub struct Capture {
    pub image: Vec<u8>,
    pub calls: Vec<Call>,
}

/// Where the layout of a capture is broken, and how.
#[derive(Clone, Debug, PartialEq, Eq)]
pub struct CaptureFault {
    pub at: usize,
    pub what: String,
}

impl std::fmt::Display for CaptureFault {
    fn fmt(&self, out: &mut std::fmt::Formatter) -> std::fmt::Result {
        write!(out, "bad capture at byte {}: {}", self.at, self.what)
    }
}

/// The calls before the first fault of the layout, and that fault.
#[derive(Clone, Debug, Default, PartialEq, Eq)]
pub struct Reading {
    pub capture: Capture,
    pub fault: Option<CaptureFault>,
}

/// What is left to read, and where that is in the file.
struct Rest<'a> {
    file: &'a [u8],
    at: usize,
}

impl<'a> Rest<'a> {
    fn take(&mut self, length: usize, what: &str) -> Result<&'a [u8], CaptureFault> {
        let left = self.file.len() - self.at;
        if left < length {
            let what = format!("{what} has {length} bytes, and only {left} are left of the file");
            return Err(CaptureFault { at: self.at, what });
        }
        self.at += length;
        Ok(&self.file[self.at - length..self.at])
    }

    fn number(&mut self, what: &str) -> Result<u32, CaptureFault> {
        self.take(4, what).map(|four| word(four, 0))
    }
}

fn word(bytes: &[u8], at: usize) -> u32 {
    u32::from_le_bytes([bytes[at], bytes[at + 1], bytes[at + 2], bytes[at + 3]])
}

fn long(bytes: &[u8], at: usize) -> u64 {
    u64::from(word(bytes, at)) | u64::from(word(bytes, at + 4)) << 32
}

/// Reads a capture up to the first fault of its layout.
pub fn read(file: &[u8]) -> Reading {
    let mut reading = Reading::default();
    let mut rest = Rest { file, at: 0 };
    if let Err(fault) = read_all(&mut rest, &mut reading.capture) {
        reading.fault = Some(fault);
    }
    reading
}

fn read_all(rest: &mut Rest, capture: &mut Capture) -> Result<(), CaptureFault> {
    let length = rest.number("the image's length")?;
    capture.image = rest.take(length as usize, "the image")?.to_vec();
    while rest.at < rest.file.len() {
        let call = read_call(rest, capture.calls.len() + 1)?;
        capture.calls.push(call);
    }
    Ok(())
}

fn read_call(rest: &mut Rest, index: usize) -> Result<Call, CaptureFault> {
    let from = rest.at;
    let kind = rest.number(&format!("the kind of call {index}"))?;
    let length = rest.number(&format!("the length of call {index}"))? as usize;
    let breach = |at, what: String| CaptureFault { at, what: format!("call {index}: {what}") };
    let (name, fits) = match kind {
        0 => ("start", length == 0),
        1 => ("connect", length >= 4 && length.is_multiple_of(4)),
        2 => ("own", length >= 4),
        3 => ("release", length >= 4),
        4 => ("piece", length >= 4),
        5 => ("disconnect", length == 4),
        6 => ("tick", length == 16),
        _ => return Err(breach(from, format!("there is no kind {kind}"))),
    };
    if !fits {
        return Err(breach(from + 4, format!("{name} cannot have {length} bytes")));
    }
    let bytes = rest.take(length, &format!("call {index}, {name},"))?;
    let peer = if kind == 0 { 0 } else { word(bytes, 0) };
    let behind = || bytes[4..].to_vec();
    Ok(match kind {
        0 => Call::Start,
        1 => Call::Connect {
            uid: Uid(peer),
            gids: bytes[4..].chunks(4).map(|four| Gid(word(four, 0))).collect(),
        },
        2 => Call::Own { peer, name: behind() },
        3 => Call::Release { peer, name: behind() },
        4 => Call::Piece { peer, bytes: behind() },
        5 => Call::Disconnect { peer },
        _ => Call::Tick { tick: long(bytes, 0), limit: long(bytes, 8) },
    })
}

pub fn write(capture: &Capture) -> Vec<u8> {
    let mut file = (capture.image.len() as u32).to_le_bytes().to_vec();
    file.extend(&capture.image);
    for call in &capture.calls {
        let (kind, bytes) = call_bytes(call);
        file.extend(u32::to_le_bytes(kind));
        file.extend((bytes.len() as u32).to_le_bytes());
        file.extend(bytes);
    }
    file
}

fn call_bytes(call: &Call) -> (u32, Vec<u8>) {
    let join = |first: &u32, rest: &[u8]| [&first.to_le_bytes(), rest].concat();
    match call {
        Call::Start => (0, Vec::new()),
        Call::Connect { uid, gids } => {
            let rest: Vec<u8> = gids.iter().flat_map(|gid| gid.0.to_le_bytes()).collect();
            (1, join(&uid.0, &rest))
        }
        Call::Own { peer, name } => (2, join(peer, name)),
        Call::Release { peer, name } => (3, join(peer, name)),
        Call::Piece { peer, bytes } => (4, join(peer, bytes)),
        Call::Disconnect { peer } => (5, join(peer, &[])),
        Call::Tick { tick, limit } => (6, [tick.to_le_bytes(), limit.to_le_bytes()].concat()),
    }
}
