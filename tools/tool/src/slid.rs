//! The neighbours of a broken head: the same bytes with one put in or taken out.

use crate::head::{self, type_word, Head, HeadFault, Outcome, Part, Reading};
use forms::message::{
    field_kind, ERROR, ERROR_NAME, FIELDS, INTERFACE, MEMBER, METHOD_CALL, METHOD_RETURN, PATH, REPLY_SERIAL,
    SIGNAL,
};
use std::collections::BTreeSet;

/// What was done to the bytes.
#[derive(Clone, Copy, Debug, PartialEq, Eq)]
pub enum Change {
    PutIn { at: usize, byte: u8 },
    TakenOut { at: usize, byte: u8 },
}

/// A good reading that is one byte away.
#[derive(Clone, Debug, PartialEq, Eq)]
pub struct Neighbour {
    pub change: Change,
    /// The bytes after the change.
    pub bytes: Vec<u8>,
    pub reading: Reading,
}

/// A head has at most 2,048 bytes, and one more may be taken out of them.
const MOST_TRIED: usize = 2_049;

/// Bytes of the fixed part, at each of which a change is tried.
const FIXED: usize = 16;

/// Bytes of a field before its text.
const FIELD_FRONT: usize = 8;

impl Change {
    pub fn at(self) -> usize {
        match self {
            Change::PutIn { at, .. } | Change::TakenOut { at, .. } => at,
        }
    }

    /// Writes the changed bytes over `changed`. The place lies in the bytes or, for one put in, at their end.
    fn make(self, bytes: &[u8], changed: &mut Vec<u8>) {
        changed.clear();
        let (before, behind) = bytes.split_at(self.at().min(bytes.len()));
        changed.extend(before);
        match self {
            Change::PutIn { byte, .. } => {
                changed.push(byte);
                changed.extend(behind);
            }
            Change::TakenOut { .. } => changed.extend(behind.iter().skip(1)),
        }
    }

    /// How many bytes so many have become.
    fn length(self, before: usize) -> usize {
        match self {
            Change::PutIn { .. } => before.saturating_add(1),
            Change::TakenOut { .. } => before.saturating_sub(1),
        }
    }

    /// The byte that stands at a place after the change.
    fn byte_at(self, bytes: &[u8], place: usize) -> Option<u8> {
        let old = match self {
            Change::PutIn { at, byte } if place == at => return Some(byte),
            Change::PutIn { at, .. } if place > at => place - 1,
            Change::TakenOut { at, .. } if place >= at => place.checked_add(1)?,
            _ => place,
        };
        bytes.get(old).copied()
    }
}

/// The likeliest good neighbour of a broken head. `bytes` are all that is known of the stream from the message's first
/// byte on, also what was never taken.
pub fn neighbour(bytes: &[u8]) -> Option<Neighbour> {
    let reading = head::read(bytes);
    let Outcome::Broken(fault) = &reading.outcome else { return None };
    let front = &bytes[..bytes.len().min(MOST_TRIED)];
    let mut best: Option<(Rank, Change)> = None;
    let mut changed = Vec::with_capacity(MOST_TRIED + 1);
    for change in candidates(front, &reading.parts, fault) {
        change.make(front, &mut changed);
        let Some(head) = head::good(&changed) else { continue };
        let rank = rank(bytes, change, &head);
        if best.is_none_or(|(least, _)| rank < least) {
            best = Some((rank, change));
        }
    }
    let (_, change) = best?;
    change.make(bytes, &mut changed);
    let reading = head::read(&changed);
    Some(Neighbour { change, bytes: changed, reading })
}

/// All changes that are tried at the front of a broken head.
pub fn candidates(front: &[u8], parts: &[Part], fault: &HeadFault) -> Vec<Change> {
    let suspects = suspects(parts, fault);
    let at_place = |at: usize| changes(front, at, suspects.contains(&at));
    places(parts, &suspects).into_iter().flat_map(at_place).collect()
}

/// The deciding byte, and code, type and length of the field that has it.
fn suspects(parts: &[Part], fault: &HeadFault) -> BTreeSet<usize> {
    let holds = |part: &&Part| part.name == "code" && part.from <= fault.at;
    let field = parts.iter().rev().find(holds).map(|part| part.from);
    field.into_iter().flat_map(|from| from..from + FIELD_FRONT).chain([fault.at]).collect()
}

/// The fixed part byte by byte; where fields begin, as far as the head could be read; and the suspects. No change behind
/// these mends the head.
fn places(parts: &[Part], suspects: &BTreeSet<usize>) -> BTreeSet<usize> {
    let starts = parts.iter().filter(|part| part.name == "code").map(|part| part.from);
    (0..=FIXED).chain(starts).chain(suspects.iter().copied()).collect()
}

/// What is tried at a place: the bytes that could be good there, and to take out the one that is there. At a suspect any
/// byte could be.
fn changes(front: &[u8], at: usize, is_suspect: bool) -> Vec<Change> {
    let any = 0..=255;
    let bytes: Vec<u8> = match at {
        0 => b"lB".to_vec(),
        1 => (METHOD_CALL..=SIGNAL).collect(),
        // Of flags none can be wrong.
        2 => vec![0],
        3 => vec![1],
        4..FIXED => any.collect(),
        _ if is_suspect => any.collect(),
        _ => codes(front, at),
    };
    let put_in = bytes.into_iter().map(|byte| Change::PutIn { at, byte }).filter(|_| at <= front.len());
    let taken_out = front.get(at).map(|&byte| Change::TakenOut { at, byte });
    put_in.chain(taken_out).collect()
}

/// The codes before which the bytes from a place on could be a field. One unknown code stands for all.
fn codes(front: &[u8], at: usize) -> Vec<u8> {
    let has = |code: &u8| match field_kind(*code) {
        Some(kind) => front.get(at..at.saturating_add(2)) == Some(&[1, kind.letter]),
        None => true,
    };
    let first_unknown = FIELDS.len() as u8 + 1;
    (1..=first_unknown).filter(has).collect()
}

/// How unlikely a neighbour is, the weightiest reason first.
type Rank = (bool, u8, u8, usize, u32, usize, u8);

fn rank(bytes: &[u8], change: Change, head: &Head) -> Rank {
    let is_odd = !(METHOD_CALL..=SIGNAL).contains(&head.message_type);
    let unusual = match change {
        Change::PutIn { at: 0, byte } => u8::from(byte != b'l'),
        Change::PutIn { byte, .. } => byte,
        Change::TakenOut { .. } => 0,
    };
    let flags = match head.flags {
        0 => 0,
        1..=7 => 1,
        _ => 2,
    };
    let odd_fields = head.fields.iter().filter(|field| is_odd_field(field.code, head.message_type)).count();
    (is_odd, end_rank(bytes, change, head), flags, odd_fields, head.serial, change.at(), unusual)
}

/// Fields that are unusual in messages of a type, though the rules let them stand there.
fn is_odd_field(code: u8, message_type: u8) -> bool {
    let is_reply = message_type == METHOD_RETURN || message_type == ERROR;
    match code {
        PATH | INTERFACE | MEMBER => is_reply,
        ERROR_NAME => message_type != ERROR,
        REPLY_SERIAL => !is_reply,
        _ => field_kind(code).is_none(),
    }
}

/// 0 where the message ends with the bytes or another seems to follow, 1 where it goes on behind them, else 2.
fn end_rank(bytes: &[u8], change: Change, head: &Head) -> u8 {
    let end = head.head_length.saturating_add(head.body_length as usize);
    let length = change.length(bytes.len());
    let byte = |at: usize| change.byte_at(bytes, end.saturating_add(at));
    if end >= length {
        return u8::from(end > length);
    }
    let follows = byte(0).is_some_and(|mark| b"lB".contains(&mark))
        && byte(1).is_none_or(|kind| (METHOD_CALL..=SIGNAL).contains(&kind))
        && byte(3).is_none_or(|version| version == 1);
    if follows {
        0
    } else {
        2
    }
}

/// What was done, and the message that then stands there in the words of scripts.
pub fn sentence(neighbour: &Neighbour) -> String {
    let done = match neighbour.change {
        Change::PutIn { at, byte } => format!("with one byte put in at {at} ({byte:02x})"),
        Change::TakenOut { at, byte } => format!("with the byte at {at} ({byte:02x}) taken out"),
    };
    match &neighbour.reading.outcome {
        Outcome::Good(head) => format!("{done}, this reads as: {}", script_words(head)),
        _ => done,
    }
}

fn script_words(head: &Head) -> String {
    let numbers = [head.reply_serial, head.descriptors].map(|number| number.map(|number| number.to_string()));
    let [reply_serial, descriptors] = numbers;
    let values = [
        &head.path,
        &head.interface,
        &head.member,
        &head.error_name,
        &reply_serial,
        &head.destination,
        &head.sender,
        &head.signature,
        &descriptors,
    ];
    let mut words = vec![type_word(head.message_type)];
    for (kind, value) in FIELDS.iter().zip(values) {
        words.extend(value.as_ref().map(|value| format!("{}={value}", kind.key)));
    }
    words.join(" ")
}
