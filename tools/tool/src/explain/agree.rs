//! Holds the tool's own reading of a call to the guard's answer.

use super::story::{Receiver, Story};
use super::Teller;
use crate::answers::{is_broken, is_dropped};
use crate::book::{awaits, is_reply, Destination, Wait};
use crate::head::{Head, Outcome};
use forms::capture::Call;
use forms::message::{ByteOrder, METHOD_CALL};
use forms::names::{self, Form};

/// What the tool would have said instead, where that is not what the guard said.
pub fn difference(teller: &Teller, story: &Story) -> Option<String> {
    let answer = story.place.answer;
    if (answer == 50) != (teller.rules.policy.is_err() && takes_image(story.call)) {
        return Some(format!(
            "the guard says {answer}, this tool reads the image as {}",
            image_words(teller)
        ));
    }
    if answer == 50 {
        return None;
    }
    if (answer == 30) != (story.peer.is_none() && story.call.peer().is_some()) {
        return Some(format!("the guard says {answer}, this tool {} that peer", knows(story.peer.is_some())));
    }
    match story.call {
        Call::Own { peer, name } | Call::Release { peer, name } if answer != 30 => {
            name_difference(teller, story, *peer, name)
        }
        Call::Piece { bytes, .. } if answer != 30 => piece_difference(teller, story, bytes.len()),
        Call::Tick { tick, limit } => tick_difference(teller, story, *tick, *limit),
        _ => None,
    }
}

fn takes_image(call: &Call) -> bool {
    matches!(call, Call::Connect { .. } | Call::Own { .. } | Call::Piece { .. })
}

fn image_words(teller: &Teller) -> &'static str {
    if teller.rules.policy.is_ok() {
        "good"
    } else {
        "bad"
    }
}

fn knows(does: bool) -> &'static str {
    if does {
        "knows"
    } else {
        "does not know"
    }
}

fn name_difference(teller: &Teller, story: &Story, peer: u32, name: &[u8]) -> Option<String> {
    let answer = story.place.answer;
    let is_ownable = names::is(Form::WellKnown, name) && name != crate::book::BUS_NAME.as_bytes();
    let text = String::from_utf8_lossy(name);
    let owner = teller.book.owner(&text).map(|owner| owner.number);
    let expected = match (story.call, answer) {
        _ if !is_ownable => 31,
        (Call::Release { .. }, _) if owner == Some(peer) => 0,
        (Call::Release { .. }, _) => 35,
        // Whether the policy grants the name is the guard's to say.
        (_, 32) => 32,
        _ if owner == Some(peer) => 0,
        _ if owner.is_some() => 33,
        _ if story.peer.as_ref().is_some_and(|peer| peer.names.len() >= 4) => 34,
        _ => 0,
    };
    (answer != expected).then(|| format!("the guard says {answer}, this tool {expected}"))
}

/// Whether the clock went back, and how many waits were old enough.
fn tick_difference(teller: &Teller, story: &Story, tick: u64, limit: u64) -> Option<String> {
    let expected = match tick < teller.book.tick {
        true => (41, 0),
        false => (0, teller.book.expiring(tick, limit).len()),
    };
    let said = (story.place.answer, story.place.value as usize);
    let words = |(answer, ended): (u32, usize)| format!("{answer} with {ended} waits ended");
    (said != expected).then(|| format!("the guard says {}, this tool {}", words(said), words(expected)))
}

/// A piece's answer and the bytes taken, by the stream and the head as the tool reads them.
fn piece_difference(teller: &Teller, story: &Story, offered: usize) -> Option<String> {
    let place = &story.place;
    let is_closed = story.peer.as_ref().is_some_and(|peer| peer.stream.closed.is_some());
    if (place.answer == 40) != is_closed {
        let stream = if is_closed { "a closed stream" } else { "an open stream" };
        return Some(format!("the guard says {}, this tool reads {stream}", place.answer));
    }
    let message = story.message.as_ref()?;
    let read = match &message.reading.outcome {
        Outcome::Good(head) => match cut_difference(story, head, message.taken) {
            None if place.answer != 10 => return verdict_difference(teller, story, head),
            read => read,
        },
        Outcome::Broken(fault) => {
            let fits =
                fault.answer == place.answer && message.taken == broken_at(fault.answer, &message.bytes);
            (!fits).then(|| format!("{} at byte {}", fault.answer, fault.at))
        }
        Outcome::Unfinished { wanted } => {
            let fits = place.answer == 10 && place.taken as usize == offered;
            (!fits).then(|| format!("a head that wants {wanted} bytes"))
        }
    };
    read.map(|read| {
        format!("the guard says {} with {} taken, this tool reads {read}", place.answer, place.taken)
    })
}

/// Where a message with a good head ends.
fn cut_difference(story: &Story, head: &Head, taken: u64) -> Option<String> {
    let answer = story.place.answer;
    let whole = head.head_length as u64 + u64::from(head.body_length);
    let is_whole = answer == 0 || is_dropped(answer);
    let fits = !is_broken(answer) && is_whole == (taken == whole) && taken <= whole;
    (!fits).then(|| format!("a good head of a message of {whole} bytes, {taken} of them taken"))
}

/// 1 to 6 are found at byte 16, 7 to 9 at the end of the head.
fn broken_at(answer: u32, bytes: &[u8]) -> u64 {
    let order = bytes.first().and_then(|mark| ByteOrder::of_mark(*mark));
    match (answer, order, bytes.get(12..16)) {
        (7..=9, Some(order), Some(length)) => 16 + u64::from(order.number(length, 0)).next_multiple_of(8),
        _ => 16,
    }
}

/// What the host's book says of the receiver and of waits; whether policy lets a message pass is the guard's to say.
fn verdict_difference(teller: &Teller, story: &Story, head: &Head) -> Option<String> {
    let answer = story.place.answer;
    let expected = match (&story.destination, is_reply(head)) {
        _ if head.message_type > 4 => vec![20],
        (destination, true) => vec![if is_awaited(teller, story, head, destination) { 0 } else { 24 }],
        (Some((_, Destination::Nobody)), _) => vec![21],
        (Some((_, Destination::Peer(callee))), _) => {
            vec![22, 23, if awaits(head) { wait_answer(teller, story, head, *callee) } else { 0 }]
        }
        (Some((_, Destination::Bus)), _) => vec![0, 22],
        (None, _) if head.message_type == METHOD_CALL => vec![0, 22],
        (None, _) => vec![0],
    };
    let is_bus = head.message_type == METHOD_CALL && story.destination.is_none()
        || matches!(story.destination, Some((_, Destination::Bus))) && !is_reply(head);
    let receiver_fits = match (&story.receiver, &story.destination) {
        (Receiver::Nobody, _) => answer != 0,
        (Receiver::Bus, _) => is_bus,
        (Receiver::Peer(number), Some((_, Destination::Peer(meant)))) => number == meant,
        (Receiver::Peers(_), None) => !is_bus,
        _ => false,
    };
    match expected.contains(&answer) && receiver_fits {
        true => None,
        false => {
            Some(format!("the guard says {answer} for {:?}, this tool one of {expected:?}", story.receiver))
        }
    }
}

fn is_awaited(
    teller: &Teller,
    story: &Story,
    head: &Head,
    destination: &Option<(String, Destination)>,
) -> bool {
    let Some((_, Destination::Peer(caller))) = destination else { return false };
    let wait = Wait { caller: *caller, callee: story.sender(), serial: head.reply_serial.unwrap_or(0) };
    teller.book.pending(&wait).is_some()
}

fn wait_answer(teller: &Teller, story: &Story, head: &Head, callee: u32) -> u32 {
    let wait = Wait { caller: story.sender(), callee, serial: head.serial };
    match (teller.book.pending(&wait), teller.book.waits_of(story.sender()).count()) {
        (Some(_), _) => 25,
        (None, 16..) => 26,
        (None, _) => 0,
    }
}
