//! A difference in words.

use super::world::{Made, World};
use crate::answers;
use crate::cli::Style;
use crate::explain::story::{Receiver, Story};
use crate::explain::why::{peer_words, pending_words};
use crate::explain::words::{ended_words, headline};
use crate::head;
use forms::capture::Call;
use forms::message::SIGNAL;
use forms::policy::Section;

const INDENT: &str = "     ";

/// A call that two policies judge differently, or that both judge otherwise than the capture's own.
pub fn tell(story: &Story, sides: &[(&str, &World, &Made)], style: Style) -> String {
    let mut text = format!("{:<5}{}\n", format!("#{}", story.number), style.bold(&call_words(story)));
    for (name, world, made) in sides {
        let answer = side_words(story, world, made);
        let painted = if made.place.answer == 0 { style.green(&answer) } else { style.red(&answer) };
        text += &format!("{INDENT}{name}: {painted}\n");
        for line in more_lines(story, world, made, sides) {
            text += &format!("{INDENT}{INDENT}{line}\n");
        }
    }
    text
}

/// Who asks for what; of a whole message with its head.
fn call_words(story: &Story) -> String {
    match (&story.peer, story.head()) {
        (Some(peer), Some(head)) => {
            let everybody = if head.message_type == SIGNAL { "everybody" } else { "the bus" };
            let to = head.destination.as_deref().unwrap_or(everybody);
            format!("{} {} -> {to}", peer_words(peer), head::summary(head))
        }
        _ => headline(story),
    }
}

/// The answer, who decided, and what it comes of.
fn side_words(story: &Story, world: &World, made: &Made) -> String {
    let place = &made.place;
    let section = match story.call {
        Call::Connect { .. } => Section::Connect,
        Call::Own { .. } => Section::Own,
        _ => Section::Transaction,
    };
    let because =
        world.because(story, place.answer).map(|because| format!(", {because}")).unwrap_or_default();
    format!("{}, {}{}{because}", place.answer, done_words(story.call, made), world.decided(section, place))
}

fn done_words(call: &Call, made: &Made) -> String {
    if made.place.answer != 0 {
        return answers::meaning(made.place.answer).to_string();
    }
    match (call, &made.receiver) {
        (Call::Connect { .. } | Call::Own { .. }, _) => "granted".to_string(),
        (Call::Tick { .. }, _) => ended_words(made.place.value),
        (_, Receiver::Bus) => "passed to the bus".to_string(),
        (_, Receiver::Peer(peer)) => format!("passed to peer {peer}"),
        (_, Receiver::Peers(peers)) if peers.is_empty() => "passed, and reaches nobody".to_string(),
        (_, Receiver::Peers(peers)) => {
            let numbers: Vec<String> = peers.iter().map(u32::to_string).collect();
            format!("passed to peers {}", numbers.join(" "))
        }
        (_, Receiver::Nobody) => "done".to_string(),
    }
}

/// The send rule of what passed; of a signal to everybody each peer that one side reaches and another does not; of a tick the
/// waits that ended.
fn more_lines(story: &Story, world: &World, made: &Made, sides: &[(&str, &World, &Made)]) -> Vec<String> {
    let reached: Vec<&Vec<u32>> = sides.iter().filter_map(|(_, _, made)| peers(made)).collect();
    let is_everywhere = |peer: &u32| reached.iter().all(|peers| peers.contains(peer));
    let mut differing: Vec<u32> =
        reached.iter().flat_map(|peers| peers.iter()).filter(|peer| !is_everywhere(peer)).copied().collect();
    differing.sort_unstable();
    differing.dedup();
    let each = differing.into_iter().filter(|_| peers(made).is_some());
    let sent = world.send_rule(story, made).map(|rule| format!("sent by {rule}"));
    let ended = made.expired.iter().map(pending_words);
    sent.into_iter().chain(each.filter_map(|peer| world.gets(story, peer))).chain(ended).collect()
}

fn peers(made: &Made) -> Option<&Vec<u32>> {
    match &made.receiver {
        Receiver::Peers(peers) => Some(peers),
        _ => None,
    }
}
