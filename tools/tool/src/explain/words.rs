//! A story as lines for a person.

use super::story::{Decided, Receiver, Story};
use super::why::{peer_words, ticks};
use crate::answers::{self, is_broken};
use crate::book::Destination;
use crate::cli::Style;
use crate::draw::terminal;
use crate::head::{self, Outcome};
use forms::capture::Call;
use forms::policy_text::named;

/// What is drawn beside the sentences.
#[derive(Clone, Copy, Debug, PartialEq, Eq)]
pub enum Boxes {
    /// Broken heads only.
    Broken,
    /// Every head.
    All,
}

const INDENT: &str = "     ";

/// The call in a few lines, with an empty line behind them.
pub fn tell(story: &Story, boxes: Boxes, style: Style) -> String {
    let mut lines = vec![format!("{:<4} {}", format!("#{}", story.number), style.bold(&headline(story)))];
    lines.extend(sentences(story, style).into_iter().map(|line| format!("{INDENT}{line}")));
    if boxes == Boxes::All {
        lines.extend(advice(story).map(|line| format!("{INDENT}{}", style.faint(&line))));
    }
    let mut text = lines.join("\n") + "\n";
    if let Some(drawn) = drawing(story, boxes, style) {
        text.push('\n');
        text += &indented(&drawn);
    }
    if let Some(difference) = &story.disagreement {
        text += &format!("{INDENT}{}\n", style.red(&format!("DISAGREEMENT: {difference}")));
    }
    text + "\n"
}

fn indented(text: &str) -> String {
    let line = |line: &str| if line.is_empty() { "\n".to_string() } else { format!("{INDENT}{line}\n") };
    text.lines().map(line).collect()
}

/// Who asks for what.
pub fn headline(story: &Story) -> String {
    let peer = || match &story.peer {
        Some(peer) => peer_words(peer),
        None => format!("peer {}", story.sender()),
    };
    match story.call {
        Call::Start => "the guard starts, empty".to_string(),
        Call::Connect { uid, gids } if gids.is_empty() => format!("uid {} connects", uid.0),
        Call::Connect { uid, gids } => {
            let shown: Vec<String> = gids.iter().take(20).map(|gid| gid.0.to_string()).collect();
            let more = if gids.len() > 20 { " .." } else { "" };
            format!("uid {}, gids {}{more}, connects", uid.0, shown.join(" "))
        }
        Call::Own { name, .. } => format!("{} asks for the name {}", peer(), name_words(name)),
        Call::Release { name, .. } => format!("{} gives up the name {}", peer(), name_words(name)),
        Call::Piece { bytes, .. } => match &story.destination {
            Some((name, means)) => format!("{} -> {}", peer(), destination_words(name, *means)),
            None => format!("{}{}, {} bytes", peer(), unaddressed(story), bytes.len()),
        },
        Call::Disconnect { .. } => format!("{} leaves", peer()),
        Call::Tick { tick, limit: 0 } => format!("tick {tick}: all waits are to end"),
        Call::Tick { tick, limit } => {
            format!("tick {tick}: waits of {} and more are to end", ticks(*limit))
        }
    }
}

/// Where a whole message without a destination goes.
fn unaddressed(story: &Story) -> &'static str {
    match story.receiver {
        Receiver::Bus => " -> the bus",
        Receiver::Peers(_) => " -> everybody",
        _ => "",
    }
}

fn name_words(name: &[u8]) -> String {
    match name {
        [] => "(no name)".to_string(),
        name => named(&String::from_utf8_lossy(name)),
    }
}

fn destination_words(name: &str, means: Destination) -> String {
    match means {
        Destination::Bus => "the bus".to_string(),
        Destination::Peer(number) => format!("{name}, peer {number}"),
        Destination::Nobody => format!("{name}, nobody"),
    }
}

/// The lines under the headline: the message, the answer, the rule, and why.
pub fn sentences(story: &Story, style: Style) -> Vec<String> {
    let mut lines: Vec<String> = story.head().map(head::summary).into_iter().collect();
    let answer = answer_line(story);
    lines.push(match story.place.answer {
        0 => style.green(&answer),
        10 => answer,
        _ => style.red(&answer),
    });
    if let Decided::Rule(rule) = &story.decided {
        lines.push(format!("  {}", rule.text));
    }
    lines.extend(story.why.iter().cloned());
    lines
}

/// Where a person who asks about one refusal looks next, in the words of docs/ANSWERS.md.
fn advice(story: &Story) -> Option<String> {
    let answer = answers::find(story.place.answer).filter(|_| story.is_refused())?;
    Some(format!("rule {}; look at: {}", answer.rule, answer.look_at))
}

/// "22, send denied, by transaction rule 8, theatre.policy line 37; 128 bytes taken".
fn answer_line(story: &Story) -> String {
    let mut line = format!("{}, {}", story.place.answer, done_words(story));
    line += &match &story.decided {
        Decided::NotShown => String::new(),
        Decided::Rule(rule) => format!(", by {}", rule.place()),
        Decided::Unknown(section, position) => format!(", by {} rule {position}", section.word()),
        Decided::NoRule(section) => format!(": no {} rule matched", section.word()),
    };
    if let Call::Piece { bytes, .. } = story.call {
        line += &taken_words(story, bytes.len());
    }
    line
}

/// How many bytes were taken of a piece, and what became of the stream.
fn taken_words(story: &Story, offered: usize) -> String {
    let taken = story.place.taken;
    let of = if taken as usize == offered { String::new() } else { format!(" of {offered}") };
    let closed = if is_broken(story.place.answer) { ", the stream is closed" } else { "" };
    format!("; {taken}{of} bytes taken{closed}")
}

/// What an answer came to; where it is not 0, in the words of docs/ANSWERS.md.
fn done_words(story: &Story) -> String {
    let place = &story.place;
    if place.answer != 0 {
        return answers::meaning(place.answer).to_string();
    }
    match (story.call, &story.receiver) {
        (Call::Connect { .. }, _) => format!("peer {} in slot {}", place.value, place.count),
        (Call::Disconnect { .. }, _) if place.value > 0 => {
            format!("gone, with {} bytes of an unfinished or broken message", place.value)
        }
        (Call::Disconnect { .. }, _) => "gone".to_string(),
        (Call::Tick { .. }, _) => ended_words(place.value),
        (_, Receiver::Bus) => "passed to the bus".to_string(),
        (_, Receiver::Peer(number)) => format!("passed to peer {number}"),
        (_, Receiver::Peers(peers)) if peers.is_empty() => "passed, and reaches nobody".to_string(),
        (_, Receiver::Peers(peers)) => {
            let numbers: Vec<String> = peers.iter().map(u32::to_string).collect();
            format!("passed to peers {}", numbers.join(" "))
        }
        _ => "done".to_string(),
    }
}

/// How many waits a tick ended.
pub fn ended_words(count: u32) -> String {
    match count {
        0 => "no wait ended".to_string(),
        1 => "1 wait ended".to_string(),
        count => format!("{count} waits ended"),
    }
}

fn drawing(story: &Story, boxes: Boxes, style: Style) -> Option<String> {
    let message = story.message.as_ref()?;
    let narrow = Style { width: style.width.saturating_sub(INDENT.len()), ..style };
    match &message.reading.outcome {
        Outcome::Broken(_) => Some(match message.neighbour() {
            Some(neighbour) => terminal::slid(&message.bytes, &message.reading, &neighbour, narrow),
            None => terminal::head(&message.bytes, &message.reading, narrow),
        }),
        Outcome::Good(_) if boxes == Boxes::All && story.place.answer != 10 => {
            Some(terminal::head(&message.bytes, &message.reading, narrow))
        }
        Outcome::Unfinished { .. } if boxes == Boxes::All => {
            Some(terminal::head(&message.bytes, &message.reading, narrow))
        }
        _ => None,
    }
}
