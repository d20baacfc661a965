//! A story as a line of JSON.

use super::story::{Decided, Message, Receiver, Story};
use crate::answers;
use crate::book::{Peer, Pending};
use crate::head::{Head, Outcome, Reading};
use crate::json::Json;
use crate::rules::Named;
use crate::slid::{self, Change};
use forms::capture::Call;
use forms::hex;

type Members = Vec<(&'static str, Json)>;

pub fn line(story: &Story) -> String {
    let place = &story.place;
    let mut members: Members = vec![
        ("call", Json::Number(story.number as u64)),
        ("kind", Json::text(kind(story.call))),
        ("answer", Json::Number(place.answer.into())),
        ("meaning", Json::text(answers::meaning(place.answer))),
    ];
    members.extend(story.call.peer().map(|number| ("peer", Json::Number(number.into()))));
    members.extend(story.peer.as_ref().map(|peer| ("who", who(peer))));
    match story.call {
        Call::Connect { uid, gids } => {
            members.push(("uid", Json::Number(uid.0.into())));
            members.push(("gids", Json::List(gids.iter().map(|gid| Json::Number(gid.0.into())).collect())));
            if place.answer == 0 {
                members.push(("number", Json::Number(place.value.into())));
                members.push(("slot", Json::Number(place.count.into())));
            }
        }
        Call::Own { name, .. } | Call::Release { name, .. } => {
            members.push(("name", Json::text(String::from_utf8_lossy(name))));
        }
        Call::Piece { bytes, .. } => {
            members.push(("offered", Json::Number(bytes.len() as u64)));
            members.push(("taken", Json::Number(place.taken.into())));
            members.push(("receiver", receiver(&story.receiver)));
        }
        Call::Disconnect { .. } => members.push(("bytes", Json::Number(place.value.into()))),
        Call::Tick { tick, limit } => members.extend(tick_members(story, *tick, *limit)),
        Call::Start => {}
    }
    members.extend(decided(&story.decided));
    members.push(("why", Json::texts(&story.why)));
    members.extend(story.message.as_ref().map(|message| ("message", message_of(message))));
    members.extend(story.disagreement.as_ref().map(|what| ("disagreement", Json::text(what))));
    Json::Object(members).line()
}

pub fn kind(call: &Call) -> &'static str {
    match call {
        Call::Start => "start",
        Call::Connect { .. } => "connect",
        Call::Own { .. } => "own",
        Call::Release { .. } => "release",
        Call::Piece { .. } => "piece",
        Call::Disconnect { .. } => "disconnect",
        Call::Tick { .. } => "tick",
    }
}

fn tick_members(story: &Story, tick: u64, limit: u64) -> Members {
    let wait = |pending: &Pending| {
        Json::Object(vec![
            ("caller", Json::Number(pending.wait.caller.into())),
            ("callee", Json::Number(pending.wait.callee.into())),
            ("serial", Json::Number(pending.wait.serial.into())),
            ("call", Json::Number(pending.call as u64)),
            ("age", Json::Number(pending.age(tick))),
        ])
    };
    vec![
        ("tick", Json::Number(tick)),
        ("limit", Json::Number(limit)),
        ("ended", Json::Number(story.place.value.into())),
        ("waits", Json::List(story.expired.iter().map(wait).collect())),
    ]
}

fn who(peer: &Peer) -> Json {
    Json::Object(vec![
        ("unique", Json::text(format!(":1.{}", peer.number))),
        ("slot", Json::Number(peer.slot.into())),
        ("uid", Json::Number(peer.uid.0.into())),
        ("gids", Json::List(peer.gids.iter().map(|gid| Json::Number(gid.0.into())).collect())),
        ("names", Json::texts(&peer.names)),
    ])
}

fn receiver(receiver: &Receiver) -> Json {
    match receiver {
        Receiver::Nobody => Json::text("nobody"),
        Receiver::Bus => Json::text("the bus"),
        Receiver::Peer(number) => Json::Number((*number).into()),
        Receiver::Peers(numbers) => {
            Json::List(numbers.iter().map(|number| Json::Number((*number).into())).collect())
        }
    }
}

fn decided(decided: &Decided) -> Members {
    match decided {
        Decided::NotShown => Vec::new(),
        Decided::Rule(rule) => vec![("rule", rule_of(rule))],
        Decided::Unknown(_, position) => {
            vec![("rule", Json::Object(vec![("position", Json::Number((*position).into()))]))]
        }
        Decided::NoRule(_) => vec![("rule", Json::text("none matched"))],
    }
}

fn rule_of(rule: &Named) -> Json {
    let mut members: Members = vec![
        ("section", Json::text(rule.section.word())),
        ("position", Json::Number(rule.position as u64)),
        ("text", Json::text(&rule.text)),
    ];
    if let Some((file, line)) = &rule.line {
        members.push(("file", Json::text(file)));
        members.push(("line", Json::Number(*line as u64)));
    }
    Json::Object(members)
}

fn message_of(message: &Message) -> Json {
    let mut members: Members = vec![("taken", Json::Number(message.taken))];
    match &message.reading.outcome {
        Outcome::Good(head) => members.extend(head_members(head)),
        Outcome::Unfinished { wanted } => members.push(("wanted", Json::Number(*wanted as u64))),
        Outcome::Broken(fault) => {
            members.push(("byte", Json::Number(fault.at as u64)));
            members.push(("box", Json::text(&fault.part)));
            members.push(("fault", Json::text(&fault.what)));
            members.push(("wanted", Json::text(&fault.wanted)));
        }
    }
    members.push(("boxes", boxes(&message.bytes, &message.reading)));
    if let Some(neighbour) = message.neighbour() {
        let (word, at, byte) = match neighbour.change {
            Change::PutIn { at, byte } => ("put in", at, byte),
            Change::TakenOut { at, byte } => ("taken out", at, byte),
        };
        let slid = vec![
            ("change", Json::text(word)),
            ("at", Json::Number(at as u64)),
            ("byte", Json::text(hex::show(&[byte]))),
            ("reads", Json::text(slid::sentence(&neighbour))),
            ("boxes", boxes(&neighbour.bytes, &neighbour.reading)),
        ];
        members.push(("neighbour", Json::Object(slid)));
    }
    Json::Object(members)
}

fn head_members(head: &Head) -> Members {
    let mut members: Members = vec![
        ("type", Json::text(crate::head::type_word(head.message_type))),
        ("serial", Json::Number(head.serial.into())),
        ("flags", Json::Number(head.flags.into())),
        ("body", Json::Number(head.body_length.into())),
    ];
    let texts = [
        ("path", &head.path),
        ("interface", &head.interface),
        ("member", &head.member),
        ("error", &head.error_name),
        ("destination", &head.destination),
        ("sender", &head.sender),
        ("signature", &head.signature),
    ];
    members.extend(
        texts.into_iter().filter_map(|(key, text)| text.as_ref().map(|text| (key, Json::text(text)))),
    );
    let numbers = [("reply", head.reply_serial), ("descriptors", head.descriptors)];
    members.extend(
        numbers
            .into_iter()
            .filter_map(|(key, number)| number.map(|number| (key, Json::Number(number.into())))),
    );
    members
}

fn boxes(bytes: &[u8], reading: &Reading) -> Json {
    let one = |part: &crate::head::Part| {
        Json::Object(vec![
            ("from", Json::Number(part.from as u64)),
            ("bytes", Json::text(hex::show(bytes.get(part.from..part.to).unwrap_or_default()))),
            ("box", Json::text(&part.name)),
            ("value", Json::text(&part.value)),
        ])
    };
    Json::List(reading.parts.iter().map(one).collect())
}
