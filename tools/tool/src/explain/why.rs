//! Why an answer came, in sentences: what stood in the way, and what the host knew then.

use super::ask;
use super::story::{Decided, Message, Receiver, Story};
use super::Teller;
use crate::book::{awaits, is_reply, Book, Destination, Ending, Expiry, Peer, Pending, Wait, BUS_NAME};
use crate::guard::TO_SLOTS;
use crate::head::Head;
use crate::rules::Named;
use forms::capture::Call;
use forms::names::{self, Form};
use forms::policy::Section;
use forms::policy_text::named;

/// "peer 2 (:1.2, uid 1002, owns org.theatre.Fans)".
pub fn peer_words(peer: &Peer) -> String {
    let mut words = format!("peer {} (:1.{}, uid {}", peer.number, peer.number, peer.uid.0);
    if !peer.names.is_empty() {
        words += &format!(", owns {}", peer.names.join(" "));
    }
    words + ")"
}

pub fn sentences(teller: &Teller, story: &Story) -> Vec<String> {
    match (story.call, story.place.answer) {
        (_, 50) => bad_image(teller),
        (call, 30) => vec![no_peer(&teller.book, call.peer().unwrap_or(0))],
        (Call::Connect { gids, .. }, 37) => {
            vec![format!("{} gids were given, and 16 are the most", gids.len())]
        }
        (Call::Connect { .. }, 38) => connected(&teller.book),
        (Call::Own { name, .. } | Call::Release { name, .. }, 31) => vec![not_ownable(name)],
        (Call::Own { peer, name }, _) => own(&teller.book, *peer, name, story.place.answer),
        (Call::Release { name, .. }, 35) => vec![owner_words(&teller.book, &String::from_utf8_lossy(name))],
        (Call::Disconnect { peer }, 0) => ended_waits(&teller.book, *peer),
        (Call::Piece { .. }, _) => piece(teller, story),
        (Call::Tick { tick, .. }, 0) => expired(&teller.book, story, *tick),
        (Call::Tick { tick, .. }, 41) => vec![went_back(&teller.book, *tick)],
        _ => Vec::new(),
    }
}

fn bad_image(teller: &Teller) -> Vec<String> {
    match &teller.rules.policy {
        Err(what) => vec![format!("the policy image is bad: {what}")],
        Ok(_) => Vec::new(),
    }
}

fn no_peer(book: &Book, number: u32) -> String {
    match book.left_in(number) {
        Some(call) => format!("peer {number} left in #{call}"),
        None => format!("no peer has had the number {number} yet"),
    }
}

/// Everybody who is connected, a line each.
fn connected(book: &Book) -> Vec<String> {
    if book.peers.is_empty() {
        return vec!["nobody is connected".to_string()];
    }
    let line = |peer: &Peer| format!("connected: {}", peer_words(peer));
    book.peers.iter().map(line).collect()
}

fn not_ownable(name: &[u8]) -> String {
    match names::fault(Form::WellKnown, name) {
        None if name == BUS_NAME.as_bytes() => format!("{BUS_NAME} is the bus's own name"),
        None => String::new(),
        Some(fault) => {
            let text = named(&String::from_utf8_lossy(name));
            format!("{text} is no well-known name: at its byte {} wanted {}", fault.at, fault.wanted)
        }
    }
}

fn owner_words(book: &Book, name: &str) -> String {
    match (book.owner(name), book.former_owner(name)) {
        (Some(peer), _) => format!("{} has that name", peer_words(peer)),
        (None, Some((number, call))) => format!("nobody has that name; peer {number} had it until #{call}"),
        (None, None) => "nobody has that name".to_string(),
    }
}

fn own(book: &Book, number: u32, name: &[u8], answer: u32) -> Vec<String> {
    let name = String::from_utf8_lossy(name);
    let names = book.peer(number).map(|peer| peer.names.clone()).unwrap_or_default();
    match answer {
        0 if names.iter().any(|owned| *owned == name) => vec!["the name was its own already".to_string()],
        33 => vec![owner_words(book, &name)],
        34 => vec![format!("its names are {}", names.join(" "))],
        _ => Vec::new(),
    }
}

fn ended_waits(book: &Book, number: u32) -> Vec<String> {
    let line = |pending: &Pending| format!("with it ended {}", pending_words(pending));
    let is_its = |pending: &&Pending| pending.wait.caller == number || pending.wait.callee == number;
    book.waits.iter().filter(is_its).map(line).collect()
}

/// "the wait of peer 1 for peer 2, serial 7, from #12".
pub fn pending_words(Pending { wait, call, .. }: &Pending) -> String {
    format!("the wait of peer {} for peer {}, serial {}, from #{call}", wait.caller, wait.callee, wait.serial)
}

/// What a tick ended, and how old the oldest wait is that goes on.
fn expired(book: &Book, story: &Story, now: u64) -> Vec<String> {
    let aged = |pending: &Pending| format!("{}, {} old", pending_words(pending), ticks(pending.age(now)));
    let mut lines: Vec<String> =
        story.expired.iter().map(|over| format!("so ended {}", aged(over))).collect();
    let left: Vec<&Pending> = book.waits.iter().filter(|pending| !story.expired.contains(pending)).collect();
    if let Some(oldest) = left.iter().min_by_key(|pending| pending.tick) {
        lines.push(match left.len() {
            1 => format!("one goes on: {}", aged(oldest)),
            count => format!("{count} go on, the oldest of them {}", aged(oldest)),
        });
    }
    lines
}

pub fn ticks(count: u64) -> String {
    match count {
        1 => "1 tick".to_string(),
        count => format!("{count} ticks"),
    }
}

fn went_back(book: &Book, tick: u64) -> String {
    let since = book.tick_since.map(|call| format!(" since #{call}")).unwrap_or_default();
    let back = ticks(book.tick.saturating_sub(tick));
    format!("the last tick is {}{since}: the host's clock went back by {back}", book.tick)
}

fn piece(teller: &Teller, story: &Story) -> Vec<String> {
    let book = &teller.book;
    let Some(peer) = &story.peer else { return Vec::new() };
    if let (40, Some((call, answer))) = (story.place.answer, peer.stream.closed) {
        return vec![format!(
            "the stream is closed since #{call}, whose answer was {answer}; disconnect the peer"
        )];
    }
    let Some(message) = &story.message else { return Vec::new() };
    let Some(head) = message.head() else { return unread(story, message) };
    match story.place.answer {
        0 if story.place.kind == TO_SLOTS => ask::each_receiver(teller, story),
        0 => passed(teller, story, head),
        10 => vec![unfinished(head, message)],
        21 => nobodys(book, story),
        22 | 23 => denied(teller, story, peer, head),
        24 => vec![not_awaited(book, story, peer, head)],
        25 => same_call(book, story, peer, head),
        26 => book.waits_of(peer.number).map(|pending| wait_words(book, pending)).collect(),
        _ => Vec::new(),
    }
}

/// A head that is broken, or not whole yet.
fn unread(story: &Story, message: &Message) -> Vec<String> {
    match &message.reading.outcome {
        crate::head::Outcome::Broken(fault) => {
            vec![format!("{} (byte {}): {}", fault.part, fault.at, fault.what)]
        }
        crate::head::Outcome::Unfinished { wanted } if story.place.answer == 10 => {
            vec![format!("{} bytes of the head have come, {wanted} are wanted to read on", message.taken)]
        }
        _ => Vec::new(),
    }
}

fn unfinished(head: &Head, message: &Message) -> String {
    let whole = head.head_length as u64 + u64::from(head.body_length);
    format!("{} of the message's {whole} bytes have come", message.taken)
}

fn passed(teller: &Teller, story: &Story, head: &Head) -> Vec<String> {
    if is_reply(head) {
        let Some((_, Destination::Peer(caller))) = story.destination else { return Vec::new() };
        let wait = reply_to(caller, story, head);
        return teller
            .book
            .pending(&wait)
            .map(|pending| format!("it is the reply to #{}", pending.call))
            .into_iter()
            .collect();
    }
    let mut lines: Vec<String> = ask::send_rule(teller, story).into_iter().collect();
    if awaits(head) && matches!(story.receiver, Receiver::Peer(_)) {
        lines.push("a reply is awaited".to_string());
    }
    lines
}

fn nobodys(book: &Book, story: &Story) -> Vec<String> {
    let Some((name, _)) = &story.destination else { return Vec::new() };
    let before = match book.former_owner(name) {
        Some((number, call)) => format!("; peer {number} had it until #{call}"),
        None => String::new(),
    };
    let mut lines = vec![format!("{} is nobody's{before}", named(name))];
    lines.extend(connected(book));
    lines
}

/// Beside the names two things that are easily missed: a rule may match by another name than the one addressed, and a deny
/// that names an interface takes calls that name none.
fn denied(teller: &Teller, story: &Story, sender: &Peer, head: &Head) -> Vec<String> {
    let mut lines = consulted(&teller.book, story, sender);
    let Decided::Rule(Named { section: Section::Transaction, position, .. }) = &story.decided else {
        return lines;
    };
    let policy = teller.rules.policy.as_ref().ok();
    let Some(rule) = policy.and_then(|policy| policy.transaction.get(*position)) else { return lines };
    if let (22, Some(name), Some((addressed, Destination::Peer(number)))) =
        (story.place.answer, &rule.name, &story.destination)
    {
        if name != addressed {
            lines.push(format!(
                "the rule is about {name}, which peer {number} owns: every name of it counts (rule 6.6)"
            ));
        }
    }
    if head.interface.is_none() && rule.interface.is_some() {
        lines.push(
            "the call names no interface, so a deny that names one takes it too (rule 6.8)".to_string(),
        );
    }
    lines
}

/// The names that the rules were held against: all of the other side, not only the one addressed.
fn consulted(book: &Book, story: &Story, sender: &Peer) -> Vec<String> {
    let other = match (story.place.answer, &story.destination) {
        (23, _) => Some((sender.number, sender.names.clone())),
        (_, Some((_, Destination::Peer(number)))) => {
            book.peer(*number).map(|peer| (peer.number, peer.names.clone()))
        }
        _ => None,
    };
    vec![match other {
        None => format!("names consulted: {BUS_NAME}, which is all that the bus owns"),
        Some((number, names)) if names.is_empty() => {
            format!("names consulted: none, peer {number} owns none")
        }
        Some((number, names)) => format!("names consulted: {}, all that peer {number} owns", names.join(" ")),
    }]
}

fn reply_to(caller: u32, story: &Story, head: &Head) -> Wait {
    Wait { caller, callee: story.sender(), serial: head.reply_serial.unwrap_or(0) }
}

fn not_awaited(book: &Book, story: &Story, sender: &Peer, head: &Head) -> String {
    let caller = match &story.destination {
        None => return "a reply without a destination is awaited by nobody".to_string(),
        Some((_, Destination::Bus)) => return "the bus awaits no replies".to_string(),
        Some((name, Destination::Nobody)) => return format!("its destination {} is nobody's", named(name)),
        Some((_, Destination::Peer(caller))) => *caller,
    };
    let wait = reply_to(caller, story, head);
    let what = format!("peer {caller} awaits no reply of peer {} to serial {}", sender.number, wait.serial);
    let ended = match (book.ending(&wait), book.other_callee(&wait)) {
        (Some(Ending::Replied(call)), _) => format!(": it was given in #{call}"),
        (Some(Ending::CalleeLeft(call)), _) => format!(": that wait ended in #{call}, as the callee left"),
        (Some(Ending::CallerLeft(call)), _) => format!(": that wait ended in #{call}, as the caller left"),
        (Some(Ending::Expired(expiry)), _) => format!(": that wait {}", expiry_words(&expiry)),
        (None, Some((callee, Ending::CalleeLeft(call)))) => {
            format!(": that was for peer {callee} to give, which left in #{call}")
        }
        (None, Some((callee, Ending::Expired(expiry)))) => {
            format!(": that was for peer {callee} to give, and the wait {}", expiry_words(&expiry))
        }
        (None, Some((callee, _))) => format!(": that was for peer {callee} to give"),
        (None, None) => String::new(),
    };
    let open: Vec<String> = book
        .waits_of(caller)
        .map(|Pending { wait, .. }| format!("serial {} of peer {}", wait.serial, wait.callee))
        .collect();
    let open = if open.is_empty() { "nothing".to_string() } else { open.join(", ") };
    format!("{what}{ended}; it awaits {open}")
}

fn same_call(book: &Book, story: &Story, sender: &Peer, head: &Head) -> Vec<String> {
    let Some((_, Destination::Peer(callee))) = story.destination else { return Vec::new() };
    let wait = Wait { caller: sender.number, callee, serial: head.serial };
    let line = |pending: &Pending| {
        format!("serial {} awaits its reply of peer {callee} {}", head.serial, since_words(book, pending))
    };
    book.pending(&wait).map(line).into_iter().collect()
}

fn wait_words(book: &Book, pending: &Pending) -> String {
    let Wait { callee, serial, .. } = pending.wait;
    format!("awaited: the reply of peer {callee} to serial {serial}, {}", since_words(book, pending))
}

/// Since when a reply is awaited; in ticks only where the host has a clock.
fn since_words(book: &Book, pending: &Pending) -> String {
    let ago = book.tick_since.map(|_| format!(", {} ago", ticks(pending.age(book.tick)))).unwrap_or_default();
    format!("since #{}{ago}", pending.call)
}

/// "from #12 expired in #20, at tick 1000, 30 ticks old".
pub fn expiry_words(Expiry { call, tick, began, age }: &Expiry) -> String {
    format!("from #{began} expired in #{call}, at tick {tick}, {} old", ticks(*age))
}
