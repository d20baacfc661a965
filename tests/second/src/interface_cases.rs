//! Messages under rules that name an interface: the cases that a judged message shows.
//!
//! An answer shows one side's rule at most. So the policy is asked again about the message just
//! judged, which changed neither peers nor names.

use crate::answer::Answer;
use crate::guard::{Guard, Judged, Peer};
use crate::header::{Header, METHOD_CALL, SIGNAL};
use crate::names::BUS_NAME;
use crate::policy::{precedence, Context, Direction, Policy, Question, TransactionRule, Verdict};

/// Every case; a good set of captures meets each of them often.
pub const CASES: [&str; 13] = [
    "interface absent, denied to a peer",
    "interface absent, denied to the bus",
    "interface absent, denied on receipt",
    "interface absent, allow skipped to a peer",
    "interface absent, allow skipped to the bus",
    "interface absent, allow skipped on receipt",
    "interface absent, passed a deny of another subject",
    "interface absent, passed a deny of another type",
    "interface absent, passed a deny of another name",
    "interface absent, passed a deny of another path",
    "interface absent, passed a deny of another member",
    "interface present, call passed a deny of another",
    "interface present, signal passed a deny of another",
];

/// Makes one part of a rule any.
type Widen = fn(&mut TransactionRule);

const WIDEN_INTERFACE: Widen = |rule| rule.interface = None;
const WIDEN_OTHER_PART: [(&str, Widen); 5] = [
    ("subject", |rule| rule.context = Context::Default),
    ("type", |rule| rule.message_type = None),
    ("name", |rule| rule.name = None),
    ("path", |rule| rule.path = None),
    ("member", |rule| rule.member = None),
];

/// One side that was asked about a message.
struct Asked<'a> {
    policy: &'a Policy,
    message: &'a Header,
    question: Question<'a>,
    side: &'static str,
}

impl Asked<'_> {
    fn deciding(&self) -> Option<usize> {
        self.policy.transaction(self.question, self.message).position()
    }

    fn allows(&self) -> bool {
        self.policy.transaction(self.question, self.message).allows()
    }

    /// The deciding rule names an interface.
    fn is_decided_by_an_interface(&self) -> bool {
        self.deciding().is_some_and(|place| self.policy.transaction[place].interface.is_some())
    }

    /// A rule that names an interface and does not match would turn the verdict round if
    /// one part of it were any.
    fn would_turn(&self, part: Widen) -> bool {
        let rules = &self.policy.transaction;
        let deciding = self.deciding();
        let verdict = deciding.map_or(Verdict::Deny, |place| rules[place].verdict);
        let rank = |place: usize| precedence(rules[place].context, place);
        rules.iter().enumerate().any(|(place, rule)| {
            rule.interface.is_some()
                && rule.verdict != verdict
                && deciding.is_none_or(|deciding| rank(place) > rank(deciding))
                && self.matches_when_wider(rule, part)
        })
    }

    fn matches_when_wider(&self, rule: &TransactionRule, part: Widen) -> bool {
        let mut wider = rule.clone();
        part(&mut wider);
        wider.matches(self.question, self.message)
    }
}

/// The cases that a message from `sender` shows, each once.
pub fn cases(guard: &Guard, policy: &Policy, sender: &Peer, message: &Header, judged: Judged) -> Vec<String> {
    let bus = [BUS_NAME.to_string()];
    let ask = |(side, question)| Asked { policy, message, question, side };
    let asked: Vec<Asked> = questions(guard, &bus, sender, message).into_iter().map(ask).collect();
    match (judged.answer, asked.as_slice()) {
        (Answer::SendDenied, [send, later @ ..]) if message.interface.is_none() => refused(send, later),
        (Answer::ReceiveDenied, [_, receive]) if message.interface.is_none() => refused(receive, &[]),
        (Answer::Done, sides) if message.interface.is_none() => passed_without(sides),
        (Answer::Done, sides) => passed_with(sides, message.fixed.message_type),
        _ => Vec::new(),
    }
}

/// What the rules are asked about a message to the bus or to one peer, in order. Broadcasts
/// are left out: they are never without an interface, and never refused.
pub fn questions<'a>(
    guard: &'a Guard,
    bus: &'a [String],
    sender: &'a Peer,
    message: &Header,
) -> Vec<(&'static str, Question<'a>)> {
    let send = |names| Question { direction: Direction::Send, who: sender.credentials(), names };
    let to_peer = |to: &'a Peer| {
        let receive = Question { direction: Direction::Receive, who: to.credentials(), names: &sender.names };
        vec![("to a peer", send(&to.names)), ("on receipt", receive)]
    };
    match (message.fixed.message_type, message.destination.as_deref()) {
        (METHOD_CALL, None) | (METHOD_CALL | SIGNAL, Some(BUS_NAME)) => vec![("to the bus", send(bus))],
        (METHOD_CALL | SIGNAL, Some(name)) => guard.resolve(name).map_or(Vec::new(), to_peer),
        _ => Vec::new(),
    }
}

/// A call without an interface that one side refused; the sides after it were not asked.
fn refused(by: &Asked, later: &[Asked]) -> Vec<String> {
    let mut cases = Vec::new();
    if by.is_decided_by_an_interface() {
        cases.push(format!("interface absent, denied {}", by.side));
    }
    // An allow is missed only where the call would have passed with it.
    if by.would_turn(WIDEN_INTERFACE) && later.iter().all(Asked::allows) {
        cases.push(format!("interface absent, allow skipped {}", by.side));
    }
    cases
}

fn passed_without(sides: &[Asked]) -> Vec<String> {
    let spares = |part: Widen| sides.iter().any(|side| side.would_turn(part));
    let sparing = WIDEN_OTHER_PART.iter().filter(|(_, part)| spares(*part));
    sparing.map(|(name, _)| format!("interface absent, passed a deny of another {name}")).collect()
}

fn passed_with(sides: &[Asked], message_type: u8) -> Vec<String> {
    let kind = if message_type == METHOD_CALL { "call" } else { "signal" };
    match sides.iter().any(|side| side.would_turn(WIDEN_INTERFACE)) {
        true => vec![format!("interface present, {kind} passed a deny of another")],
        false => Vec::new(),
    }
}
