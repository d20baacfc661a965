//! What answers show of the rules: the cases that a call shows.
//!
//! The position is the answer's own. What it could be mistaken for is seen by asking the policy
//! again, about credentials and names that the call has not changed.

use crate::answer::{Answer, Receiver};
use crate::capture::Call;
use crate::guard::{Guard, Judged, LentPolicy, Peer};
use crate::header::{Header, METHOD_CALL, SIGNAL};
use crate::interface_cases::questions;
use crate::names::BUS_NAME;
use crate::policy::{
    ConnectRule, Context, Credentials, Decision, Direction, OwnRule, Policy, Question, TransactionRule,
    Verdict,
};
use crate::replay::Outcome;

const SIDES: [&str; 4] = ["connect", "own", "send", "receive"];

const FIRST: &str = "at position 0";
const LAST: &str = "at the last position of several";
const MANDATORY: &str = "by a mandatory rule";
const BEFORE_LOWER: &str = "before a later match of a lower context";
const BEHIND_ANOTHER: &str = "behind an earlier match";
/// Cases of a position in any section.
const ANYWHERE: [&str; 5] = [FIRST, LAST, MANDATORY, BEFORE_LOWER, BEHIND_ANOTHER];

const AT_255: &str = "at position 255";
const AT_511: &str = "at position 511";
const ABOVE_255: &str = "above position 255";
const BOTH_DIRECTIONS: &str = "behind rules of the other direction";
const NO_INTERFACE: &str = "by a deny with an interface, the call has none";
const OTHER_NAME: &str = "by a name that is not the first owned";
/// Cases of transactions only.
const IN_TRANSACTIONS: [&str; 5] = [AT_511, ABOVE_255, BOTH_DIRECTIONS, NO_INTERFACE, OTHER_NAME];

const HELD: &str = "shown a rule, a name held already";
const REPLY: &str = "shown nothing, a reply passed";
const BROADCAST: &str = "shown nothing, a broadcast";
/// What a pass that shows a rule was about.
const PASSED: [&str; 5] = [
    "shown a rule, a call passed to the bus",
    "shown a rule, a signal passed to the bus",
    "shown a rule, a call passed to a peer",
    "shown a rule, a call passed to a peer without a reply",
    "shown a rule, a signal passed to a peer",
];

/// The answers of each call that show a rule, those that may show that none matched, and those
/// that show nothing. Number 39 is left out, as no capture can meet it.
const SHOWN: [(&str, &str, &[u32]); 9] = [
    ("a rule", "connect", &[0, 36, 38]),
    ("a rule", "own", &[0, 32, 33, 34]),
    ("a rule", "piece", &[0, 22, 23, 25, 26]),
    ("none matched", "connect", &[36]),
    ("none matched", "own", &[32]),
    ("none matched", "piece", &[22, 23]),
    ("nothing", "connect", &[37, 50]),
    ("nothing", "own", &[30, 31, 50]),
    ("nothing", "piece", &[0, 1, 2, 3, 4, 5, 6, 7, 8, 9, 10, 20, 21, 24, 30, 40, 50]),
];

/// Messages to a peer where the two sides came to different rules, by what became of them.
const OTHER_SIDE: [&str; 6] = ["22", "23", "25", "26", "a passed call", "a passed signal"];

/// Every case; a good set of captures meets each of them often.
pub fn cases() -> Vec<String> {
    let mut cases: Vec<String> = Vec::new();
    for (shown, call, answers) in SHOWN {
        cases.extend(answers.iter().map(|answer| format!("shown {shown}, {call} {answer}")));
    }
    cases.extend(PASSED.iter().chain(&[HELD, REPLY, BROADCAST]).map(|case| case.to_string()));
    for side in SIDES {
        cases.extend(ANYWHERE.iter().map(|case| format!("decider, {side} {case}")));
    }
    cases.extend(SIDES[..2].iter().map(|side| format!("decider, {side} {AT_255}")));
    for side in &SIDES[2..] {
        cases.extend(IN_TRANSACTIONS.iter().map(|case| format!("decider, {side} {case}")));
    }
    cases.extend(OTHER_SIDE.iter().map(|what| format!("decider, the other side's is another, {what}")));
    cases
}

/// What one rule of a section was to the question asked.
struct Seen {
    context: Context,
    matches: bool,
    competes: bool,
}

/// A section as it was asked, on one of the sides.
struct Asked {
    side: &'static str,
    rules: Vec<Seen>,
}

impl Asked {
    fn connect(policy: &Policy, who: Credentials) -> Asked {
        let seen =
            |rule: &ConnectRule| Seen { context: rule.context, matches: rule.matches(who), competes: true };
        Asked { side: "connect", rules: policy.connect.iter().map(seen).collect() }
    }

    fn own(policy: &Policy, who: Credentials, name: &str) -> Asked {
        let seen =
            |rule: &OwnRule| Seen { context: rule.context, matches: rule.matches(who, name), competes: true };
        Asked { side: "own", rules: policy.own.iter().map(seen).collect() }
    }

    fn transaction(policy: &Policy, question: Question, message: &Header) -> Asked {
        let seen = |rule: &TransactionRule| Seen {
            context: rule.context,
            matches: rule.matches(question, message),
            competes: rule.direction == question.direction,
        };
        let side = if question.direction == Direction::Send { "send" } else { "receive" };
        Asked { side, rules: policy.transaction.iter().map(seen).collect() }
    }

    /// The cases of the rule at `position`, which decided.
    fn cases_at(&self, position: usize) -> Vec<String> {
        let (before, rest) = self.rules.split_at(position);
        let Some((deciding, behind)) = rest.split_first() else { return Vec::new() };
        let rank = deciding.context.rank();
        let is_transaction = SIDES[2..].contains(&self.side);
        let found = [
            (FIRST, position == 0),
            (LAST, behind.is_empty() && !before.is_empty()),
            (MANDATORY, deciding.context == Context::Mandatory),
            (BEFORE_LOWER, behind.iter().any(|rule| rule.matches && rule.context.rank() < rank)),
            (BEHIND_ANOTHER, before.iter().any(|rule| rule.matches)),
            (AT_255, position == 255 && !is_transaction),
            (AT_511, position == 511),
            (ABOVE_255, position > 255),
            (BOTH_DIRECTIONS, before.iter().any(|rule| !rule.competes)),
        ];
        let found = found.into_iter().filter(|(_, holds)| *holds);
        found.map(|(case, _)| format!("decider, {} {case}", self.side)).collect()
    }
}

/// The cases of a call, each once. `ended` is the message that a piece ended, with its sender.
pub fn of_call(
    policy: LentPolicy,
    guard: &Guard,
    call: &Call,
    outcome: &Outcome,
    ended: Option<&(u32, Header)>,
) -> Vec<String> {
    let mut cases = of_answer(outcome);
    let Some(policy) = policy else { return cases };
    match (call, outcome) {
        (Call::Connect { uid, gids }, _) => {
            cases.extend(of_rule(outcome, || Asked::connect(policy, Credentials { uid: *uid, gids })));
        }
        (Call::Own { peer, name }, _) => {
            let name = String::from_utf8_lossy(name);
            let asked = |peer: &Peer| of_rule(outcome, || Asked::own(policy, peer.credentials(), &name));
            cases.extend(guard.peer(*peer).map_or(Vec::new(), asked));
        }
        (_, Outcome::Piece(judged)) => {
            let sender = ended.and_then(|(from, message)| Some((guard.peer(*from)?, message)));
            let seen = |(from, message)| of_message(policy, guard, from, message, judged);
            cases.extend(sender.map_or(Vec::new(), seen));
        }
        _ => {}
    }
    cases
}

/// What was shown, by call and answer; calls that no policy is lent to have no such cases.
fn of_answer(outcome: &Outcome) -> Vec<String> {
    if let Outcome::Start(_) | Outcome::Release(_) | Outcome::Disconnect(_) | Outcome::Tick(_) = outcome {
        return Vec::new();
    }
    let shown = match outcome.decider() {
        None => "nothing",
        Some(Decision::Rule { .. }) => "a rule",
        Some(Decision::NoneMatched) => "none matched",
    };
    vec![format!("shown {shown}, {} {}", outcome.call_name(), outcome.answer().number())]
}

/// Whether the name that a call asks for is its peer's already.
pub fn is_held(guard: &Guard, call: &Call) -> bool {
    let Call::Own { peer, name } = call else { return false };
    guard.peer(*peer).is_some_and(|peer| peer.names.iter().any(|held| held.as_bytes() == name))
}

/// The case of a call that asks for a name held already.
pub fn of_held(outcome: &Outcome) -> Option<&'static str> {
    let shows_a_rule = outcome.decider().and_then(Decision::position).is_some();
    (outcome.answer() == Answer::Done && shows_a_rule).then_some(HELD)
}

fn of_rule(outcome: &Outcome, asked: impl Fn() -> Asked) -> Vec<String> {
    let position = outcome.decider().and_then(Decision::position);
    position.map_or(Vec::new(), |position| asked().cases_at(position))
}

fn of_message(policy: &Policy, guard: &Guard, from: &Peer, message: &Header, judged: &Judged) -> Vec<String> {
    let mut cases: Vec<String> = of_pass(message, judged).map(str::to_string).into_iter().collect();
    let bus = [BUS_NAME.to_string()];
    let questions = questions(guard, &bus, from, message);
    let (Some(decision), Some((_, first)), last) = (judged.decider, questions.first(), questions.last())
    else {
        return cases;
    };
    let shows_send = judged.answer == Answer::SendDenied || judged.receiver == Receiver::Bus;
    let question = if shows_send { *first } else { last.map_or(*first, |(_, receive)| *receive) };
    if let Some(position) = decision.position() {
        let asked = Asked::transaction(policy, question, message);
        cases.extend(asked.cases_at(position));
        let special = of_match(&policy.transaction[position], question, message);
        cases.extend(special.map(|case| format!("decider, {} {case}", asked.side)));
    }
    let other = questions.iter().find(|(_, other)| other.direction != question.direction);
    if other.is_some_and(|(_, other)| policy.transaction(*other, message) != decision) {
        cases.push(format!("decider, the other side's is another, {}", fate(message, judged)));
    }
    cases
}

/// The kind of message that passed, as far as it has a case.
fn of_pass(message: &Header, judged: &Judged) -> Option<&'static str> {
    if judged.answer != Answer::Done {
        return None;
    }
    match (message.fixed.message_type, judged.receiver, judged.decider) {
        (METHOD_CALL, Receiver::Bus, Some(_)) => Some(PASSED[0]),
        (SIGNAL, Receiver::Bus, Some(_)) => Some(PASSED[1]),
        (METHOD_CALL, Receiver::Peer(_), Some(_)) if message.fixed.expects_reply() => Some(PASSED[2]),
        (METHOD_CALL, Receiver::Peer(_), Some(_)) => Some(PASSED[3]),
        (SIGNAL, Receiver::Peer(_), Some(_)) => Some(PASSED[4]),
        (SIGNAL, Receiver::Slots(_), None) => Some(BROADCAST),
        (_, Receiver::Peer(_), None) => Some(REPLY),
        _ => None,
    }
}

/// What is special in how the rule matched.
fn of_match<'a>(
    rule: &'a TransactionRule,
    question: Question<'a>,
    message: &'a Header,
) -> impl Iterator<Item = &'static str> + 'a {
    let no_interface =
        rule.verdict == Verdict::Deny && rule.interface.is_some() && message.interface.is_none();
    let other_name = rule.name.is_some() && rule.name.as_ref() != question.names.first();
    [no_interface.then_some(NO_INTERFACE), other_name.then_some(OTHER_NAME)].into_iter().flatten()
}

fn fate(message: &Header, judged: &Judged) -> String {
    match (judged.answer, message.fixed.message_type) {
        (Answer::Done, METHOD_CALL) => "a passed call".to_string(),
        (Answer::Done, _) => "a passed signal".to_string(),
        (answer, _) => answer.number().to_string(),
    }
}
