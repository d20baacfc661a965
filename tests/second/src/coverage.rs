//! Counting what a set of captures reaches: answers by call, the cases of 7, 8, 9 and 50, what
//! names were refused for, what unknown header fields held, what rules that name an interface
//! did, what became of waiting calls, what ticks did to them, what was shown of the rules that
//! decided, and what batches came to.

use crate::answer::{Answer, Receiver, ANSWERS_OF_CALLS};
use crate::batch_cases;
use crate::capture::{self, Call};
use crate::decider_cases;
use crate::guard::{Guard, LentPolicy};
use crate::header::{self, required_fields, HeadFault, Header, Malformed};
use crate::image::{self, Breach};
use crate::interface_cases;
use crate::name_cases;
use crate::name_forms::Form;
use crate::replay::{run, Outcome};
use crate::stream::Step;
use crate::tick_cases::{self, Before, TickCases};
use crate::unknown_cases;
use crate::wait_cases::{self, WaitCases};
use std::collections::BTreeMap;

#[derive(Default)]
pub struct Coverage {
    answers: BTreeMap<(u32, &'static str), u64>,
    cases: BTreeMap<String, u64>,
    calls: u64,
    captures: u64,
}

fn case_of_fault(fault: HeadFault) -> Option<String> {
    match fault {
        HeadFault::Malformed(Malformed::Unknown(_)) => None,
        HeadFault::Malformed(how) => Some(format!("7 {how:?}")),
        HeadFault::BadValue(code) => Some(format!("8 field {code}")),
        HeadFault::Missing(code) => Some(format!("9 field {code}")),
        _ => None,
    }
}

fn case_of_receiver(receiver: Receiver) -> Option<&'static str> {
    match receiver {
        Receiver::Nobody => None,
        Receiver::Bus => Some("0 to the bus"),
        Receiver::Peer(_) => Some("0 to one peer"),
        Receiver::Slots(0) => Some("0 to an empty mask"),
        Receiver::Slots(u16::MAX) => Some("0 to all 16 slots"),
        Receiver::Slots(_) => Some("0 to a mask"),
    }
}

/// Every case that a good set of captures meets. Number 39 needs more connects than a
/// test can make, so it is not among the answers wanted.
fn wanted_cases() -> Vec<String> {
    let mut wanted: Vec<String> = Malformed::ALL.iter().map(|how| format!("7 {how:?}")).collect();
    wanted.extend((1..=8).map(|code| format!("8 field {code}")));
    for message_type in 1..=4 {
        wanted.extend(required_fields(message_type).iter().map(|code| format!("9 field {code}")));
    }
    wanted.extend(Breach::ALL.iter().map(|breach| format!("50 {breach:?}")));
    let receivers = ["the bus", "one peer", "an empty mask", "all 16 slots", "a mask"];
    wanted.extend(receivers.iter().map(|who| format!("0 to {who}")));
    let waits = ["begins", "ends by a reply", "ends by a disconnect", "ends by a tick"];
    wanted.extend(waits.iter().map(|what| format!("wait {what}")));
    wanted.push("bad capture".to_string());
    wanted.extend(name_cases::cases());
    wanted.extend(unknown_cases::cases());
    wanted.extend(interface_cases::CASES.iter().map(|case| case.to_string()));
    wanted.extend(wait_cases::CASES.iter().map(|case| case.to_string()));
    wanted.extend(tick_cases::CASES.iter().map(|case| case.to_string()));
    wanted.extend(decider_cases::cases());
    wanted.extend(batch_cases::cases());
    wanted
}

/// What a name was refused for, in a head or in a call about a name.
fn case_of_name(guard: &Guard, call: &Call, outcome: Outcome) -> Option<String> {
    match (call, outcome.answer()) {
        (Call::Piece { peer, .. }, Answer::BadValue) => {
            let (code, text) = header::bad_text(guard.peer(*peer)?.stream.head())?;
            name_cases::of_text(8, Form::of_field(code, &text)?, &text)
        }
        (Call::Own { name, .. } | Call::Release { name, .. }, Answer::NotAName) => {
            name_cases::of_text(31, Form::WellKnown, name)
        }
        _ => None,
    }
}

/// What an unknown field had to do with a broken head.
fn case_of_unknown(guard: &Guard, call: &Call, outcome: Outcome) -> Option<String> {
    let (Call::Piece { peer, .. }, Outcome::Piece(judged)) = (call, outcome) else { return None };
    unknown_cases::of_head(guard.peer(*peer)?.stream.head(), judged.fault?)
}

/// The message that a call is about to end, with its sender. It is read here as well, because
/// a stream forgets its message at the last byte.
fn ended_by(guard: &Guard, call: &Call) -> Option<(u32, Header)> {
    let Call::Piece { peer, bytes } = call else { return None };
    let mut stream = guard.peer(*peer)?.stream.clone();
    if stream.is_closed() {
        return None;
    }
    for &byte in bytes {
        match stream.take(byte) {
            Step::Continues => {}
            Step::Broke(_) => return None,
            Step::Ended(header) => return Some((*peer, header)),
        }
    }
    None
}

impl Coverage {
    fn count_case(&mut self, case: String) {
        *self.cases.entry(case).or_default() += 1;
    }

    fn count_cases(&mut self, cases: impl IntoIterator<Item = impl ToString>) {
        cases.into_iter().for_each(|case| self.count_case(case.to_string()));
    }

    /// Adds the calls of a capture file.
    pub fn add(&mut self, file: &[u8]) {
        let reading = capture::read(file);
        let policy = image::read(&reading.capture.image);
        if let Err(bad) = &policy {
            self.count_case(format!("50 {:?}", bad.breach));
            self.count_cases(name_cases::of_image(&reading.capture.image, bad.breach));
        }
        if !reading.is_whole {
            self.count_case("bad capture".to_string());
        }
        let mut guard = Guard::default();
        let (mut wait_cases, mut tick_cases) = (WaitCases::default(), TickCases::default());
        for call in &reading.capture.calls {
            let (waits, before) = (guard.waits().len(), Before::of(&guard));
            let message = ended_by(&guard, call);
            let is_held = decider_cases::is_held(&guard, call);
            let outcome = run(&mut guard, policy.as_ref().ok(), call);
            self.count(outcome);
            self.count_waits(outcome, waits, guard.waits().len());
            self.count_cases(wait_cases.see(call, &outcome));
            self.count_cases(tick_cases.see(&before, &guard, call, &outcome, message.as_ref()));
            self.count_cases(case_of_name(&guard, call, outcome));
            self.count_cases(case_of_unknown(&guard, call, outcome));
            let lent = policy.as_ref().ok();
            self.count_cases(TickCases::under_bad_image(&outcome).filter(|_| lent.is_none()));
            self.count_cases(decider_cases::of_call(lent, &guard, call, &outcome, message.as_ref()));
            self.count_cases(decider_cases::of_held(&outcome).filter(|_| is_held));
            if let Some((sender, header)) = message {
                self.count_cases(unknown_cases::of_message(&header));
                self.count_interfaces(&guard, lent, sender, &header, outcome);
            }
        }
        // Only a whole capture's end is shown and compared.
        if reading.is_whole {
            self.count_cases(wait_cases.at_end());
            self.count_cases(tick_cases.at_end(&guard));
        }
        self.captures += 1;
    }

    /// Adds what batches come to where the same calls are made by them.
    pub fn add_batches(&mut self, file: &[u8]) {
        self.count_cases(batch_cases::of_capture(file));
    }

    fn count(&mut self, outcome: Outcome) {
        self.calls += 1;
        *self.answers.entry((outcome.answer().number(), outcome.call_name())).or_default() += 1;
        if let Outcome::Piece(judged) = outcome {
            if let Some(case) = judged.fault.and_then(case_of_fault) {
                self.count_case(case);
            }
            if let Some(case) = case_of_receiver(judged.receiver) {
                self.count_case(case.to_string());
            }
        }
    }

    fn count_waits(&mut self, outcome: Outcome, before: usize, after: usize) {
        let case = match outcome {
            Outcome::Piece(_) if after > before => "wait begins",
            Outcome::Piece(_) if after < before => "wait ends by a reply",
            Outcome::Disconnect(_) if after < before => "wait ends by a disconnect",
            Outcome::Tick(_) if after < before => "wait ends by a tick",
            _ => return,
        };
        self.count_case(case.to_string());
    }

    fn count_interfaces(
        &mut self,
        guard: &Guard,
        policy: LentPolicy,
        sender: u32,
        message: &Header,
        outcome: Outcome,
    ) {
        let (Some(policy), Some(sender), Outcome::Piece(judged)) = (policy, guard.peer(sender), outcome)
        else {
            return;
        };
        for case in interface_cases::cases(guard, policy, sender, message, judged) {
            self.count_case(case);
        }
    }

    /// What was never met, one line each.
    pub fn never(&self) -> Vec<String> {
        let mut never = Vec::new();
        for (call, answers) in ANSWERS_OF_CALLS {
            for &answer in answers.iter().filter(|answer| **answer != 39) {
                if !self.answers.contains_key(&(answer, call)) {
                    never.push(format!("answer {answer} from {call}"));
                }
            }
        }
        never.extend(wanted_cases().into_iter().filter(|case| !self.cases.contains_key(case)));
        never
    }

    pub fn report(&self) -> String {
        let mut text = format!("{} captures, {} calls\n", self.captures, self.calls);
        let mut totals: BTreeMap<u32, (u64, String)> = BTreeMap::new();
        for ((answer, call), count) in &self.answers {
            let (total, calls) = totals.entry(*answer).or_default();
            *total += count;
            calls.push_str(&format!(" {call} {count}"));
        }
        for (answer, (total, calls)) in totals {
            text += &format!("answer {answer}: {total} ({})\n", calls.trim_start());
        }
        for (case, count) in &self.cases {
            text += &format!("case {case}: {count}\n");
        }
        text
    }
}
