//! Questions to a policy, answered by the proved guard: nothing here matches a rule.
//!
//! An image is lent with each call. So peers connect and get their names under an image that allows everything, and only the
//! call that is asked about is made under the image that is asked.

use super::question::{Account, Other, Question, Transfer, BUS_NAME};
use super::turned::all_sends_denied;
use crate::answers::meaning;
use crate::cli::Fault;
use crate::guard::{Guard, Place, BY_RULE};
use forms::image;
use forms::message::{self, Message};
use forms::policy::{Context, Direction, MessageType, Policy, Section, TransactionRule, Uid, Verdict};
use forms::policy_text::{self, show_rule, PolicyText};

const OPEN: &str = "connect default allow any
own default allow any
transaction default allow send any
transaction default allow receive any";

/// The answers that can come here, as docs/ANSWERS.md has them.
const PASSED: u32 = 0;
const SEND_DENIED: u32 = 22;
const RECEIVE_DENIED: u32 = 23;
const OWN_DENIED: u32 = 32;
const CONNECT_DENIED: u32 = 36;

/// What was decided, and by which rule; none where none matched.
#[derive(Clone, Copy, Debug, PartialEq, Eq)]
struct Decision {
    is_allowed: bool,
    rule: Option<u32>,
}

/// The policy that is asked.
struct Asked<'a> {
    file: &'a str,
    text: &'a PolicyText,
    image: Vec<u8>,
}

/// The answer in lines, the question as it was understood first.
pub fn ask(file: &str, text: &PolicyText, question: &Question) -> Result<Vec<String>, Fault> {
    let image = image::write(&text.policy).map_err(|what| Fault::input(format!("{file}: {what}")))?;
    let asked = Asked { file, text, image };
    let mut lines = vec![question.to_string()];
    lines.extend(match question {
        Question::Connect(who) => asked.connect(who),
        Question::Own(who, name) => asked.own(who, name)?,
        Question::Transfer(transfer) => asked.transfer(transfer)?,
    });
    Ok(lines)
}

impl Asked<'_> {
    fn connect(&self, who: &Account) -> Vec<String> {
        let place = Guard::new().connect(&self.image, who.uid, &who.gids);
        self.plain("connect", Section::Connect, CONNECT_DENIED, place)
    }

    fn own(&self, who: &Account, name: &str) -> Result<Vec<String>, Fault> {
        let mut guard = Guard::new();
        let peer = enter(&mut guard, who, &[])?;
        let place = guard.own(&self.image, peer, name.as_bytes());
        Ok(self.plain("own", Section::Own, OWN_DENIED, place))
    }

    /// 0 and the denial show who decided (rule 8.10); any other answer comes before the policy is asked.
    fn plain(&self, what: &str, section: Section, denied: u32, place: Place) -> Vec<String> {
        match place.answer {
            answer if answer == PASSED || answer == denied => self.told(what, section, decision(place)),
            answer => vec![format!("no: the guard answers {answer}, {}", meaning(answer))],
        }
    }

    fn told(&self, what: &str, section: Section, decision: Decision) -> Vec<String> {
        let (answer, verdict) = if decision.is_allowed { ("yes", "allowed") } else { ("no", "denied") };
        let position = decision.rule.map(|position| position as usize);
        let place = position.and_then(|position| Some((position, self.text.line(section, position)?)));
        let kind = section.word();
        let Some((position, line)) = place else {
            return vec![format!("{answer}: no {kind} rule matches, so {what} is {verdict}")];
        };
        let file = if self.file == "-" { "standard input" } else { self.file };
        vec![
            format!("{answer}: {what} is {verdict} by {kind} rule {position}, {file} line {line}"),
            format!("    {}", show_rule(&self.text.policy, section, position)),
        ]
    }

    /// Both sides can be asked about where both accounts are known.
    fn transfer(&self, transfer: &Transfer) -> Result<Vec<String>, Fault> {
        let stage = Stage::set(transfer)?;
        let send = || self.send(&stage).map(|decided| self.told("send", Section::Transaction, decided));
        let receive =
            || self.receive(&stage).map(|decided| self.told("receive", Section::Transaction, decided));
        let mut lines = match (&transfer.other, transfer.direction) {
            (Other::Bus, _) => send()?,
            (Other::Peer { account: Some(_), .. }, _) => {
                [vec![self.whole(&stage)?], send()?, receive()?].concat()
            }
            (_, Direction::Send) => send()?,
            (_, Direction::Receive) => receive()?,
        };
        lines.extend(notes(transfer));
        Ok(lines)
    }

    /// What the guard answers to the message under the policy as it is.
    fn whole(&self, stage: &Stage) -> Result<String, Fault> {
        match stage.under(&self.image).answer {
            PASSED => Ok(format!("yes: the guard answers {PASSED}, passed")),
            answer @ (SEND_DENIED | RECEIVE_DENIED) => {
                Ok(format!("no: the guard answers {answer}, {}", meaning(answer)))
            }
            answer => Err(no_such_message(answer)),
        }
    }

    /// A message that passes to a peer shows the receive rule alone (rule 7.12). With every send rule turned to a deny the
    /// guard says 22 and shows the send rule: the same rules match, so the same one decides (rule 6.1).
    fn send(&self, stage: &Stage) -> Result<Decision, Fault> {
        let is_allowed = stage.under(&self.image).answer != SEND_DENIED;
        let denying = all_sends_denied(&self.image, stage.has_interface).unwrap_or_default();
        match stage.under(&denying) {
            place if place.answer == SEND_DENIED => Ok(Decision { is_allowed, ..decision(place) }),
            place => Err(no_such_message(place.answer)),
        }
    }

    /// Receive is decided where send is allowed (rule 7.7). Where everything may be sent, and receive rules are as they were
    /// and where they were, 0 and 23 show the rule that decides about receive (rule 7.12).
    fn receive(&self, stage: &Stage) -> Result<Decision, Fault> {
        match stage.under(&self.written(&with_send_allowed(&self.text.policy))?) {
            place if matches!(place.answer, PASSED | RECEIVE_DENIED) => Ok(decision(place)),
            place => Err(no_such_message(place.answer)),
        }
    }

    /// Only a policy of 512 receive rules has no room for the one about send that is put behind them.
    fn written(&self, changed: &Policy) -> Result<Vec<u8>, Fault> {
        let no_room = "nothing can be sent, and there is no room for a rule that allows it, so receive cannot be asked about";
        image::write(changed).map_err(|what| Fault::input(format!("{}: {no_room}: {what}", self.file)))
    }
}

/// What the answer depends on beside the policy.
fn notes(transfer: &Transfer) -> Vec<String> {
    let mut notes = Vec::new();
    if transfer.path.is_none() {
        notes.push("the path is /, as none was given".to_string());
    }
    if transfer.interface.is_none() {
        let bare =
            "the call has no interface: a deny that names one takes it, an allow that names one does not";
        notes.push(bare.to_string());
    }
    if let Other::Peer { account: None, .. } = transfer.other {
        let open = match transfer.direction {
            Direction::Send => "whether it is received depends on the receiver's uid and gids",
            Direction::Receive => "whether it is sent depends on the sender's uid and gids",
        };
        notes.push(format!("{open}: add \"of uid N [gid N ..]\" to ask that too"));
    }
    notes
}

fn decision(place: Place) -> Decision {
    let rule = (place.decider == BY_RULE).then_some(place.position);
    Decision { is_allowed: place.answer == PASSED, rule }
}

fn no_such_message(answer: u32) -> Fault {
    Fault::usage(format!("the guard takes no such message: it answers {answer}, {}", meaning(answer)))
}

/// Every send rule becomes one that allows everything; where there is none, one comes behind the last rule.
fn with_send_allowed(policy: &Policy) -> Policy {
    let all = TransactionRule {
        context: Context::Mandatory,
        verdict: Verdict::Allow,
        direction: Direction::Send,
        message_type: None,
        name: None,
        path: None,
        interface: None,
        member: None,
    };
    let mut policy = policy.clone();
    let is_send = |rule: &TransactionRule| rule.direction == Direction::Send;
    if !policy.transaction.iter().any(is_send) {
        policy.transaction.push(all.clone());
    }
    policy.transaction.iter_mut().filter(|rule| is_send(rule)).for_each(|rule| *rule = all.clone());
    policy
}

/// A guard in which both sides are connected and own their names, and the message that one of them is about to send.
struct Stage {
    guard: Guard,
    sender: u32,
    message: Vec<u8>,
    has_interface: bool,
}

impl Stage {
    fn set(transfer: &Transfer) -> Result<Stage, Fault> {
        let mut guard = Guard::new();
        let asker = enter(&mut guard, &transfer.who, &transfer.owning)?;
        let other = match &transfer.other {
            Other::Bus => None,
            Other::Peer { names, account } => {
                let unknown = Account { uid: Uid(0), gids: Vec::new() };
                Some(enter(&mut guard, account.as_ref().unwrap_or(&unknown), names)?)
            }
        };
        let (sender, receiver) = match (transfer.direction, other) {
            (Direction::Receive, Some(other)) => (other, Some(asker)),
            (_, other) => (asker, other),
        };
        let destination = receiver.map_or(BUS_NAME.to_string(), |number| format!(":1.{number}"));
        let message = message_to(transfer, &destination).bytes();
        Ok(Stage { guard, sender, message, has_interface: transfer.interface.is_some() })
    }

    /// The message under an image. Each time it is the first one.
    fn under(&self, image: &[u8]) -> Place {
        self.guard.clone().piece(image, self.sender, &self.message)
    }
}

/// Rules look at the names that the receiver owns and not at the one that is addressed (rule 6.6), so any address will do.
fn message_to(transfer: &Transfer, destination: &str) -> Message {
    let message_type = match transfer.message_type {
        MessageType::Call => message::METHOD_CALL,
        MessageType::Signal => message::SIGNAL,
    };
    let mut message =
        Message::new(message_type, 1).text(message::PATH, transfer.path.as_deref().unwrap_or("/"));
    if let Some(interface) = &transfer.interface {
        message = message.text(message::INTERFACE, interface);
    }
    message.text(message::MEMBER, &transfer.member).text(message::DESTINATION, destination)
}

/// Connects a peer that owns names, under an image that allows it; what the guard refuses even so cannot be.
fn enter(guard: &mut Guard, who: &Account, names: &[String]) -> Result<u32, Fault> {
    let open =
        policy_text::parse(OPEN).ok().and_then(|text| image::write(&text.policy).ok()).unwrap_or_default();
    let refused = |what: String, answer| {
        Fault::usage(format!("there is no such peer: {what} is answered {answer}, {}", meaning(answer)))
    };
    let place = guard.connect(&open, who.uid, &who.gids);
    if place.answer != PASSED {
        return Err(refused("its connect".to_string(), place.answer));
    }
    for name in names {
        let answer = guard.own(&open, place.value, name.as_bytes()).answer;
        if answer != PASSED {
            return Err(refused(format!("owning {name}"), answer));
        }
    }
    Ok(place.value)
}
