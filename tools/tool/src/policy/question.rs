//! Questions to a policy, in words.

use forms::names::{self, Form};
use forms::policy::{Direction, Gid, MessageType, Uid};
use forms::policy_text::{named, number_of};
use std::fmt;

/// The name that means the bus.
pub const BUS_NAME: &str = "org.freedesktop.DBus";

/// Who a peer is to a policy.
#[derive(Clone, Debug, PartialEq, Eq)]
pub struct Account {
    pub uid: Uid,
    pub gids: Vec<Gid>,
}

/// The other side of a message.
#[derive(Clone, Debug, PartialEq, Eq)]
pub enum Other {
    Bus,
    /// A peer with the names that it owns. Without an account only one direction can be asked about.
    Peer {
        names: Vec<String>,
        account: Option<Account>,
    },
}

/// A message that the one who asks sends or receives.
#[derive(Clone, Debug, PartialEq, Eq)]
pub struct Transfer {
    pub direction: Direction,
    pub who: Account,
    /// The names of the one who asks.
    pub owning: Vec<String>,
    pub message_type: MessageType,
    pub interface: Option<String>,
    pub member: String,
    pub path: Option<String>,
    pub other: Other,
}

#[derive(Clone, Debug, PartialEq, Eq)]
pub enum Question {
    Connect(Account),
    Own(Account, String),
    Transfer(Transfer),
}

/// Reads a question, or tells what was expected.
pub fn parse(words: &[String]) -> Result<Question, String> {
    let text = words.join(" ");
    let text = text.trim_end_matches(|end: char| end == '?' || end.is_whitespace());
    let mut words = Words { rest: text.split_whitespace().collect::<Vec<_>>().into_iter().peekable() };
    words.skip("may");
    let who = words.account()?;
    let owning = if words.skip("owning") { words.names("a name behind owning")? } else { Vec::new() };
    let question = match words.next("connect, own, send or receive")? {
        "connect" | "own" if !owning.is_empty() => return Err("owning goes with send or receive".to_string()),
        "connect" => Question::Connect(who),
        "own" => Question::Own(who, words.next("the name to own")?.to_string()),
        "send" => Question::Transfer(words.transfer(Direction::Send, who, owning)?),
        "receive" => Question::Transfer(words.transfer(Direction::Receive, who, owning)?),
        word => return Err(expected("connect, own, send or receive", word)),
    };
    match words.rest.next() {
        None => Ok(question),
        Some(word) => Err(expected("the end of the question", word)),
    }
}

fn expected(wanted: &str, word: &str) -> String {
    format!("expected {wanted}, not {}", named(word))
}

fn checked(text: &str, form: Form, what: &str) -> Result<String, String> {
    match names::fault(form, text.as_bytes()) {
        None => Ok(text.to_string()),
        Some(fault) => Err(format!(
            "expected {what}, not {}: at its byte {} wanted {}",
            named(text),
            fault.at,
            fault.wanted
        )),
    }
}

/// What comes behind the member, in any order.
#[derive(Default)]
struct Clauses {
    path: Option<String>,
    to: Option<Other>,
    account: Option<Account>,
}

impl Clauses {
    /// The account belongs to the peer that was named.
    fn other(self, preposition: &str) -> Result<Other, String> {
        match (self.to, self.account) {
            (None, _) => Err(format!("expected {preposition} and a name, and the question ends")),
            (Some(Other::Bus), Some(_)) => Err("the bus has no uid".to_string()),
            (Some(Other::Bus), None) => Ok(Other::Bus),
            (Some(Other::Peer { names, .. }), account) => Ok(Other::Peer { names, account }),
        }
    }
}

/// The words that are still to be read.
struct Words<'a> {
    rest: std::iter::Peekable<std::vec::IntoIter<&'a str>>,
}

impl<'a> Words<'a> {
    fn next(&mut self, wanted: &str) -> Result<&'a str, String> {
        self.rest.next().ok_or_else(|| format!("expected {wanted}, and the question ends"))
    }

    /// Passes over a word where it is the next one.
    fn skip(&mut self, word: &str) -> bool {
        self.rest.next_if_eq(&word).is_some()
    }

    fn number(&mut self, wanted: &str) -> Result<u32, String> {
        let word = self.next(wanted)?;
        number_of(word, 10).ok_or_else(|| expected(wanted, word))
    }

    fn account(&mut self) -> Result<Account, String> {
        match self.next("uid and a number")? {
            "uid" => {}
            word => return Err(expected("uid and a number", word)),
        }
        let uid = Uid(self.number("the number of the uid")?);
        let mut gids = Vec::new();
        while self.skip("gid") {
            gids.push(Gid(self.number("the number of the gid")?));
            while self.rest.peek().is_some_and(|word| word.starts_with(|first: char| first.is_ascii_digit()))
            {
                gids.push(Gid(self.number("the number of the gid")?));
            }
        }
        Ok(Account { uid, gids })
    }

    /// At least one name. A word without a dot is none, and ends them.
    fn names(&mut self, wanted: &str) -> Result<Vec<String>, String> {
        let mut names = Vec::new();
        while let Some(word) = self.rest.next_if(|word| word.contains('.')) {
            names.push(checked(word, Form::WellKnown, "a well-known name")?);
        }
        match names.is_empty() {
            true => Err(expected(wanted, self.next(wanted)?)),
            false => Ok(names),
        }
    }

    fn transfer(
        &mut self,
        direction: Direction,
        who: Account,
        owning: Vec<String>,
    ) -> Result<Transfer, String> {
        let message_type = match self.next("call or signal")? {
            "call" => MessageType::Call,
            "signal" => MessageType::Signal,
            word => return Err(expected("call or signal", word)),
        };
        let (interface, member) = self.member(message_type)?;
        let preposition = preposition(direction);
        let clauses = self.clauses(preposition)?;
        let path = clauses.path.clone();
        let other = clauses.other(preposition)?;
        Ok(Transfer { direction, who, owning, message_type, interface, member, path, other })
    }

    /// The last element is the member, all before it the interface. Only a call can be without one.
    fn member(&mut self, message_type: MessageType) -> Result<(Option<String>, String), String> {
        let word = self.next("INTERFACE.MEMBER or MEMBER")?;
        let (interface, member) = match word.rsplit_once('.') {
            Some((interface, member)) => (Some(checked(interface, Form::Interface, "an interface")?), member),
            None if message_type == MessageType::Signal => {
                return Err(expected("INTERFACE.MEMBER of a signal", word));
            }
            None => (None, word),
        };
        Ok((interface, checked(member, Form::Member, "a member")?))
    }

    fn clauses(&mut self, preposition: &str) -> Result<Clauses, String> {
        let mut clauses = Clauses::default();
        while let Some(word) = self.rest.next() {
            let is_first = match word {
                "at" => {
                    let path = checked(self.next("a path")?, Form::Path, "a path")?;
                    clauses.path.replace(path).is_none()
                }
                "of" => clauses.account.replace(self.account()?).is_none(),
                word if word == preposition => clauses.to.replace(self.other(preposition)?).is_none(),
                word => return Err(expected(&format!("at, {preposition} or of"), word)),
            };
            if !is_first {
                return Err(format!("{word} is given twice"));
            }
        }
        Ok(clauses)
    }

    /// `nobody` for a peer that owns no name, or names, or of a receiver `the bus`.
    fn other(&mut self, preposition: &str) -> Result<Other, String> {
        let peer = |names| Other::Peer { names, account: None };
        if self.skip("nobody") {
            return Ok(peer(Vec::new()));
        }
        if preposition != "to" {
            return self.names("a name or nobody").map(peer);
        }
        if self.skip("the") {
            return match self.next("bus")? {
                "bus" => Ok(Other::Bus),
                word => Err(expected("bus", word)),
            };
        }
        let names = self.names("a name, nobody or the bus")?;
        Ok(if names == [BUS_NAME] { Other::Bus } else { peer(names) })
    }
}

fn preposition(direction: Direction) -> &'static str {
    match direction {
        Direction::Send => "to",
        Direction::Receive => "from",
    }
}

impl fmt::Display for Account {
    fn fmt(&self, f: &mut fmt::Formatter) -> fmt::Result {
        write!(f, "uid {}", self.uid.0)?;
        if !self.gids.is_empty() {
            f.write_str(" gid")?;
        }
        self.gids.iter().try_for_each(|gid| write!(f, " {}", gid.0))
    }
}

/// The question in full, as it can be asked again.
impl fmt::Display for Question {
    fn fmt(&self, f: &mut fmt::Formatter) -> fmt::Result {
        match self {
            Question::Connect(who) => write!(f, "may {who} connect?"),
            Question::Own(who, name) => write!(f, "may {who} own {}?", named(name)),
            Question::Transfer(transfer) => write!(f, "may {transfer}?"),
        }
    }
}

impl fmt::Display for Transfer {
    fn fmt(&self, f: &mut fmt::Formatter) -> fmt::Result {
        write!(f, "{}", self.who)?;
        if !self.owning.is_empty() {
            write!(f, " owning {}", self.owning.join(" "))?;
        }
        let verb = match self.direction {
            Direction::Send => "send",
            Direction::Receive => "receive",
        };
        let kind = match self.message_type {
            MessageType::Call => "call",
            MessageType::Signal => "signal",
        };
        write!(f, " {verb} {kind} ")?;
        if let Some(interface) = &self.interface {
            write!(f, "{interface}.")?;
        }
        write!(f, "{} at {}", self.member, self.path.as_deref().unwrap_or("/"))?;
        match &self.other {
            Other::Bus => f.write_str(" to the bus"),
            Other::Peer { names, account } => {
                let names = if names.is_empty() { "nobody".to_string() } else { names.join(" ") };
                write!(f, " {} {names}", preposition(self.direction))?;
                account.iter().try_for_each(|account| write!(f, " of {account}"))
            }
        }
    }
}
