//! The readable form of a policy: one rule on each line.

use crate::names::{self, Form};
use crate::policy::{
    ConnectRule, Context, Direction, Gid, MessageType, NameMatcher, OwnRule, Policy, Section,
    TransactionRule, Uid, Verdict, Who,
};

/// A fault in a text and the line that has it, counted from 1.
#[derive(Clone, Debug, PartialEq, Eq)]
pub struct TextFault {
    pub line: usize,
    pub what: String,
}

/// The words of a line that are still to be read.
struct Words<'a> {
    rest: std::str::SplitAsciiWhitespace<'a>,
}

impl<'a> Words<'a> {
    fn next(&mut self, wanted: &str) -> Result<&'a str, String> {
        self.rest.next().ok_or_else(|| format!("{wanted} is missing"))
    }

    fn number(&mut self, wanted: &str) -> Result<u32, String> {
        let word = self.next(wanted)?;
        let wrong = || format!("{wanted} must be a number up to 4294967295, not {}", named(word));
        number_of(word, 10).ok_or_else(wrong)
    }

    fn end(&mut self) -> Result<(), String> {
        match self.rest.next() {
            None => Ok(()),
            Some(word) => Err(format!("unexpected word {}", named(word))),
        }
    }
}

/// A number of digits alone: the sign that the standard library takes is none.
pub fn number_of<Number: TryFrom<u64>>(digits: &str, radix: u32) -> Option<Number> {
    let number = u64::from_str_radix(digits, radix).ok().filter(|_| !digits.starts_with('+'))?;
    Number::try_from(number).ok()
}

/// Everything behind a # is a comment.
pub fn without_comment(line: &str) -> &str {
    line.split('#').next().unwrap_or("")
}

/// A policy with the line of each rule, section by section.
#[derive(Clone, Debug, Default, PartialEq, Eq)]
pub struct PolicyText {
    pub policy: Policy,
    lines: [Vec<usize>; 3],
}

impl PolicyText {
    /// The line of a rule, counted from 1.
    pub fn line(&self, section: Section, position: usize) -> Option<usize> {
        self.lines[section as usize].get(position).copied()
    }

    /// Adds the rule of a line, where it has one.
    fn add(&mut self, number: usize, line: &str) -> Result<(), String> {
        let before = Section::ALL.map(|section| self.policy.count(section));
        parse_line(&mut self.policy, line)?;
        for section in Section::ALL {
            if self.policy.count(section) > before[section as usize] {
                self.lines[section as usize].push(number);
            }
        }
        Ok(())
    }
}

/// Reads every line. All faults are told; the policy has the rules of the good lines.
pub fn parse_all(text: &str) -> (PolicyText, Vec<TextFault>) {
    let mut policy = PolicyText::default();
    let mut faults = Vec::new();
    for (index, line) in text.lines().enumerate() {
        if let Err(what) = policy.add(index + 1, without_comment(line)) {
            faults.push(TextFault { line: index + 1, what });
        }
    }
    (policy, faults)
}

/// Reads a policy, or tells its first fault.
pub fn parse(text: &str) -> Result<PolicyText, TextFault> {
    let (policy, faults) = parse_all(text);
    match faults.into_iter().next() {
        None => Ok(policy),
        Some(fault) => Err(fault),
    }
}

fn parse_line(policy: &mut Policy, line: &str) -> Result<(), String> {
    let mut words = Words { rest: line.split_ascii_whitespace() };
    match words.rest.next() {
        None => {}
        Some("connect") => policy.connect.push(ended(parse_connect(&mut words)?, &mut words)?),
        Some("own") => policy.own.push(ended(parse_own(&mut words)?, &mut words)?),
        Some("transaction") => policy.transaction.push(ended(parse_transaction(&mut words)?, &mut words)?),
        Some(word) => {
            return Err(format!("a rule begins with connect, own or transaction, not {}", named(word)))
        }
    }
    Ok(())
}

/// A rule behind which its line has no more words.
fn ended<R>(rule: R, words: &mut Words) -> Result<R, String> {
    words.end().map(|()| rule)
}

fn parse_context(words: &mut Words) -> Result<Context, String> {
    match words.next("the context")? {
        "default" => Ok(Context::Default),
        "group" => Ok(Context::Group(Gid(words.number("the group id")?))),
        "user" => Ok(Context::User(Uid(words.number("the user id")?))),
        "mandatory" => Ok(Context::Mandatory),
        word => Err(format!("the context is default, group, user or mandatory, not {}", named(word))),
    }
}

fn parse_verdict(words: &mut Words) -> Result<Verdict, String> {
    match words.next("the verdict")? {
        "allow" => Ok(Verdict::Allow),
        "deny" => Ok(Verdict::Deny),
        word => Err(format!("the verdict is allow or deny, not {}", named(word))),
    }
}

fn parse_connect(words: &mut Words) -> Result<ConnectRule, String> {
    let context = parse_context(words)?;
    if matches!(context, Context::Group(_) | Context::User(_)) {
        return Err("a connect rule's context is default or mandatory".to_string());
    }
    let verdict = parse_verdict(words)?;
    let who = match words.next("any, uid or gid")? {
        "any" => Who::Any,
        "uid" => Who::Uid(Uid(words.number("the uid")?)),
        "gid" => Who::Gid(Gid(words.number("the gid")?)),
        word => return Err(format!("a connect rule matches any, uid or gid, not {}", named(word))),
    };
    Ok(ConnectRule { context, verdict, who })
}

fn parse_own(words: &mut Words) -> Result<OwnRule, String> {
    let context = parse_context(words)?;
    let verdict = parse_verdict(words)?;
    let name = match words.next("any, name or prefix")? {
        "any" => NameMatcher::Any,
        "name" => NameMatcher::Name(well_known(words.next("the name")?)?),
        "prefix" => NameMatcher::Prefix(well_known(words.next("the prefix")?)?),
        word => return Err(format!("an own rule matches any, name or prefix, not {}", named(word))),
    };
    Ok(OwnRule { context, verdict, name })
}

/// A word of a text for a complaint, in which nothing long or unprintable stands.
pub fn named(word: &str) -> String {
    let mut short: String =
        word.chars().take(60).map(|c| if c.is_control() { '\u{fffd}' } else { c }).collect();
    if word.chars().nth(60).is_some() {
        short.push_str("...");
    }
    short
}

fn checked(text: &str, form: Form, what: &str) -> Result<String, String> {
    match names::fault(form, text.as_bytes()) {
        None => Ok(text.to_string()),
        Some(fault) => {
            let text = if text.is_empty() { "an empty text".to_string() } else { named(text) };
            Err(format!("{text} is no {what}: at its byte {} wanted {}", fault.at, fault.wanted))
        }
    }
}

fn well_known(text: &str) -> Result<String, String> {
    checked(text, Form::WellKnown, "well-known name")
}

fn parse_transaction(words: &mut Words) -> Result<TransactionRule, String> {
    let context = parse_context(words)?;
    let verdict = parse_verdict(words)?;
    let direction = match words.next("send or receive")? {
        "send" => Direction::Send,
        "receive" => Direction::Receive,
        word => return Err(format!("the direction is send or receive, not {}", named(word))),
    };
    let message_type = match words.next("any, call or signal")? {
        "any" => None,
        "call" => Some(MessageType::Call),
        "signal" => Some(MessageType::Signal),
        word => return Err(format!("the message type is any, call or signal, not {}", named(word))),
    };
    let (name, path, interface, member) = (None, None, None, None);
    let mut rule =
        TransactionRule { context, verdict, direction, message_type, name, path, interface, member };
    for word in words.rest.by_ref() {
        parse_literal(&mut rule, word)?;
    }
    Ok(rule)
}

fn parse_literal(rule: &mut TransactionRule, word: &str) -> Result<(), String> {
    let (key, value) = word.split_once('=').ok_or_else(|| format!("unexpected word {}", named(word)))?;
    let (place, text) = match key {
        "name" => (&mut rule.name, well_known(value)?),
        "path" => (&mut rule.path, checked(value, Form::Path, "path")?),
        "interface" => (&mut rule.interface, checked(value, Form::Interface, "interface")?),
        "member" => (&mut rule.member, checked(value, Form::Member, "member")?),
        _ => return Err(format!("a literal is name, path, interface or member, not {}", named(key))),
    };
    match place.replace(text) {
        None => Ok(()),
        Some(_) => Err(format!("{key} is given twice")),
    }
}

/// The text that `parse` reads back as the same policy.
pub fn show(policy: &Policy) -> String {
    let mut text = String::new();
    for section in Section::ALL {
        for position in 0..policy.count(section) {
            text += &show_rule(policy, section, position);
            text.push('\n');
        }
    }
    text
}

/// One rule as its line, without a line's end. The policy has it.
pub fn show_rule(policy: &Policy, section: Section, position: usize) -> String {
    match section {
        Section::Connect => show_connect(&policy.connect[position]),
        Section::Own => show_own(&policy.own[position]),
        Section::Transaction => show_transaction(&policy.transaction[position]),
    }
}

fn show_connect(rule: &ConnectRule) -> String {
    let who = match rule.who {
        Who::Any => "any".to_string(),
        Who::Uid(uid) => format!("uid {}", uid.0),
        Who::Gid(gid) => format!("gid {}", gid.0),
    };
    format!("connect {} {who}", show_start(rule.context, rule.verdict))
}

fn show_own(rule: &OwnRule) -> String {
    let name = match &rule.name {
        NameMatcher::Any => "any".to_string(),
        NameMatcher::Name(name) => format!("name {name}"),
        NameMatcher::Prefix(prefix) => format!("prefix {prefix}"),
    };
    format!("own {} {name}", show_start(rule.context, rule.verdict))
}

fn show_start(context: Context, verdict: Verdict) -> String {
    let context = match context {
        Context::Default => "default".to_string(),
        Context::Group(gid) => format!("group {}", gid.0),
        Context::User(uid) => format!("user {}", uid.0),
        Context::Mandatory => "mandatory".to_string(),
    };
    match verdict {
        Verdict::Allow => context + " allow",
        Verdict::Deny => context + " deny",
    }
}

fn show_transaction(rule: &TransactionRule) -> String {
    let direction = match rule.direction {
        Direction::Send => "send",
        Direction::Receive => "receive",
    };
    let message_type = match rule.message_type {
        None => "any",
        Some(MessageType::Call) => "call",
        Some(MessageType::Signal) => "signal",
    };
    let mut text =
        format!("transaction {} {direction} {message_type}", show_start(rule.context, rule.verdict));
    let literals = [
        ("name", &rule.name),
        ("path", &rule.path),
        ("interface", &rule.interface),
        ("member", &rule.member),
    ];
    for (key, value) in literals {
        if let Some(value) = value {
            text += &format!(" {key}={value}");
        }
    }
    text
}
