//! Policy rules as plain values, and which of them decides.

use crate::header::Header;

/// User ids and group ids are both 32-bit and must never be taken for each other.
#[derive(Clone, Copy, Debug, PartialEq, Eq)]
pub struct Uid(pub u32);

#[derive(Clone, Copy, Debug, PartialEq, Eq)]
pub struct Gid(pub u32);

/// Whose credentials a rule is tested against.
#[derive(Clone, Copy)]
pub struct Credentials<'a> {
    pub uid: Uid,
    pub gids: &'a [Gid],
}

/// The context of a rule together with its subject.
#[derive(Clone, Copy, Debug, PartialEq, Eq)]
pub enum Context {
    Default,
    Group(Gid),
    User(Uid),
    Mandatory,
}

impl Context {
    /// Higher contexts win.
    pub fn rank(self) -> u8 {
        match self {
            Context::Default => 0,
            Context::Group(_) => 1,
            Context::User(_) => 2,
            Context::Mandatory => 3,
        }
    }

    pub fn fits(self, who: Credentials) -> bool {
        match self {
            Context::Default | Context::Mandatory => true,
            Context::Group(gid) => who.gids.contains(&gid),
            Context::User(uid) => who.uid == uid,
        }
    }
}

#[derive(Clone, Copy, Debug, PartialEq, Eq)]
pub enum Verdict {
    Deny,
    Allow,
}

#[derive(Clone, Copy, Debug, PartialEq, Eq)]
pub enum Who {
    Any,
    Uid(Uid),
    Gid(Gid),
}

#[derive(Clone, Debug, PartialEq, Eq)]
pub struct ConnectRule {
    pub context: Context,
    pub verdict: Verdict,
    pub who: Who,
}

#[derive(Clone, Debug, PartialEq, Eq)]
pub enum NameMatcher {
    Any,
    Name(String),
    Prefix(String),
}

#[derive(Clone, Debug, PartialEq, Eq)]
pub struct OwnRule {
    pub context: Context,
    pub verdict: Verdict,
    pub name: NameMatcher,
}

#[derive(Clone, Copy, Debug, PartialEq, Eq)]
pub enum Direction {
    Send,
    Receive,
}

/// In the last five places `None` stands for any.
#[derive(Clone, Debug, PartialEq, Eq)]
pub struct TransactionRule {
    pub context: Context,
    pub verdict: Verdict,
    pub direction: Direction,
    pub message_type: Option<u8>,
    pub name: Option<String>,
    pub path: Option<String>,
    pub interface: Option<String>,
    pub member: Option<String>,
}

#[derive(Clone, Debug, Default, PartialEq, Eq)]
pub struct Policy {
    pub connect: Vec<ConnectRule>,
    pub own: Vec<OwnRule>,
    pub transaction: Vec<TransactionRule>,
}

/// One question to the transaction rules: may this side let a message through? `who` are
/// the sender's credentials in send and the receiver's in receive; `names` are those that
/// the other side owns.
#[derive(Clone, Copy)]
pub struct Question<'a> {
    pub direction: Direction,
    pub who: Credentials<'a>,
    pub names: &'a [String],
}

/// What the search in one section came to. A position counts from 0 in the whole section, so
/// that of a transaction counts the rules of both directions.
#[derive(Clone, Copy, Debug, PartialEq, Eq)]
pub enum Decision {
    Rule { position: usize, verdict: Verdict },
    NoneMatched,
}

impl Decision {
    /// No matching rule means deny.
    pub fn allows(self) -> bool {
        matches!(self, Decision::Rule { verdict: Verdict::Allow, .. })
    }

    pub fn position(self) -> Option<usize> {
        match self {
            Decision::Rule { position, .. } => Some(position),
            Decision::NoneMatched => None,
        }
    }
}

/// What lets one matching rule win over another: the higher context, and within one
/// context the later place.
pub fn precedence(context: Context, place: usize) -> (u8, usize) {
    (context.rank(), place)
}

/// Searches one section. `front` is what a rule of any section begins with.
fn decide<R>(
    section: &[R],
    front: impl Fn(&R) -> (Context, Verdict),
    matches: impl Fn(&R) -> bool,
) -> Decision {
    let matching = section.iter().enumerate().filter(|(_, rule)| matches(rule));
    match matching.max_by_key(|(place, rule)| precedence(front(rule).0, *place)) {
        Some((position, rule)) => Decision::Rule { position, verdict: front(rule).1 },
        None => Decision::NoneMatched,
    }
}

impl Policy {
    pub fn connect(&self, who: Credentials) -> Decision {
        decide(&self.connect, |rule| (rule.context, rule.verdict), |rule| rule.matches(who))
    }

    pub fn own(&self, who: Credentials, name: &str) -> Decision {
        decide(&self.own, |rule| (rule.context, rule.verdict), |rule| rule.matches(who, name))
    }

    /// `who` are the credentials of the sender, `names` those that the receiver owns.
    pub fn send(&self, who: Credentials, names: &[String], message: &Header) -> Decision {
        self.transaction(Question { direction: Direction::Send, who, names }, message)
    }

    /// `who` are the credentials of the receiver, `names` those that the sender owns.
    pub fn receive(&self, who: Credentials, names: &[String], message: &Header) -> Decision {
        self.transaction(Question { direction: Direction::Receive, who, names }, message)
    }

    pub fn transaction(&self, question: Question, message: &Header) -> Decision {
        decide(&self.transaction, |rule| (rule.context, rule.verdict), |rule| rule.matches(question, message))
    }
}

impl ConnectRule {
    pub fn matches(&self, who: Credentials) -> bool {
        match self.who {
            Who::Any => true,
            Who::Uid(uid) => who.uid == uid,
            Who::Gid(gid) => who.gids.contains(&gid),
        }
    }
}

impl OwnRule {
    pub fn matches(&self, who: Credentials, name: &str) -> bool {
        self.context.fits(who) && self.name.matches(name)
    }

    /// The converter makes exact rules of such a rule.
    pub fn is_about_a_prefix(&self) -> bool {
        matches!(self.name, NameMatcher::Prefix(_))
    }
}

impl NameMatcher {
    pub fn matches(&self, name: &str) -> bool {
        match self {
            NameMatcher::Any => true,
            NameMatcher::Name(whole) => name == whole,
            NameMatcher::Prefix(prefix) => match name.strip_prefix(prefix.as_str()) {
                Some(rest) => rest.is_empty() || rest.starts_with('.'),
                None => false,
            },
        }
    }
}

impl TransactionRule {
    /// The name is tested against every name of the other side, whichever name the
    /// message was addressed to.
    pub fn matches(&self, question: Question, message: &Header) -> bool {
        let type_fits = self.message_type.is_none_or(|wanted| wanted == message.fixed.message_type);
        let name_fits = self.name.as_ref().is_none_or(|wanted| question.names.contains(wanted));
        self.direction == question.direction
            && self.context.fits(question.who)
            && type_fits
            && name_fits
            && literal_fits(&self.path, &message.path)
            && self.interface_fits(message)
            && literal_fits(&self.member, &message.member)
    }

    /// A message without an interface may mean any, the rule's own too. So a deny takes
    /// such a message for its own, and an allow does not vouch for it.
    fn interface_fits(&self, message: &Header) -> bool {
        match (&self.interface, &message.interface) {
            (None, _) => true,
            (Some(_), None) => self.verdict == Verdict::Deny,
            (Some(wanted), Some(there)) => wanted == there,
        }
    }
}

/// Rules are asked only about calls and signals, which always have a path and a member.
fn literal_fits(rule: &Option<String>, field: &Option<String>) -> bool {
    rule.is_none() || rule == field
}
