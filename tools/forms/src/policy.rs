//! Policy rules as plain values, in the order in which an image has them.

/// User ids and group ids are both 32-bit and must never be taken for each other.
#[derive(Clone, Copy, Debug, PartialEq, Eq, PartialOrd, Ord, Hash)]
pub struct Uid(pub u32);

#[derive(Clone, Copy, Debug, PartialEq, Eq, PartialOrd, Ord, Hash)]
pub struct Gid(pub u32);

/// The context of a rule together with its subject.
#[derive(Clone, Copy, Debug, PartialEq, Eq)]
pub enum Context {
    Default,
    Group(Gid),
    User(Uid),
    Mandatory,
}

impl Context {
    /// Higher contexts win; it is also the number that an image has for a context.
    pub fn rank(self) -> u8 {
        match self {
            Context::Default => 0,
            Context::Group(_) => 1,
            Context::User(_) => 2,
            Context::Mandatory => 3,
        }
    }
}

#[derive(Clone, Copy, Debug, PartialEq, Eq)]
pub enum Verdict {
    Deny,
    Allow,
}

#[derive(Clone, Copy, Debug, PartialEq, Eq)]
pub enum Who {
    Any,
    Uid(Uid),
    Gid(Gid),
}

#[derive(Clone, Debug, PartialEq, Eq)]
pub struct ConnectRule {
    pub context: Context,
    pub verdict: Verdict,
    pub who: Who,
}

#[derive(Clone, Debug, PartialEq, Eq)]
pub enum NameMatcher {
    Any,
    Name(String),
    Prefix(String),
}

#[derive(Clone, Debug, PartialEq, Eq)]
pub struct OwnRule {
    pub context: Context,
    pub verdict: Verdict,
    pub name: NameMatcher,
}

#[derive(Clone, Copy, Debug, PartialEq, Eq)]
pub enum Direction {
    Send,
    Receive,
}

/// What a transaction rule is about; rules know no replies.
#[derive(Clone, Copy, Debug, PartialEq, Eq)]
pub enum MessageType {
    Call,
    Signal,
}

/// In the last five places `None` stands for any.
#[derive(Clone, Debug, PartialEq, Eq)]
pub struct TransactionRule {
    pub context: Context,
    pub verdict: Verdict,
    pub direction: Direction,
    pub message_type: Option<MessageType>,
    pub name: Option<String>,
    pub path: Option<String>,
    pub interface: Option<String>,
    pub member: Option<String>,
}

#[derive(Clone, Debug, Default, PartialEq, Eq)]
pub struct Policy {
    pub connect: Vec<ConnectRule>,
    pub own: Vec<OwnRule>,
    pub transaction: Vec<TransactionRule>,
}

/// The sections of a policy. Positions count from 0 in each.
#[derive(Clone, Copy, Debug, PartialEq, Eq)]
pub enum Section {
    Connect,
    Own,
    Transaction,
}

impl Section {
    pub const ALL: [Section; 3] = [Section::Connect, Section::Own, Section::Transaction];

    /// The word with which the section's rules begin.
    pub fn word(self) -> &'static str {
        match self {
            Section::Connect => "connect",
            Section::Own => "own",
            Section::Transaction => "transaction",
        }
    }
}

impl Policy {
    pub fn count(&self, section: Section) -> usize {
        match section {
            Section::Connect => self.connect.len(),
            Section::Own => self.own.len(),
            Section::Transaction => self.transaction.len(),
        }
    }

    /// The own rules for a prefix, by their positions.
    pub fn prefix_rules(&self) -> Vec<usize> {
        let is_prefix = |rule: &OwnRule| matches!(rule.name, NameMatcher::Prefix(_));
        (0..self.own.len()).filter(|&position| is_prefix(&self.own[position])).collect()
    }
}
