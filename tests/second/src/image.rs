//! Reading a policy image, with the rule that a bad one breaks.

use crate::names;
use crate::policy::{
    ConnectRule, Context, Direction, Gid, NameMatcher, OwnRule, Policy, TransactionRule, Uid, Verdict, Who,
};
use crate::wire::ByteOrder;

pub const HEADER_LENGTH: usize = 32;
pub const MAX_LENGTH: usize = 65_536;
pub const MAX_CONNECT: usize = 256;
pub const MAX_OWN: usize = 256;
pub const MAX_TRANSACTION: usize = 512;
pub const CONNECT_SIZE: usize = 8;
pub const OWN_SIZE: usize = 16;
pub const TRANSACTION_SIZE: usize = 40;

/// What an image does wrong.
#[derive(Clone, Copy, Debug, PartialEq, Eq, PartialOrd, Ord)]
pub enum Breach {
    ShorterThanHeader,
    LongerThanLimit,
    TotalLength,
    TooManyConnect,
    TooManyOwn,
    TooManyTransaction,
    ConnectOffset,
    OwnOffset,
    TransactionOffset,
    StringOffset,
    StringsBeyondTotal,
    Context,
    ConnectContext,
    Verdict,
    Matcher,
    Direction,
    Type,
    ZeroByte,
    Subject,
    AnyWithId,
    AnyWithString,
    EmptyString,
    OffsetWithoutLength,
    StringOutside,
    NotAWellKnownName,
    NotAPath,
    NotAnInterface,
    NotAMember,
}

/// A breach and where it stands, for people to read.
#[derive(Clone, Debug, PartialEq, Eq)]
pub struct BadImage {
    pub breach: Breach,
    pub place: String,
}

impl Breach {
    /// All of them, so that a test can tell which it never met.
    pub const ALL: [Breach; 28] = [
        Breach::ShorterThanHeader,
        Breach::LongerThanLimit,
        Breach::TotalLength,
        Breach::TooManyConnect,
        Breach::TooManyOwn,
        Breach::TooManyTransaction,
        Breach::ConnectOffset,
        Breach::OwnOffset,
        Breach::TransactionOffset,
        Breach::StringOffset,
        Breach::StringsBeyondTotal,
        Breach::Context,
        Breach::ConnectContext,
        Breach::Verdict,
        Breach::Matcher,
        Breach::Direction,
        Breach::Type,
        Breach::ZeroByte,
        Breach::Subject,
        Breach::AnyWithId,
        Breach::AnyWithString,
        Breach::EmptyString,
        Breach::OffsetWithoutLength,
        Breach::StringOutside,
        Breach::NotAWellKnownName,
        Breach::NotAPath,
        Breach::NotAnInterface,
        Breach::NotAMember,
    ];

    pub fn text(self) -> &'static str {
        match self {
            Breach::ShorterThanHeader => "the image is shorter than its 32-byte header",
            Breach::LongerThanLimit => "the image is longer than 65,536 bytes",
            Breach::TotalLength => "the total length is not the length of the image",
            Breach::TooManyConnect => "more than 256 connect rules",
            Breach::TooManyOwn => "more than 256 own rules",
            Breach::TooManyTransaction => "more than 512 transaction rules",
            Breach::ConnectOffset => "the connect section does not start at byte 32",
            Breach::OwnOffset => "the own section does not follow the connect section",
            Breach::TransactionOffset => "the transaction section does not follow the own section",
            Breach::StringOffset => "the string area does not follow the transaction section",
            Breach::StringsBeyondTotal => "the sections run past the end of the image",
            Breach::Context => "the context is above 3",
            Breach::ConnectContext => "a connect rule's context is neither default nor mandatory",
            Breach::Verdict => "the verdict is above 1",
            Breach::Matcher => "the matcher is above 2",
            Breach::Direction => "the direction is above 1",
            Breach::Type => "the message type is not 0, 1 or 4",
            Breach::ZeroByte => "the byte that must be zero is not",
            Breach::Subject => "a default or mandatory rule has a subject",
            Breach::AnyWithId => "a connect rule for any has an id",
            Breach::AnyWithString => "an own rule for any has a string",
            Breach::EmptyString => "an own rule for a name or prefix has no string",
            Breach::OffsetWithoutLength => "a string of length 0 has an offset",
            Breach::StringOutside => "a string lies outside the string area",
            Breach::NotAWellKnownName => "a name or prefix is no well-known name",
            Breach::NotAPath => "a path breaks its rule",
            Breach::NotAnInterface => "an interface breaks its rule",
            Breach::NotAMember => "a member breaks its rule",
        }
    }
}

impl std::fmt::Display for BadImage {
    fn fmt(&self, out: &mut std::fmt::Formatter<'_>) -> std::fmt::Result {
        write!(out, "{}: {}", self.place, self.breach.text())
    }
}

/// The three rule sections and the string area, each cut out of the image.
struct Sections<'a> {
    connect: &'a [u8],
    own: &'a [u8],
    transaction: &'a [u8],
    strings: &'a [u8],
}

pub fn read(image: &[u8]) -> Result<Policy, BadImage> {
    let in_header = |breach| BadImage { breach, place: "header".to_string() };
    let sections = cut_sections(image).map_err(in_header)?;
    let strings = sections.strings;
    Ok(Policy {
        connect: read_rules("connect rule", sections.connect, CONNECT_SIZE, read_connect)?,
        own: read_rules("own rule", sections.own, OWN_SIZE, |rule| read_own(rule, strings))?,
        transaction: read_rules("transaction rule", sections.transaction, TRANSACTION_SIZE, |rule| {
            read_transaction(rule, strings)
        })?,
    })
}

fn word(bytes: &[u8], at: usize) -> usize {
    ByteOrder::Little.read_u32(bytes, at) as usize
}

/// Sizes are sums of small products of 32-bit numbers, so they cannot wrap in 64 bits.
fn cut_sections(image: &[u8]) -> Result<Sections<'_>, Breach> {
    let check = |holds: bool, breach: Breach| if holds { Ok(()) } else { Err(breach) };
    check(image.len() >= HEADER_LENGTH, Breach::ShorterThanHeader)?;
    check(image.len() <= MAX_LENGTH, Breach::LongerThanLimit)?;
    let [total, connect_count, connect_offset, own_count] = [0, 4, 8, 12].map(|at| word(image, at));
    let [own_offset, transaction_count, transaction_offset, string_offset] =
        [16, 20, 24, 28].map(|at| word(image, at));
    check(total == image.len(), Breach::TotalLength)?;
    check(connect_count <= MAX_CONNECT, Breach::TooManyConnect)?;
    check(own_count <= MAX_OWN, Breach::TooManyOwn)?;
    check(transaction_count <= MAX_TRANSACTION, Breach::TooManyTransaction)?;
    check(connect_offset == HEADER_LENGTH, Breach::ConnectOffset)?;
    check(own_offset == connect_offset + connect_count * CONNECT_SIZE, Breach::OwnOffset)?;
    check(transaction_offset == own_offset + own_count * OWN_SIZE, Breach::TransactionOffset)?;
    check(string_offset == transaction_offset + transaction_count * TRANSACTION_SIZE, Breach::StringOffset)?;
    check(string_offset <= total, Breach::StringsBeyondTotal)?;
    Ok(Sections {
        connect: &image[connect_offset..own_offset],
        own: &image[own_offset..transaction_offset],
        transaction: &image[transaction_offset..string_offset],
        strings: &image[string_offset..],
    })
}

/// Reads every rule of a section; people count rules from 1.
fn read_rules<R>(
    what: &str,
    section: &[u8],
    size: usize,
    read_one: impl Fn(&[u8]) -> Result<R, Breach>,
) -> Result<Vec<R>, BadImage> {
    let with_place = |(index, rule)| {
        read_one(rule).map_err(|breach| BadImage { breach, place: format!("{what} {}", index + 1) })
    };
    section.chunks(size).enumerate().map(with_place).collect()
}

fn read_context(byte: u8, subject: u32) -> Result<Context, Breach> {
    match (byte, subject) {
        (0, 0) => Ok(Context::Default),
        (1, gid) => Ok(Context::Group(Gid(gid))),
        (2, uid) => Ok(Context::User(Uid(uid))),
        (3, 0) => Ok(Context::Mandatory),
        (0 | 3, _) => Err(Breach::Subject),
        _ => Err(Breach::Context),
    }
}

fn read_verdict(byte: u8) -> Result<Verdict, Breach> {
    match byte {
        0 => Ok(Verdict::Deny),
        1 => Ok(Verdict::Allow),
        _ => Err(Breach::Verdict),
    }
}

fn read_connect(rule: &[u8]) -> Result<ConnectRule, Breach> {
    let context = match read_context(rule[0], 0)? {
        Context::Group(_) | Context::User(_) => return Err(Breach::ConnectContext),
        context => context,
    };
    let verdict = read_verdict(rule[1])?;
    let id = word(rule, 4) as u32;
    let who = match (rule[2], id) {
        (0, 0) => Who::Any,
        (0, _) => return Err(Breach::AnyWithId),
        (1, uid) => Who::Uid(Uid(uid)),
        (2, gid) => Who::Gid(Gid(gid)),
        _ => return Err(Breach::Matcher),
    };
    if rule[3] != 0 {
        return Err(Breach::ZeroByte);
    }
    Ok(ConnectRule { context, verdict, who })
}

fn read_own(rule: &[u8], strings: &[u8]) -> Result<OwnRule, Breach> {
    if rule[3] != 0 {
        return Err(Breach::ZeroByte);
    }
    let context = read_context(rule[0], word(rule, 4) as u32)?;
    let verdict = read_verdict(rule[1])?;
    let (offset, length) = (word(rule, 8), word(rule, 12));
    let text = || match length {
        0 => Err(Breach::EmptyString),
        _ => cut_string(strings, offset, length, names::is_well_known, Breach::NotAWellKnownName),
    };
    let name = match rule[2] {
        0 if offset != 0 || length != 0 => return Err(Breach::AnyWithString),
        0 => NameMatcher::Any,
        1 => NameMatcher::Name(text()?),
        2 => NameMatcher::Prefix(text()?),
        _ => return Err(Breach::Matcher),
    };
    Ok(OwnRule { context, verdict, name })
}

fn read_transaction(rule: &[u8], strings: &[u8]) -> Result<TransactionRule, Breach> {
    let direction = match rule[2] {
        0 => Direction::Send,
        1 => Direction::Receive,
        _ => return Err(Breach::Direction),
    };
    let message_type = match rule[3] {
        0 => None,
        1 | 4 => Some(rule[3]),
        _ => return Err(Breach::Type),
    };
    let literal = |at: usize, rule_of_name: fn(&[u8]) -> bool, breach: Breach| match (
        word(rule, at),
        word(rule, at + 4),
    ) {
        (0, 0) => Ok(None),
        (_, 0) => Err(Breach::OffsetWithoutLength),
        (offset, length) => cut_string(strings, offset, length, rule_of_name, breach).map(Some),
    };
    Ok(TransactionRule {
        context: read_context(rule[0], word(rule, 4) as u32)?,
        verdict: read_verdict(rule[1])?,
        direction,
        message_type,
        name: literal(8, names::is_well_known, Breach::NotAWellKnownName)?,
        path: literal(16, names::is_path, Breach::NotAPath)?,
        interface: literal(24, names::is_interface, Breach::NotAnInterface)?,
        member: literal(32, names::is_member, Breach::NotAMember)?,
    })
}

fn cut_string(
    strings: &[u8],
    offset: usize,
    length: usize,
    rule_of_name: fn(&[u8]) -> bool,
    breach: Breach,
) -> Result<String, Breach> {
    let text = strings.get(offset..offset + length).ok_or(Breach::StringOutside)?;
    if !rule_of_name(text) {
        return Err(breach);
    }
    Ok(String::from_utf8_lossy(text).into_owned())
}
