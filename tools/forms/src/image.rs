//! Policy images: written from rules, and read back with the first breach that a bad one has.

use crate::names::{self, Form};
use crate::policy::{
    ConnectRule, Context, Direction, Gid, MessageType, NameMatcher, OwnRule, Policy, Section,
    TransactionRule, Uid, Verdict, Who,
};

const HEADER_LENGTH: usize = 32;

/// The most bytes of an image, and the bytes of an own rule.
pub const MAX_LENGTH: usize = 65_536;
pub const OWN_RULE_LENGTH: usize = 16;

/// How many rules a section may have, and how many bytes each of them has.
fn limits(section: Section) -> (usize, usize) {
    match section {
        Section::Connect => (256, 8),
        Section::Own => (256, OWN_RULE_LENGTH),
        Section::Transaction => (512, 40),
    }
}

/// How many rules a section may have.
pub fn most_rules(section: Section) -> usize {
    limits(section).0
}

// ---- writing

/// The string area; a text that already stands in it is not written twice.
#[derive(Default)]
struct Strings {
    area: Vec<u8>,
}

impl Strings {
    /// The offset and length of a text. In an area that is too long already nothing is searched.
    fn place(&mut self, text: &str) -> [u32; 2] {
        let bytes = text.as_bytes();
        let searched = if self.area.len() <= MAX_LENGTH { self.area.as_slice() } else { &[] };
        let found = searched.windows(bytes.len().max(1)).position(|window| window == bytes);
        let offset = found.unwrap_or_else(|| {
            self.area.extend(bytes);
            self.area.len() - bytes.len()
        });
        [offset as u32, bytes.len() as u32]
    }

    fn place_literal(&mut self, text: &Option<String>) -> [u32; 2] {
        text.as_ref().map_or([0, 0], |text| self.place(text))
    }
}

/// The image of a policy, whose texts are taken as they are; or why it is too large to have one.
pub fn write(policy: &Policy) -> Result<Vec<u8>, String> {
    for section in Section::ALL {
        let (most, _) = limits(section);
        if policy.count(section) > most {
            return Err(format!("more than {most} {} rules", section.word()));
        }
    }
    let mut strings = Strings::default();
    let mut rules: Vec<u8> = policy.connect.iter().flat_map(connect_bytes).collect();
    rules.extend(policy.own.iter().flat_map(|rule| own_bytes(rule, &mut strings)));
    rules.extend(policy.transaction.iter().flat_map(|rule| transaction_bytes(rule, &mut strings)));
    let mut image = header_bytes(policy, strings.area.len());
    image.extend(rules);
    image.extend(strings.area);
    match image.len() {
        0..=MAX_LENGTH => Ok(image),
        _ => Err("the image would be longer than 65,536 bytes".to_string()),
    }
}

fn header_bytes(policy: &Policy, strings: usize) -> Vec<u8> {
    let mut words = vec![0];
    let mut end = HEADER_LENGTH;
    for section in Section::ALL {
        words.extend([policy.count(section), end]);
        end += policy.count(section) * limits(section).1;
    }
    words.push(end);
    words[0] = end + strings;
    words.iter().flat_map(|&number| (number as u32).to_le_bytes()).collect()
}

fn subject(context: Context) -> u32 {
    match context {
        Context::Default | Context::Mandatory => 0,
        Context::Group(gid) => gid.0,
        Context::User(uid) => uid.0,
    }
}

fn join(context: Context, verdict: Verdict, third: u8, fourth: u8, words: &[u32]) -> Vec<u8> {
    let front = [context.rank(), u8::from(verdict == Verdict::Allow), third, fourth];
    front.into_iter().chain(words.iter().flat_map(|number| number.to_le_bytes())).collect()
}

fn connect_bytes(rule: &ConnectRule) -> Vec<u8> {
    let (matcher, id) = match rule.who {
        Who::Any => (0, 0),
        Who::Uid(uid) => (1, uid.0),
        Who::Gid(gid) => (2, gid.0),
    };
    join(rule.context, rule.verdict, matcher, 0, &[id])
}

fn own_bytes(rule: &OwnRule, strings: &mut Strings) -> Vec<u8> {
    let (matcher, [offset, length]) = match &rule.name {
        NameMatcher::Any => (0, [0, 0]),
        NameMatcher::Name(name) => (1, strings.place(name)),
        NameMatcher::Prefix(prefix) => (2, strings.place(prefix)),
    };
    join(rule.context, rule.verdict, matcher, 0, &[subject(rule.context), offset, length])
}

fn transaction_bytes(rule: &TransactionRule, strings: &mut Strings) -> Vec<u8> {
    let direction = u8::from(rule.direction == Direction::Receive);
    let message_type = match rule.message_type {
        None => 0,
        Some(MessageType::Call) => 1,
        Some(MessageType::Signal) => 4,
    };
    let mut words = vec![subject(rule.context)];
    for text in [&rule.name, &rule.path, &rule.interface, &rule.member] {
        words.extend(strings.place_literal(text));
    }
    join(rule.context, rule.verdict, direction, message_type, &words)
}

// ---- reading

/// The policy that an image holds; of a bad one, where it breaks which rule.
pub fn read(image: &[u8]) -> Result<Policy, String> {
    let at_header = |what| format!("header: {what}");
    let (sections, strings) = cut(image).map_err(at_header)?;
    let [connect, own, transaction] = sections;
    Ok(Policy {
        connect: read_rules(Section::Connect, connect, read_connect)?,
        own: read_rules(Section::Own, own, |rule| read_own(rule, strings))?,
        transaction: read_rules(Section::Transaction, transaction, |rule| read_transaction(rule, strings))?,
    })
}

fn word(bytes: &[u8], at: usize) -> u32 {
    u32::from_le_bytes([bytes[at], bytes[at + 1], bytes[at + 2], bytes[at + 3]])
}

/// The three sections and the string area. Sums of 32-bit numbers do not wrap in 64 bits.
fn cut(image: &[u8]) -> Result<([&[u8]; 3], &[u8]), String> {
    if image.len() < HEADER_LENGTH {
        return Err(format!("the image has {} bytes, and its header alone has 32", image.len()));
    }
    if image.len() > MAX_LENGTH {
        return Err("the image is longer than 65,536 bytes".to_string());
    }
    let total = word(image, 0) as usize;
    if total != image.len() {
        return Err(format!("the total length is {total}, and the image has {} bytes", image.len()));
    }
    let mut sections: [&[u8]; 3] = [&[]; 3];
    let mut end = HEADER_LENGTH;
    for (index, section) in Section::ALL.into_iter().enumerate() {
        let (most, size) = limits(section);
        let (count, offset) = (word(image, 4 + 8 * index) as usize, word(image, 8 + 8 * index) as usize);
        if count > most {
            return Err(format!("{count} {} rules, and {most} are the most", section.word()));
        }
        if offset != end {
            return Err(format!("the {} rules are said to begin at {offset}, not at {end}", section.word()));
        }
        end += count * size;
        sections[index] = image.get(offset..end).ok_or("the sections run past the end of the image")?;
    }
    let strings = word(image, 28) as usize;
    if strings != end {
        return Err(format!("the string area is said to begin at {strings}, not at {end}"));
    }
    Ok((sections, &image[end..]))
}

/// Every rule of a section, counted from 0 as the guard's answers count them.
fn read_rules<R>(
    section: Section,
    bytes: &[u8],
    read_one: impl Fn(&[u8]) -> Result<R, String>,
) -> Result<Vec<R>, String> {
    let with_place =
        |(index, rule)| read_one(rule).map_err(|what| format!("{} rule {index}: {what}", section.word()));
    bytes.chunks(limits(section).1).enumerate().map(with_place).collect()
}

fn read_context(byte: u8, subject: u32) -> Result<Context, String> {
    match (byte, subject) {
        (0, 0) => Ok(Context::Default),
        (1, gid) => Ok(Context::Group(Gid(gid))),
        (2, uid) => Ok(Context::User(Uid(uid))),
        (3, 0) => Ok(Context::Mandatory),
        (0 | 3, subject) => Err(format!("a default or mandatory rule has the subject {subject}")),
        (byte, _) => Err(format!("the context is {byte}, and 3 is the highest")),
    }
}

fn read_verdict(byte: u8) -> Result<Verdict, String> {
    match byte {
        0 => Ok(Verdict::Deny),
        1 => Ok(Verdict::Allow),
        byte => Err(format!("the verdict is {byte}, neither 0 nor 1")),
    }
}

fn read_zero(byte: u8) -> Result<(), String> {
    match byte {
        0 => Ok(()),
        byte => Err(format!("byte 3 is {byte}, not zero")),
    }
}

fn read_connect(rule: &[u8]) -> Result<ConnectRule, String> {
    let id = word(rule, 4);
    read_zero(rule[3])?;
    let context = match rule[0] {
        1 | 2 => return Err("the context of a connect rule is neither default nor mandatory".to_string()),
        byte => read_context(byte, 0)?,
    };
    let who = match (rule[2], id) {
        (0, 0) => Who::Any,
        (0, id) => return Err(format!("a rule for any has the id {id}")),
        (1, uid) => Who::Uid(Uid(uid)),
        (2, gid) => Who::Gid(Gid(gid)),
        (byte, _) => return Err(format!("the matcher is {byte}, and 2 is the highest")),
    };
    Ok(ConnectRule { context, verdict: read_verdict(rule[1])?, who })
}

fn read_own(rule: &[u8], strings: &[u8]) -> Result<OwnRule, String> {
    let (offset, length) = (word(rule, 8), word(rule, 12));
    read_zero(rule[3])?;
    let name = match rule[2] {
        0 if (offset, length) == (0, 0) => NameMatcher::Any,
        0 => return Err("a rule for any has a string".to_string()),
        matcher @ (1 | 2) => {
            let text = read_string(strings, offset, length, Form::WellKnown, "name")?
                .ok_or("a rule for a name or prefix has no string")?;
            if matcher == 1 {
                NameMatcher::Name(text)
            } else {
                NameMatcher::Prefix(text)
            }
        }
        byte => return Err(format!("the matcher is {byte}, and 2 is the highest")),
    };
    Ok(OwnRule { context: read_context(rule[0], word(rule, 4))?, verdict: read_verdict(rule[1])?, name })
}

fn read_transaction(rule: &[u8], strings: &[u8]) -> Result<TransactionRule, String> {
    let direction = match rule[2] {
        0 => Direction::Send,
        1 => Direction::Receive,
        byte => return Err(format!("the direction is {byte}, neither 0 nor 1")),
    };
    let message_type = match rule[3] {
        0 => None,
        1 => Some(MessageType::Call),
        4 => Some(MessageType::Signal),
        byte => return Err(format!("the message type is {byte}, not 0, 1 or 4")),
    };
    let literal =
        |at: usize, form, what| read_string(strings, word(rule, at), word(rule, at + 4), form, what);
    Ok(TransactionRule {
        context: read_context(rule[0], word(rule, 4))?,
        verdict: read_verdict(rule[1])?,
        direction,
        message_type,
        name: literal(8, Form::WellKnown, "name")?,
        path: literal(16, Form::Path, "path")?,
        interface: literal(24, Form::Interface, "interface")?,
        member: literal(32, Form::Member, "member")?,
    })
}

/// A text that a rule cites; none where its length is 0, which means any.
fn read_string(
    strings: &[u8],
    offset: u32,
    length: u32,
    form: Form,
    what: &str,
) -> Result<Option<String>, String> {
    if length == 0 {
        return match offset {
            0 => Ok(None),
            offset => Err(format!("the {what} has no length, but the offset {offset}")),
        };
    }
    let (from, to) = (offset as usize, offset as usize + length as usize);
    let text = strings.get(from..to).ok_or(format!("the {what} lies outside the string area"))?;
    match names::fault(form, text) {
        Some(fault) => {
            Err(format!("the {what} breaks its rule at its byte {}: wanted {}", fault.at, fault.wanted))
        }
        // A good name is plain ASCII, so nothing is lost.
        None => Ok(Some(String::from_utf8_lossy(text).into_owned())),
    }
}
