//! Writing a policy as an image.

use crate::image::Breach;
use crate::image::{
    BadImage, CONNECT_SIZE, HEADER_LENGTH, MAX_CONNECT, MAX_LENGTH, MAX_OWN, MAX_TRANSACTION, OWN_SIZE,
    TRANSACTION_SIZE,
};
use crate::policy::{
    ConnectRule, Context, Direction, NameMatcher, OwnRule, Policy, TransactionRule, Verdict, Who,
};

/// The string area; a text that already stands in it is not written twice.
#[derive(Default)]
struct Strings {
    area: Vec<u8>,
}

impl Strings {
    /// The offset and length of `text`.
    fn place(&mut self, text: &str) -> [u32; 2] {
        let bytes = text.as_bytes();
        let found = self.area.windows(bytes.len().max(1)).position(|window| window == bytes);
        let offset = found.unwrap_or_else(|| {
            self.area.extend(bytes);
            self.area.len() - bytes.len()
        });
        [offset as u32, bytes.len() as u32]
    }

    fn place_literal(&mut self, text: &Option<String>) -> [u32; 2] {
        text.as_ref().map_or([0, 0], |text| self.place(text))
    }
}

/// The image of `policy`, whose texts are taken as they are. A policy that is too
/// large to have an image is refused.
pub fn write(policy: &Policy) -> Result<Vec<u8>, BadImage> {
    let mut strings = Strings::default();
    let mut rules = Vec::new();
    for rule in &policy.connect {
        rules.extend(connect_bytes(rule));
    }
    for rule in &policy.own {
        rules.extend(own_bytes(rule, &mut strings));
    }
    for rule in &policy.transaction {
        rules.extend(transaction_bytes(rule, &mut strings));
    }
    let mut image = header_bytes(policy, strings.area.len());
    image.extend(rules);
    image.extend(strings.area);
    match too_large(policy, image.len()) {
        Some(breach) => Err(BadImage { breach, place: "policy".to_string() }),
        None => Ok(image),
    }
}

fn too_large(policy: &Policy, length: usize) -> Option<Breach> {
    let limits = [
        (policy.connect.len() > MAX_CONNECT, Breach::TooManyConnect),
        (policy.own.len() > MAX_OWN, Breach::TooManyOwn),
        (policy.transaction.len() > MAX_TRANSACTION, Breach::TooManyTransaction),
        (length > MAX_LENGTH, Breach::LongerThanLimit),
    ];
    limits.iter().find(|(broken, _)| *broken).map(|(_, breach)| *breach)
}

fn header_bytes(policy: &Policy, strings: usize) -> Vec<u8> {
    let own = HEADER_LENGTH + policy.connect.len() * CONNECT_SIZE;
    let transaction = own + policy.own.len() * OWN_SIZE;
    let string_area = transaction + policy.transaction.len() * TRANSACTION_SIZE;
    let words = [
        string_area + strings,
        policy.connect.len(),
        HEADER_LENGTH,
        policy.own.len(),
        own,
        policy.transaction.len(),
        transaction,
        string_area,
    ];
    words.iter().flat_map(|&number| (number as u32).to_le_bytes()).collect()
}

fn subject(context: Context) -> u32 {
    match context {
        Context::Default | Context::Mandatory => 0,
        Context::Group(gid) => gid.0,
        Context::User(uid) => uid.0,
    }
}

fn verdict_byte(verdict: Verdict) -> u8 {
    match verdict {
        Verdict::Deny => 0,
        Verdict::Allow => 1,
    }
}

fn join(bytes: [u8; 4], words: &[u32]) -> Vec<u8> {
    bytes.into_iter().chain(words.iter().flat_map(|number| number.to_le_bytes())).collect()
}

fn connect_bytes(rule: &ConnectRule) -> Vec<u8> {
    let (matcher, id) = match rule.who {
        Who::Any => (0, 0),
        Who::Uid(uid) => (1, uid.0),
        Who::Gid(gid) => (2, gid.0),
    };
    join([rule.context.rank(), verdict_byte(rule.verdict), matcher, 0], &[id])
}

fn own_bytes(rule: &OwnRule, strings: &mut Strings) -> Vec<u8> {
    let (matcher, [offset, length]) = match &rule.name {
        NameMatcher::Any => (0, [0, 0]),
        NameMatcher::Name(name) => (1, strings.place(name)),
        NameMatcher::Prefix(prefix) => (2, strings.place(prefix)),
    };
    let bytes = [rule.context.rank(), verdict_byte(rule.verdict), matcher, 0];
    join(bytes, &[subject(rule.context), offset, length])
}

fn transaction_bytes(rule: &TransactionRule, strings: &mut Strings) -> Vec<u8> {
    let direction = match rule.direction {
        Direction::Send => 0,
        Direction::Receive => 1,
    };
    let bytes = [rule.context.rank(), verdict_byte(rule.verdict), direction, rule.message_type.unwrap_or(0)];
    let mut words = vec![subject(rule.context)];
    for text in [&rule.name, &rule.path, &rule.interface, &rule.member] {
        words.extend(strings.place_literal(text));
    }
    join(bytes, &words)
}
