//! The converter of stored images: an own rule about a prefix becomes one exact rule for each
//! listed name that it covers.

use crate::answer::Answer;
use crate::image::{self, HEADER_LENGTH, MAX_LENGTH, MAX_OWN, OWN_SIZE};
use crate::names::is_well_known;
use crate::wire::ByteOrder;
use std::collections::BTreeSet;

/// The length of the new image is 0 where there is none.
#[derive(Clone, Copy, Debug, PartialEq, Eq)]
pub struct Converted {
    pub answer: Answer,
    pub length: usize,
}

/// Writes the new image into the front of the room; a refusal writes nothing.
pub fn retire(image: &[u8], list: &[u8], room: &mut [u8]) -> Converted {
    match converted(image, list, room.len()) {
        Ok(new) => {
            room[..new.len()].copy_from_slice(&new);
            Converted { answer: Answer::Done, length: new.len() }
        }
        Err(answer) => Converted { answer, length: 0 },
    }
}

fn converted(image: &[u8], list: &[u8], room: usize) -> Result<Vec<u8>, Answer> {
    let old = Stored::of(image).ok_or(Answer::BadImage)?;
    let names = listed(list).ok_or(Answer::BadList)?;
    let new = old.without_prefixes(&names);
    if new.own.len() > MAX_OWN || new.length() > MAX_LENGTH || new.length() > room {
        return Err(Answer::TooLarge);
    }
    Ok(new.bytes())
}

/// The names of a list, none of which is cut, ill-formed or repeated. An empty text is no name.
fn listed(list: &[u8]) -> Option<Vec<&[u8]>> {
    let mut names = Vec::new();
    let mut seen = BTreeSet::new();
    let mut left = list;
    while let Some((&length, rest)) = left.split_first() {
        let name = rest.get(..usize::from(length))?;
        if !is_well_known(name) || !seen.insert(name) {
            return None;
        }
        names.push(name);
        left = &rest[name.len()..];
    }
    Some(names)
}

/// A prefix covers what has its elements in front.
fn covers(prefix: &[u8], name: &[u8]) -> bool {
    let mut elements = name.split(|&byte| byte == b'.');
    prefix.split(|&byte| byte == b'.').all(|element| elements.next() == Some(element))
}

const NAME: u8 = 1;
const PREFIX: u8 = 2;

/// An own rule as it is stored.
#[derive(Clone, Copy, Debug)]
struct StoredRule {
    context: u8,
    verdict: u8,
    matcher: u8,
    subject: u32,
    offset: u32,
    length: u32,
}

impl StoredRule {
    fn of(bytes: &[u8]) -> StoredRule {
        let [subject, offset, length] = [4, 8, 12].map(|at| ByteOrder::Little.read_u32(bytes, at));
        StoredRule { context: bytes[0], verdict: bytes[1], matcher: bytes[2], subject, offset, length }
    }

    fn bytes(&self) -> Vec<u8> {
        let mut bytes = vec![self.context, self.verdict, self.matcher, 0];
        for number in [self.subject, self.offset, self.length] {
            bytes.extend(number.to_le_bytes());
        }
        bytes
    }
}

/// A name behind the old strings.
struct Added<'a> {
    name: &'a [u8],
    offset: u32,
}

/// A good image, apart from its header. Connect and transaction rules are not looked into.
struct Stored {
    connect: Vec<u8>,
    own: Vec<StoredRule>,
    transaction: Vec<u8>,
    strings: Vec<u8>,
    /// How many connect and transaction rules there are.
    counts: [usize; 2],
}

impl Stored {
    /// None where the image is bad.
    fn of(image: &[u8]) -> Option<Stored> {
        image::read(image).ok()?;
        let word = |at: usize| ByteOrder::Little.read_u32(image, at) as usize;
        let [own, transaction, strings] = [16, 24, 28].map(word);
        Some(Stored {
            connect: image[HEADER_LENGTH..own].to_vec(),
            own: image[own..transaction].chunks(OWN_SIZE).map(StoredRule::of).collect(),
            transaction: image[transaction..strings].to_vec(),
            strings: image[strings..].to_vec(),
            counts: [word(4), word(20)],
        })
    }

    /// The text of a rule that has one.
    fn text(&self, rule: &StoredRule) -> &[u8] {
        &self.strings[rule.offset as usize..][..rule.length as usize]
    }

    fn without_prefixes(self, names: &[&[u8]]) -> Stored {
        let added = self.added(names);
        let own = self.own.iter().flat_map(|rule| self.instead_of(rule, &added)).collect();
        let mut strings = self.strings.clone();
        added.iter().for_each(|name| strings.extend(name.name));
        Stored { own, strings, ..self }
    }

    /// Each name that some rule covers, once and in the order of the list.
    fn added<'a>(&self, names: &[&'a [u8]]) -> Vec<Added<'a>> {
        let prefixes: Vec<&[u8]> =
            self.own.iter().filter(|rule| rule.matcher == PREFIX).map(|rule| self.text(rule)).collect();
        let mut offset = self.strings.len() as u32;
        let mut added = Vec::new();
        for &name in names.iter().filter(|name| prefixes.iter().any(|prefix| covers(prefix, name))) {
            added.push(Added { name, offset });
            offset += name.len() as u32;
        }
        added
    }

    /// What stands in the place of a rule: itself, or an exact rule for each name that it covers.
    fn instead_of(&self, rule: &StoredRule, added: &[Added]) -> Vec<StoredRule> {
        if rule.matcher != PREFIX {
            return vec![*rule];
        }
        let covered = added.iter().filter(|added| covers(self.text(rule), added.name));
        let exact = |added: &Added| StoredRule {
            matcher: NAME,
            offset: added.offset,
            length: added.name.len() as u32,
            ..*rule
        };
        covered.map(exact).collect()
    }

    fn length(&self) -> usize {
        let rules = self.connect.len() + self.own.len() * OWN_SIZE + self.transaction.len();
        HEADER_LENGTH + rules + self.strings.len()
    }

    fn bytes(&self) -> Vec<u8> {
        let own = HEADER_LENGTH + self.connect.len();
        let transaction = own + self.own.len() * OWN_SIZE;
        let strings = transaction + self.transaction.len();
        let [connects, transactions] = self.counts;
        let header =
            [self.length(), connects, HEADER_LENGTH, self.own.len(), own, transactions, transaction, strings];
        let mut bytes: Vec<u8> = header.iter().flat_map(|&number| (number as u32).to_le_bytes()).collect();
        bytes.extend(&self.connect);
        bytes.extend(self.own.iter().flat_map(StoredRule::bytes));
        bytes.extend(&self.transaction);
        bytes.extend(&self.strings);
        bytes
    }
}
