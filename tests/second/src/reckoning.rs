//! What a conversion must come to, reckoned from the rules and names without writing an image.
//!
//! The converter finds covered names in its own way. Here the rules are asked as own decisions
//! ask them, so that each of the two shows a mistake of the other.

use crate::image::{CONNECT_SIZE, HEADER_LENGTH, OWN_SIZE, TRANSACTION_SIZE};
use crate::names::is_well_known;
use crate::policy::{OwnRule, Policy};

/// What keeps a list from being one.
#[derive(Clone, Copy, Debug, PartialEq, Eq)]
pub enum ListFault {
    /// The list ends with a length byte above 0.
    LengthAtTheEnd,
    Cut,
    Empty,
    IllFormed,
    RepeatedAtOnce,
    RepeatedLater,
}

/// A list up to its first fault.
#[derive(Clone, Debug, Default, PartialEq, Eq)]
pub struct List {
    pub names: Vec<String>,
    pub fault: Option<ListFault>,
}

pub fn read_list(list: &[u8]) -> List {
    let mut names: Vec<String> = Vec::new();
    let mut at = 0;
    while at < list.len() {
        let end = at + 1 + usize::from(list[at]);
        let text = &list[at + 1..end.min(list.len())];
        if let Some(fault) = fault_of(&names, text, end - at - 1) {
            return List { names, fault: Some(fault) };
        }
        names.push(String::from_utf8_lossy(text).into_owned());
        at = end;
    }
    List { names, fault: None }
}

fn fault_of(before: &[String], text: &[u8], length: usize) -> Option<ListFault> {
    let is_text = |name: &String| name.as_bytes() == text;
    match length {
        0 => Some(ListFault::Empty),
        _ if text.is_empty() => Some(ListFault::LengthAtTheEnd),
        _ if text.len() < length => Some(ListFault::Cut),
        _ if !is_well_known(text) => Some(ListFault::IllFormed),
        _ if before.last().is_some_and(is_text) => Some(ListFault::RepeatedAtOnce),
        _ if before.iter().any(is_text) => Some(ListFault::RepeatedLater),
        _ => None,
    }
}

/// The sizes of the new image, whether or not they are too large.
#[derive(Clone, Copy, Debug, PartialEq, Eq)]
pub struct Reckoned {
    pub own: usize,
    pub length: usize,
}

/// The listed names that a rule about a prefix covers.
pub fn covered_by<'a>(rule: &OwnRule, names: &'a [String]) -> Vec<&'a String> {
    match rule.is_about_a_prefix() {
        true => names.iter().filter(|name| rule.name.matches(name)).collect(),
        false => Vec::new(),
    }
}

pub fn is_covered(policy: &Policy, name: &str) -> bool {
    policy.own.iter().any(|rule| rule.is_about_a_prefix() && rule.name.matches(name))
}

/// `strings` is how long the old string area is.
pub fn reckon(policy: &Policy, strings: usize, names: &[String]) -> Reckoned {
    let own = policy.own.iter().map(|rule| match rule.is_about_a_prefix() {
        true => covered_by(rule, names).len(),
        false => 1,
    });
    let own: usize = own.sum();
    let added: usize = names.iter().filter(|name| is_covered(policy, name)).map(String::len).sum();
    let others = policy.connect.len() * CONNECT_SIZE + policy.transaction.len() * TRANSACTION_SIZE;
    Reckoned { own, length: HEADER_LENGTH + others + own * OWN_SIZE + strings + added }
}
