//! What becomes of each own rule, as the tool reads the rules: to be told, and to be held to what the converter made.

use super::names::Listed;
use forms::image::{self, OWN_RULE_LENGTH};
use forms::names::is_under;
use forms::policy::{NameMatcher, OwnRule, Policy};

/// What becomes of an own rule of the old image.
#[derive(Clone, Debug, PartialEq, Eq)]
pub enum Fate {
    /// It stays as it is, at this position.
    Stays(usize),
    /// It was for a prefix, and becomes exact rules for these names, the first of them at this position.
    Becomes(usize, Vec<String>),
    /// It was for a prefix that covers none of the names.
    Vanishes,
}

/// A conversion, rule by rule and name by name.
#[derive(Clone, Debug, PartialEq, Eq)]
pub struct Plan {
    pub fates: Vec<Fate>,
    /// The rules of the new image.
    pub policy: Policy,
}

/// Whether a rule is for a prefix that covers a name.
fn covers(rule: &OwnRule, name: &str) -> bool {
    matches!(&rule.name, NameMatcher::Prefix(prefix) if is_under(name, prefix))
}

/// Whether some rule for a prefix covers a name, so that the new image has it.
pub fn is_covered(policy: &Policy, name: &str) -> bool {
    policy.own.iter().any(|rule| covers(rule, name))
}

pub fn plan(old: &Policy, list: &[Listed]) -> Plan {
    let mut policy = Policy { own: Vec::new(), ..old.clone() };
    let mut fates = Vec::new();
    for rule in &old.own {
        let position = policy.own.len();
        if !matches!(rule.name, NameMatcher::Prefix(_)) {
            policy.own.push(rule.clone());
            fates.push(Fate::Stays(position));
            continue;
        }
        let names: Vec<String> = list
            .iter()
            .filter(|listed| covers(rule, &listed.name))
            .map(|listed| listed.name.clone())
            .collect();
        let exact = |name: &String| OwnRule { name: NameMatcher::Name(name.clone()), ..rule.clone() };
        policy.own.extend(names.iter().map(exact));
        fates.push(if names.is_empty() { Fate::Vanishes } else { Fate::Becomes(position, names) });
    }
    Plan { fates, policy }
}

/// How many own rules and bytes the new image has, without making it: it may be far too large.
#[derive(Clone, Copy, Debug, PartialEq, Eq)]
pub struct Size {
    pub own_rules: usize,
    pub bytes: usize,
}

pub fn size(old: &Policy, old_bytes: usize, list: &[Listed]) -> Size {
    let count = |rule: &OwnRule| match rule.name {
        NameMatcher::Prefix(_) => list.iter().filter(|listed| covers(rule, &listed.name)).count(),
        _ => 1,
    };
    let own_rules = old.own.iter().map(count).sum::<usize>();
    let added: usize =
        list.iter().filter(|listed| is_covered(old, &listed.name)).map(|listed| listed.name.len()).sum();
    let bytes = old_bytes + added + own_rules * OWN_RULE_LENGTH - old.own.len() * OWN_RULE_LENGTH;
    Size { own_rules, bytes }
}

/// Holds what the converter made to the plan: it is a good image, without rules for prefixes, of just these rules.
pub fn check(made: &[u8], plan: &Plan) -> Result<(), String> {
    let read = image::read(made).map_err(|breach| format!("it reads as a bad image: {breach}"))?;
    if let Some(position) = read.prefix_rules().first() {
        return Err(format!("its own rule {position} is for a prefix"));
    }
    match read == plan.policy {
        true => Ok(()),
        false => Err("it reads as other rules than those that were to come".to_string()),
    }
}
