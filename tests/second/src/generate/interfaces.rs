//! Rules that name an interface, and messages that meet them with it, with another and
//! without one.

use super::random::Random;
use super::{messages, policies, vocabulary};
use crate::guard::Guard;
use crate::message::Message;
use crate::names::BUS_NAME;
use crate::policy::{Context, Direction, Policy, TransactionRule, Verdict};

/// A deny that names an interface; or a deny and an allow above it which are alike in all
/// else, and of which one or both name the interface.
pub fn rules(random: &mut Random) -> Vec<TransactionRule> {
    let deny = deny(random);
    let allow = TransactionRule { verdict: Verdict::Allow, ..deny.clone() };
    let any = |rule: &TransactionRule| TransactionRule { interface: None, ..rule.clone() };
    match random.below(7) {
        0..=1 => vec![deny],
        2 => vec![any(&deny), allow],
        3 => vec![deny, any(&allow)],
        _ => vec![deny, allow],
    }
}

fn deny(random: &mut Random) -> TransactionRule {
    let direction = if random.chance(45) { Direction::Send } else { Direction::Receive };
    let name = match random.below(10) {
        0..=3 if direction == Direction::Send => Some(BUS_NAME.to_string()),
        0..=4 => Some(vocabulary::name(random)),
        _ => None,
    };
    let context = match random.chance(50) {
        true => random.pick(&[Context::Default, Context::Mandatory]),
        false => policies::context(random),
    };
    TransactionRule {
        context,
        verdict: Verdict::Deny,
        direction,
        message_type: random.pick(&[None, None, Some(1), Some(4)]),
        name,
        path: random.chance(45).then(|| vocabulary::path(random)),
        interface: Some(vocabulary::interface(random)),
        member: random.chance(45).then(|| vocabulary::member(random)),
    }
}

/// A call or signal that a rule with an interface matches in all other texts or in all but
/// one; none where the policy has no such rule.
pub fn message(random: &mut Random, guard: &Guard, policy: &Policy) -> Option<Message> {
    let naming: Vec<&TransactionRule> =
        policy.transaction.iter().filter(|rule| rule.interface.is_some()).collect();
    if naming.is_empty() {
        return None;
    }
    let rule = random.pick(&naming);
    let (same_path, same_member) = random.pick(&[(true, true), (true, true), (false, true), (true, false)]);
    let path = rule.path.clone().filter(|_| same_path).unwrap_or_else(|| vocabulary::path(random));
    let member = rule.member.clone().filter(|_| same_member).unwrap_or_else(|| vocabulary::member(random));
    let serial = messages::serial(random);
    let message = match random.below(10) {
        0..=2 => Message::signal(serial, &path, &vocabulary::interface(random), &member),
        3..=4 => Message::call(serial, &path, &member).interface(&vocabulary::interface(random)),
        _ => Message::call(serial, &path, &member),
    };
    Some(addressed(random, guard, rule, message))
}

/// To where the rule's name leads or, for a rule of any name, often to the bus.
fn addressed(random: &mut Random, guard: &Guard, rule: &TransactionRule, message: Message) -> Message {
    let sends = rule.direction == Direction::Send;
    match &rule.name {
        Some(name) if sends && random.chance(70) => message.to(name),
        None if sends && random.chance(50) => message.to(BUS_NAME),
        _ => messages::addressed(random, guard, message, 5),
    }
}
