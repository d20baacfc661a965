//! Random policies, from wide open to full sections.

use super::random::Random;
use super::{deciders, interfaces, vocabulary};
use crate::image::{MAX_CONNECT, MAX_LENGTH, MAX_OWN, MAX_TRANSACTION};
use crate::image_write;
use crate::policy::{
    ConnectRule, Context, Direction, Gid, NameMatcher, OwnRule, Policy, TransactionRule, Uid, Verdict, Who,
};

/// A random policy and its image, whose string area may hold bytes that no rule cites.
pub fn policy_and_image(random: &mut Random) -> (Policy, Vec<u8>) {
    let policy = policy(random);
    let mut image = image_write::write(&policy).unwrap_or_default();
    let spare = MAX_LENGTH.saturating_sub(image.len());
    let uncited = match random.below(20) {
        0 => spare,
        1..=3 => random.below(30).min(spare),
        _ => 0,
    };
    image.extend(random.bytes(uncited));
    let total = image.len() as u32;
    image[..4].copy_from_slice(&total.to_le_bytes());
    (policy, image)
}

fn policy(random: &mut Random) -> Policy {
    let (opens, connect, own, transaction) = match random.below(20) {
        0..=7 => (true, random.below(3), random.below(4), random.below(5)),
        8..=14 => (true, random.below(6), random.below(12), random.between(4, 30)),
        15..=17 => (false, random.between(2, 8), random.between(4, 20), random.between(8, 60)),
        18 => (true, 3, 8, 20),
        _ => (true, MAX_CONNECT - 1, MAX_OWN - 1, MAX_TRANSACTION - 2),
    };
    let mut policy = match random.chance(30) {
        true => deciders::half_open(random),
        false => open(),
    };
    if !opens {
        // Somebody must connect, or nothing would happen; the rest is up to the rules.
        policy.own.clear();
        policy.transaction.clear();
    }
    policy.connect.extend((0..connect).map(|_| connect_rule(random)));
    policy.own.extend((0..own).map(|_| own_rule(random)));
    policy.transaction.extend((0..transaction).map(|_| transaction_rule(random)));
    // A policy that is open for some has more than one rule about connecting to begin with.
    policy.connect.truncate(MAX_CONNECT);
    add_interface_rules(random, &mut policy);
    deciders::rearrange(random, &mut policy);
    policy
}

/// Rules that name an interface are rare among the others; a few more go in between them.
fn add_interface_rules(random: &mut Random, policy: &mut Policy) {
    for _ in 0..random.between(1, 4) {
        let rules = interfaces::rules(random);
        if policy.transaction.len() + rules.len() <= MAX_TRANSACTION {
            let place = random.between(policy.transaction.len() / 2, policy.transaction.len());
            policy.transaction.splice(place..place, rules);
        }
    }
}

/// A policy that lets everything pass, in the shortest form or with full sections.
pub fn open_image(random: &mut Random) -> (Policy, Vec<u8>) {
    let mut policy = open();
    if random.chance(50) {
        policy.transaction.swap(0, 1);
    }
    if random.chance(60) {
        // The rules that decide stand last, or first, among many that never match.
        deciders::pad(&mut policy);
        if random.chance(40) {
            policy.connect.rotate_right(1);
            policy.own.rotate_right(1);
            policy.transaction.rotate_right(2);
        }
    }
    let image = image_write::write(&policy).unwrap_or_default();
    (policy, image)
}

/// A default allow for everything; the random rules then cut holes into it.
pub fn open() -> Policy {
    let (context, verdict) = (Context::Default, Verdict::Allow);
    let pass = |direction| TransactionRule {
        context,
        verdict,
        direction,
        message_type: None,
        name: None,
        path: None,
        interface: None,
        member: None,
    };
    Policy {
        connect: vec![ConnectRule { context, verdict, who: Who::Any }],
        own: vec![OwnRule { context, verdict, name: NameMatcher::Any }],
        transaction: vec![pass(Direction::Send), pass(Direction::Receive)],
    }
}

pub fn context(random: &mut Random) -> Context {
    match random.below(10) {
        0..=3 => Context::Default,
        4..=5 => Context::Group(Gid(vocabulary::id(random))),
        6..=7 => Context::User(Uid(vocabulary::id(random))),
        _ => Context::Mandatory,
    }
}

fn verdict(random: &mut Random) -> Verdict {
    match random.chance(55) {
        true => Verdict::Allow,
        false => Verdict::Deny,
    }
}

fn connect_rule(random: &mut Random) -> ConnectRule {
    let context = if random.chance(70) { Context::Default } else { Context::Mandatory };
    let who = match random.below(10) {
        0 => Who::Any,
        1..=5 => Who::Uid(Uid(vocabulary::id(random))),
        _ => Who::Gid(Gid(vocabulary::id(random))),
    };
    ConnectRule { context, verdict: verdict(random), who }
}

fn own_rule(random: &mut Random) -> OwnRule {
    let name = match random.below(10) {
        0 => NameMatcher::Any,
        1..=5 => NameMatcher::Name(vocabulary::name(random)),
        _ => NameMatcher::Prefix(vocabulary::name(random)),
    };
    OwnRule { context: context(random), verdict: verdict(random), name }
}

fn transaction_rule(random: &mut Random) -> TransactionRule {
    let direction = if random.chance(50) { Direction::Send } else { Direction::Receive };
    let message_type = random.pick(&[None, None, Some(1), Some(4)]);
    TransactionRule {
        context: context(random),
        verdict: verdict(random),
        direction,
        message_type,
        name: random.chance(50).then(|| vocabulary::name(random)),
        path: random.chance(20).then(|| vocabulary::path(random)),
        interface: random.chance(20).then(|| vocabulary::interface(random)),
        member: random.chance(20).then(|| vocabulary::member(random)),
    }
}
