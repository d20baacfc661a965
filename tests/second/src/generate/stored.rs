//! Stored images with own rules about prefixes, as the converter gets them.

use super::random::Random;
use super::{images, vocabulary};
use crate::image::{MAX_LENGTH, MAX_OWN};
use crate::image_write;
use crate::names::BUS_NAME;
use crate::policy::{
    ConnectRule, Context, Direction, Gid, NameMatcher, OwnRule, Policy, TransactionRule, Uid, Verdict, Who,
};

/// Names that are below each other, that only begin like each other, and that have nothing in common.
pub const NAMES: [&str; 16] = [
    "org.foo",
    "org.foo.bar",
    "org.foo.bar.baz",
    "org.foobar",
    "org.foo-bar",
    "org.foo_.bar",
    "org.fo",
    "org.foo.b",
    "org.foo.ba.r",
    "com.org.foo",
    "org.a.x",
    "org.a",
    "a.b",
    "-.-",
    "org.freedesktop",
    BUS_NAME,
];

pub fn name(random: &mut Random) -> String {
    match random.below(20) {
        0 => vocabulary::longer("org.foo.", 255),
        1 => vocabulary::longer("com.x.", 255),
        _ => random.pick(&NAMES).to_string(),
    }
}

/// A good policy of up to 256 own rules.
pub fn policy(random: &mut Random) -> Policy {
    let count = match random.below(20) {
        0..=1 => 0,
        2..=4 => 1,
        5..=15 => random.between(2, 9),
        16..=18 => random.between(10, 40),
        _ => MAX_OWN,
    };
    // Some images have no rule about a prefix, and some no other.
    let prefixes = random.pick(&[0, 40, 40, 40, 60, 100]);
    let own = (0..count).map(|_| own_rule(random, prefixes)).collect();
    let connect = (0..random.below(3)).map(|_| connect_rule(random)).collect();
    let transaction = (0..random.below(3)).map(|_| transaction_rule(random)).collect();
    Policy { connect, own, transaction }
}

fn verdict(random: &mut Random) -> Verdict {
    random.pick(&[Verdict::Allow, Verdict::Deny])
}

fn context(random: &mut Random) -> Context {
    let id = vocabulary::id(random);
    random.pick(&[Context::Default, Context::Group(Gid(id)), Context::User(Uid(id)), Context::Mandatory])
}

/// A rule about a prefix that is among the names of captures.
pub fn prefix_rule(random: &mut Random) -> OwnRule {
    let verdict = verdict(random);
    let name = NameMatcher::Prefix(vocabulary::name(random));
    OwnRule { context: context(random), verdict, name }
}

fn own_rule(random: &mut Random, prefixes: usize) -> OwnRule {
    let name = match random.chance(prefixes) {
        true => NameMatcher::Prefix(name(random)),
        false if random.chance(20) => NameMatcher::Any,
        false => NameMatcher::Name(name(random)),
    };
    OwnRule { context: context(random), verdict: verdict(random), name }
}

fn connect_rule(random: &mut Random) -> ConnectRule {
    let context = random.pick(&[Context::Default, Context::Mandatory]);
    let id = vocabulary::id(random);
    let who = random.pick(&[Who::Any, Who::Uid(Uid(id)), Who::Gid(Gid(id))]);
    ConnectRule { context, verdict: verdict(random), who }
}

fn transaction_rule(random: &mut Random) -> TransactionRule {
    TransactionRule {
        context: context(random),
        verdict: verdict(random),
        direction: random.pick(&[Direction::Send, Direction::Receive]),
        message_type: random.pick(&[None, Some(1), Some(4)]),
        name: random.chance(60).then(|| name(random)),
        path: random.chance(40).then(|| vocabulary::path(random)),
        interface: random.chance(40).then(|| vocabulary::interface(random)),
        member: random.chance(40).then(|| vocabulary::member(random)),
    }
}

/// The image of a policy, often with bytes behind the strings that no rule cites. They may be the
/// text of a name, which is then no reason not to add it.
pub fn image(random: &mut Random, policy: &Policy) -> Vec<u8> {
    let image = image_write::write(policy).unwrap_or_default();
    let uncited = match random.below(10) {
        0..=1 => name(random).into_bytes(),
        2 => random.bytes(7),
        _ => Vec::new(),
    };
    with_uncited(image, &uncited)
}

/// The image with more bytes in its string area, as far as there may be more.
pub fn with_uncited(mut image: Vec<u8>, uncited: &[u8]) -> Vec<u8> {
    let spare = MAX_LENGTH.saturating_sub(image.len());
    image.extend(&uncited[..uncited.len().min(spare)]);
    let total = image.len() as u32;
    image[..4].copy_from_slice(&total.to_le_bytes());
    image
}

/// A bad image, with a rule about a prefix or without one.
pub fn bad_image(random: &mut Random) -> Vec<u8> {
    match random.chance(60) {
        true => images::broken_with_prefix(random),
        false => images::broken(random),
    }
}
