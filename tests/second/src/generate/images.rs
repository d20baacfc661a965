//! Breaking good images, in every way that answer 50 knows.

use super::random::Random;
use super::{stored, vocabulary};
use crate::header::{INTERFACE, MEMBER, PATH};
use crate::image::{self, CONNECT_SIZE, HEADER_LENGTH, MAX_LENGTH, OWN_SIZE, TRANSACTION_SIZE};
use crate::image_write;
use crate::policy::{Context, Direction, Gid, NameMatcher, OwnRule, Policy, TransactionRule, Verdict};
use crate::wire::ByteOrder;

/// An image that breaks a rule, or in a few cases one that only looks as if it did.
pub fn broken(random: &mut Random) -> Vec<u8> {
    let good = sample(random);
    match random.below(12) {
        0..=3 => with_bad_string(random),
        4..=5 => break_header(random, good),
        6..=10 => break_rule(random, good),
        _ => with_random_bytes(random, good),
    }
}

/// Where the rules and strings of an image stand.
struct Places {
    connect: usize,
    own: usize,
    transaction: usize,
    strings: usize,
}

fn places(image: &[u8]) -> Places {
    let word = |at: usize| ByteOrder::Little.read_u32(image, at) as usize;
    Places { connect: word(8), own: word(16), transaction: word(24), strings: word(28) }
}

fn put(image: &mut [u8], at: usize, value: u32) {
    image[at..at + 4].copy_from_slice(&value.to_le_bytes());
}

/// An image with an own rule about a prefix that breaks another rule.
pub fn broken_with_prefix(random: &mut Random) -> Vec<u8> {
    let mut policy = image::read(&sample(random)).unwrap_or_default();
    policy.own.push(stored::prefix_rule(random));
    let good = image_write::write(&policy).unwrap_or_default();
    match random.chance(30) {
        true => break_header(random, good),
        false => break_rule(random, good),
    }
}

/// A good image with rules in every section and a literal in every place.
fn sample(random: &mut Random) -> Vec<u8> {
    let mut policy = super::policies::open();
    for _ in 0..random.between(1, 3) {
        let name = NameMatcher::Name(vocabulary::name(random));
        policy.own.push(OwnRule { context: Context::Group(Gid(5)), verdict: Verdict::Allow, name });
        policy.transaction.push(full_rule(random));
    }
    image_write::write(&policy).unwrap_or_default()
}

fn full_rule(random: &mut Random) -> TransactionRule {
    TransactionRule {
        context: Context::Default,
        verdict: Verdict::Allow,
        direction: Direction::Receive,
        message_type: Some(1),
        name: Some(vocabulary::name(random)),
        path: Some(vocabulary::path(random)),
        interface: Some(vocabulary::interface(random)),
        member: Some(vocabulary::member(random)),
    }
}

/// A rule whose text breaks its name rule; everything else is good.
fn with_bad_string(random: &mut Random) -> Vec<u8> {
    let mut policy = Policy::default();
    let mut rule = full_rule(random);
    let mut matcher = NameMatcher::Name("a.b".to_string());
    let place = random.below(6);
    let bad = bad_text(random, place);
    // A bad text may be no string at all, so another of its length is written first.
    let stand_in = "*".repeat(bad.len());
    match place {
        0 => rule.name = Some(stand_in),
        1 => rule.path = Some(stand_in),
        2 => rule.interface = Some(stand_in),
        3 => rule.member = Some(stand_in),
        4 => matcher = NameMatcher::Name(stand_in),
        _ => matcher = NameMatcher::Prefix(stand_in),
    }
    policy.own.push(OwnRule { context: Context::Default, verdict: Verdict::Deny, name: matcher });
    policy.transaction.push(rule);
    let mut image = image_write::write(&policy).unwrap_or_default();
    let strings = places(&image).strings;
    let stars = image[strings..].iter_mut().filter(|byte| **byte == b'*');
    stars.zip(bad).for_each(|(star, byte)| *star = byte);
    image
}

/// A text for one of the six places in which rules have one.
fn bad_text(random: &mut Random, place: usize) -> Vec<u8> {
    loop {
        let text = match place {
            1 => vocabulary::bad_value(random, PATH),
            2 => vocabulary::bad_value(random, INTERFACE),
            3 => vocabulary::bad_value(random, MEMBER),
            _ => vocabulary::not_well_known(random),
        };
        if !text.is_empty() {
            return text;
        }
    }
}

fn break_header(random: &mut Random, mut image: Vec<u8>) -> Vec<u8> {
    match random.below(10) {
        0 => {
            let most = random.pick(&[0, 1, 4, HEADER_LENGTH - 1]);
            image.truncate(most);
        }
        1 => {
            image.resize(MAX_LENGTH + random.between(1, 9), 0);
            let total = image.len() as u32;
            put(&mut image, 0, total);
        }
        2 => {
            let total = image.len() as u32;
            put(&mut image, 0, random.pick(&[total - 1, total + 1, 0, u32::MAX]));
        }
        3 => put_count(random, &mut image, 4, 257),
        4 => put_count(random, &mut image, 12, 257),
        5 => put_count(random, &mut image, 20, 513),
        6 => {
            let at = random.pick(&[8, 16, 24, 28]);
            let offset = ByteOrder::Little.read_u32(&image, at);
            put(&mut image, at, random.pick(&[0, offset - 1, offset + 1, offset + 8, u32::MAX]));
        }
        7 => image = cut_behind_the_rules(random, image),
        8 => put(&mut image, 8, random.pick(&[0, 31, 33, 40])),
        _ => {
            let shorter = image.len() - random.between(1, 8);
            image.truncate(shorter);
        }
    }
    image
}

/// A count one beyond its limit, a count that would wrap a product, or one that is off.
fn put_count(random: &mut Random, image: &mut [u8], at: usize, beyond: u32) {
    let count = ByteOrder::Little.read_u32(image, at);
    put(image, at, random.pick(&[beyond, beyond, u32::MAX, 0x2000_0000 + count, count + 1, count - 1]));
}

/// Sections that end behind the image, though its total is right.
fn cut_behind_the_rules(random: &mut Random, mut image: Vec<u8>) -> Vec<u8> {
    let end = places(&image).strings - random.between(1, 8);
    image.truncate(end);
    put(&mut image, 0, end as u32);
    image
}

fn break_rule(random: &mut Random, mut image: Vec<u8>) -> Vec<u8> {
    let Places { connect, own, transaction, strings } = places(&image);
    let past_open_own = own + OWN_SIZE;
    let past_open_transaction = transaction + 2 * TRANSACTION_SIZE;
    let area = (image.len() - strings) as u32;
    let high = random.pick(&[4, 5, 255]);
    match random.below(18) {
        0 => image[connect] = random.pick(&[1, 2]),
        1 => image[connect] = high,
        2 => image[random.pick(&[connect, own, transaction]) + 1] = random.pick(&[2, 255]),
        3 => image[random.pick(&[connect, own]) + 2] = random.pick(&[3, 255]),
        4 => image[random.pick(&[connect, own]) + 3] = random.pick(&[1, 255]),
        5 => put(&mut image, connect + CONNECT_SIZE - 4, 1),
        6 => image[random.pick(&[own, transaction])] = high,
        7 => put(&mut image, random.pick(&[own, transaction]) + 4, 5),
        8 => image[past_open_own] = random.pick(&[0, 3]),
        9 => put(&mut image, own + random.pick(&[8, 12]), 1),
        10 => put(&mut image, past_open_own + 12, 0),
        11 => put(&mut image, past_open_own + 12, random.pick(&[area + 1, u32::MAX])),
        12 => put(&mut image, past_open_own + 8, random.pick(&[area, area + 1, u32::MAX])),
        13 => image[transaction + 2] = random.pick(&[2, 255]),
        14 => image[transaction + 3] = random.pick(&[2, 3, 5, 255]),
        15 => put(&mut image, transaction + 8 + 8 * random.below(4), 1),
        16 => put(
            &mut image,
            past_open_transaction + 12 + 8 * random.below(4),
            random.pick(&[area + 1, u32::MAX]),
        ),
        _ => put(
            &mut image,
            past_open_transaction + 8 + 8 * random.below(4),
            random.pick(&[area, u32::MAX, 1]),
        ),
    }
    image
}

/// Bytes changed at random; such an image may happen to stay good.
fn with_random_bytes(random: &mut Random, mut image: Vec<u8>) -> Vec<u8> {
    loop {
        let at = random.below(image.len());
        image[at] ^= 1 << random.below(8);
        if random.chance(30) || image::read(&image).is_err() {
            return image;
        }
    }
}
