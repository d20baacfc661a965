//! Conversions: stored images, lists of names and rooms, at the limits and one beyond them.

use super::random::Random;
use super::{spelling, stored, vocabulary};
use crate::conversions::{self, Conversion};
use crate::image::{self, MAX_LENGTH, MAX_OWN};
use crate::name_forms::Form;
use crate::policy::{Context, NameMatcher, OwnRule, Policy, Verdict};
use crate::reckoning::{read_list, reckon, Reckoned};
use crate::wire::ByteOrder;

/// The conversion file that a seed stands for.
pub fn generate(seed: u64, count: usize) -> Vec<u8> {
    let mut random = Random::new(seed);
    let conversions: Vec<Conversion> = (0..count).map(|_| conversion(&mut random)).collect();
    conversions::write(&conversions)
}

fn conversion(random: &mut Random) -> Conversion {
    let (image, names) = match random.below(20) {
        0..=2 => many_rules(random),
        3..=5 => many_bytes(random),
        6..=7 => (stored::bad_image(random), names(random)),
        _ => {
            let policy = stored::policy(random);
            (stored::image(random, &policy), names(random))
        }
    };
    let list = match random.chance(22) {
        true => bad_list(random, &names),
        false => list_of(&names),
    };
    let room = room(random, &image, &list);
    Conversion { image, list, room }
}

fn list_of(names: &[Vec<u8>]) -> Vec<u8> {
    names.iter().flat_map(|name| [&[name.len() as u8], name.as_slice()].concat()).collect()
}

/// Different names, most of which are about what rules are about.
fn names(random: &mut Random) -> Vec<Vec<u8>> {
    let count = random.pick(&[0, 0, 1, 1, 2, 3, 5, 8, 12]);
    let mut names: Vec<Vec<u8>> = Vec::new();
    for _ in 0..count {
        let name = match random.chance(8) {
            true => spelling::good(random, Form::WellKnown),
            false => stored::name(random),
        };
        if !names.contains(&name.clone().into_bytes()) {
            names.push(name.into_bytes());
        }
    }
    names
}

/// Names below a prefix.
fn numbered(prefix: &str, count: usize) -> Vec<Vec<u8>> {
    (0..count).map(|number| format!("{prefix}.n{number}").into_bytes()).collect()
}

/// Rules that become about as many as there may be.
fn many_rules(random: &mut Random) -> (Vec<u8>, Vec<Vec<u8>>) {
    let wanted = MAX_OWN + random.pick(&[0, 0, 1, 1, 2, 40]) - random.pick(&[0, 0, 0, 1]);
    let (prefixes, covered) = random.pick(&[(1, 2), (1, 7), (2, 3), (16, 16), (1, 256), (1, 257), (5, 40)]);
    let rule = |name| OwnRule { context: Context::Default, verdict: Verdict::Deny, name };
    let exact = wanted.saturating_sub(prefixes * covered).min(MAX_OWN - prefixes);
    let mut own = vec![rule(NameMatcher::Name("org.foo".to_string())); exact];
    for _ in 0..prefixes {
        let place = random.below(own.len() + 1);
        own.insert(place, rule(NameMatcher::Prefix("org.foo".to_string())));
    }
    let policy = Policy { own, ..stored::policy(random) };
    (stored::image(random, &policy), numbered("org.foo", covered))
}

/// An image that is filled with bytes which no rule cites, so that it becomes about as long as one
/// may be, or is so before.
fn many_bytes(random: &mut Random) -> (Vec<u8>, Vec<Vec<u8>>) {
    let name = NameMatcher::Prefix("org.foo".to_string());
    let mut policy = Policy { own: Vec::new(), ..stored::policy(random) };
    policy.own.push(OwnRule { context: Context::Default, verdict: Verdict::Allow, name });
    let names = numbered("org.foo", random.pick(&[0, 1, 2, 9]));
    let image = stored::image(random, &policy);
    let wanted = MAX_LENGTH + random.pick(&[0, 0, 1, 1, 2]) - random.pick(&[0, 0, 0, 1]);
    let length = reckoned(&image, &list_of(&names)).map_or(MAX_LENGTH, |reckoned| reckoned.length);
    let uncited = vec![b'u'; wanted.saturating_sub(length)];
    (stored::with_uncited(image, &uncited), names)
}

/// What the conversion must come to; none for a bad image.
fn reckoned(image: &[u8], list: &[u8]) -> Option<Reckoned> {
    let policy = image::read(image).ok()?;
    let strings = image.len() - ByteOrder::Little.read_u32(image, 28) as usize;
    Some(reckon(&policy, strings, &read_list(list).names))
}

/// A list with one fault.
fn bad_list(random: &mut Random, names: &[Vec<u8>]) -> Vec<u8> {
    let mut names = names.to_vec();
    let place = random.pick(&[0, names.len() / 2, names.len()]);
    match random.below(10) {
        0 => return [list_of(&names), vec![random.pick(&[1, 5, 255])]].concat(),
        1 => {
            names.push(stored::name(random).into_bytes());
            let list = list_of(&names);
            let last = names.last().map_or(0, Vec::len);
            return list[..list.len() - random.between(1, last - 1)].to_vec();
        }
        2..=3 => names.insert(place, Vec::new()),
        4..=5 => names.insert(place, ill_formed(random)),
        6..=7 => {
            names.extend(others(&names));
            let place = random.below(names.len());
            names.insert(place, names[place].clone());
        }
        _ => {
            names.extend(others(&names));
            names.push(names[0].clone());
        }
    }
    list_of(&names)
}

/// Two names that are not there yet.
fn others(names: &[Vec<u8>]) -> Vec<Vec<u8>> {
    let new = numbered("org.other", names.len() + 2).into_iter().filter(|name| !names.contains(name));
    new.take(2).collect()
}

/// A text that is no name, of a length that a byte can tell.
fn ill_formed(random: &mut Random) -> Vec<u8> {
    loop {
        let text = vocabulary::not_well_known(random);
        if !text.is_empty() && text.len() <= 255 {
            return text;
        }
    }
}

/// Rooms about as long as the new image, or as the old one.
fn room(random: &mut Random, image: &[u8], list: &[u8]) -> u32 {
    let old = image.len();
    let Some(Reckoned { length: new, .. }) = reckoned(image, list) else {
        return random.pick(&[old, old, old + 9, 0]) as u32;
    };
    // What is too large anyway is to be so for this reason alone.
    if new > MAX_LENGTH && random.chance(80) {
        return new as u32;
    }
    let room = match random.below(20) {
        0..=7 => new,
        8..=10 => new.saturating_sub(1),
        11..=12 => new + 1,
        13..=14 => new + random.between(100, 400),
        15..=16 => old,
        17 => 0,
        18 => old.saturating_sub(1),
        _ => random.below(new + 1),
    };
    room as u32
}
