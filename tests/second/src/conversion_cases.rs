//! What conversions come to: the cases that each of them shows, by its answer.

use crate::answer::Answer;
use crate::conversions::{self, Conversion, FILLING};
use crate::convert::retire;
use crate::image::{self, MAX_LENGTH, MAX_OWN};
use crate::names::{BUS_NAME, MAX_NAME_LENGTH};
use crate::policy::{Context, NameMatcher, OwnRule, Policy, Verdict, Who};
use crate::reckoning::{covered_by, is_covered, read_list, reckon, List, ListFault, Reckoned};
use crate::wire::ByteOrder;
use std::collections::BTreeMap;

/// Every case; a good set of conversions meets each of them often.
pub const CASES: [&str; 57] = [
    "0 without own rules",
    "0 without prefixes, nothing listed",
    "0 without prefixes, names listed",
    "0 with prefixes, nothing listed",
    "0 with 256 own rules before",
    "0 with 256 own rules, more than before",
    "0 with 65,536 bytes before",
    "0 with 65,536 bytes, more than before",
    "0 with no own rule left",
    "0 with a prefix that covers nothing beside one that covers something",
    "0 with a prefix that covers several names",
    "0 with a name that several prefixes cover",
    "0 with equal prefixes over one name",
    "0 with nested prefixes over one name",
    "0 with an allow and a deny over one name",
    "0 with a covering allow",
    "0 with a covering deny",
    "0 with a covering default rule",
    "0 with a covering group's rule",
    "0 with a covering user's rule",
    "0 with a covering mandatory rule",
    "0 with other rules before and behind a covering one",
    "0 with the prefix itself listed",
    "0 with a name that goes on behind a prefix without a dot",
    "0 with a covered name that stands in the old strings",
    "0 with a covered name that an exact rule is about",
    "0 with a name that is not covered before one that is",
    "0 with a covered name of 255 bytes",
    "0 with a name of 255 bytes that is not covered",
    "0 with the bus's name covered",
    "0 with the bus's name not covered",
    "0 with connect rules about a gid",
    "0 with transaction rules that cite strings",
    "0 into a room just long enough",
    "0 into a room one longer",
    "0 into a room longer by 100 and more",
    "0 into a room shorter than the old image",
    "50 alone",
    "50 before 54",
    "50 with a room of 0",
    "53 for 257 own rules alone",
    "53 for more own rules alone",
    "53 for 65,537 bytes alone",
    "53 for a room one shorter alone",
    "53 for a room of 0 alone",
    "53 for a room as long as the old image alone",
    "53 without prefixes",
    "54 for a length byte at the end",
    "54 for a cut name",
    "54 for an empty name",
    "54 for an ill-formed name",
    "54 for a name repeated at once",
    "54 for a name repeated later",
    "54 without prefixes",
    "54 before 53 for the room",
    "54 before 53 for the own rules",
    "54 behind names that are good",
];

/// How often each case came, and how many conversions there were by answer.
#[derive(Default)]
pub struct ConversionCoverage {
    answers: BTreeMap<u32, u64>,
    cases: BTreeMap<&'static str, u64>,
}

impl ConversionCoverage {
    /// Adds a conversion file; false where it is broken.
    pub fn add(&mut self, file: &[u8]) -> bool {
        let (conversions, is_whole) = conversions::read(file);
        for conversion in &conversions {
            let mut room = vec![FILLING; conversion.room as usize];
            let answer = retire(&conversion.image, &conversion.list, &mut room).answer;
            *self.answers.entry(answer.number()).or_default() += 1;
            for case in of_conversion(conversion, answer) {
                *self.cases.entry(case).or_default() += 1;
            }
        }
        is_whole
    }

    pub fn never(&self) -> Vec<&'static str> {
        CASES.into_iter().filter(|case| !self.cases.contains_key(case)).collect()
    }

    pub fn report(&self) -> String {
        let mut text = format!("{} conversions\n", self.answers.values().sum::<u64>());
        for (answer, count) in &self.answers {
            text += &format!("answer {answer}: {count}\n");
        }
        for (case, count) in &self.cases {
            text += &format!("case conversions, {case}: {count}\n");
        }
        text
    }
}

/// The cases of one conversion that was so answered.
pub fn of_conversion(conversion: &Conversion, answer: Answer) -> Vec<&'static str> {
    let list = read_list(&conversion.list);
    let Ok(policy) = image::read(&conversion.image) else {
        return known(answer == Answer::BadImage, of_bad_image(conversion, &list));
    };
    let strings_at = ByteOrder::Little.read_u32(&conversion.image, 28) as usize;
    let strings = &conversion.image[strings_at..];
    let seen = Seen {
        reckoned: reckon(&policy, strings.len(), &list.names),
        has_prefixes: policy.own.iter().any(OwnRule::is_about_a_prefix),
        old: conversion.image.len(),
        room: conversion.room as usize,
        policy,
        strings,
        list,
    };
    match answer {
        Answer::Done => {
            let cases = [seen.of_sizes(), seen.of_rules(), seen.of_covering(), seen.of_names()];
            known(true, cases.concat())
        }
        Answer::TooLarge => known(true, seen.of_too_large()),
        Answer::BadList => known(true, seen.of_bad_list()),
        _ => Vec::new(),
    }
}

type Found = Vec<(&'static str, bool)>;

fn known(is_so: bool, found: Found) -> Vec<&'static str> {
    found.into_iter().filter(|(_, holds)| is_so && *holds).map(|(case, _)| case).collect()
}

fn of_bad_image(conversion: &Conversion, list: &List) -> Found {
    let is_long = conversion.room as usize >= conversion.image.len();
    vec![
        ("50 alone", list.fault.is_none() && is_long),
        ("50 before 54", list.fault.is_some()),
        ("50 with a room of 0", conversion.room == 0),
    ]
}

/// A conversion of a good image.
struct Seen<'a> {
    policy: Policy,
    strings: &'a [u8],
    list: List,
    reckoned: Reckoned,
    has_prefixes: bool,
    /// How long the old image is.
    old: usize,
    room: usize,
}

impl Seen<'_> {
    fn prefixes(&self) -> impl Iterator<Item = &OwnRule> {
        self.policy.own.iter().filter(|rule| rule.is_about_a_prefix())
    }

    /// The rules about prefixes that cover a listed name.
    fn covering(&self) -> impl Iterator<Item = &OwnRule> {
        self.prefixes().filter(|rule| !covered_by(rule, &self.list.names).is_empty())
    }

    fn covered(&self) -> impl Iterator<Item = &String> {
        self.list.names.iter().filter(|name| is_covered(&self.policy, name))
    }

    fn uncovered(&self) -> impl Iterator<Item = &String> {
        self.list.names.iter().filter(|name| !is_covered(&self.policy, name))
    }

    fn of_sizes(&self) -> Found {
        let Reckoned { own, length } = self.reckoned;
        let (before, names) = (self.policy.own.len(), self.list.names.len());
        vec![
            ("0 without own rules", before == 0),
            ("0 without prefixes, nothing listed", !self.has_prefixes && names == 0),
            ("0 without prefixes, names listed", !self.has_prefixes && names > 0),
            ("0 with prefixes, nothing listed", self.has_prefixes && names == 0),
            ("0 with 256 own rules before", before == MAX_OWN && self.has_prefixes),
            ("0 with 256 own rules, more than before", own == MAX_OWN && own > before),
            ("0 with 65,536 bytes before", self.old == MAX_LENGTH && self.has_prefixes),
            ("0 with 65,536 bytes, more than before", length == MAX_LENGTH && length > self.old),
            ("0 with no own rule left", own == 0 && before > 0),
            ("0 into a room just long enough", self.room == length),
            ("0 into a room one longer", self.room == length + 1),
            ("0 into a room longer by 100 and more", self.room >= length + 100),
            ("0 into a room shorter than the old image", self.room < self.old),
        ]
    }

    fn of_rules(&self) -> Found {
        let is_gid = self.policy.connect.iter().any(|rule| matches!(rule.who, Who::Gid(_)));
        let cites = self.policy.transaction.iter().any(|rule| rule.name.is_some() || rule.path.is_some());
        let has = |test: &dyn Fn(&OwnRule) -> bool| self.covering().any(test);
        let covers = |rule: &&OwnRule| !covered_by(rule, &self.list.names).is_empty();
        let first = self.policy.own.iter().position(|rule| covers(&rule)).unwrap_or(0);
        let behind = self.policy.own.iter().skip(first + 1).any(|rule| !rule.is_about_a_prefix());
        let before = self.policy.own.iter().take(first).any(|rule| !rule.is_about_a_prefix());
        let count = self.covering().count();
        let some_cover = count > 0 && self.prefixes().count() > count;
        vec![
            ("0 with connect rules about a gid", is_gid && count > 0),
            ("0 with transaction rules that cite strings", cites && count > 0),
            ("0 with a covering allow", has(&|rule| rule.verdict == Verdict::Allow)),
            ("0 with a covering deny", has(&|rule| rule.verdict == Verdict::Deny)),
            ("0 with a covering default rule", has(&|rule| rule.context == Context::Default)),
            ("0 with a covering group's rule", has(&|rule| matches!(rule.context, Context::Group(_)))),
            ("0 with a covering user's rule", has(&|rule| matches!(rule.context, Context::User(_)))),
            ("0 with a covering mandatory rule", has(&|rule| rule.context == Context::Mandatory)),
            ("0 with other rules before and behind a covering one", before && behind),
            ("0 with a prefix that covers nothing beside one that covers something", some_cover),
        ]
    }

    /// What several rules or names have to do with each other.
    fn of_covering(&self) -> Found {
        let over = |name: &String| -> Vec<&OwnRule> {
            self.prefixes().filter(|rule| rule.name.matches(name)).collect()
        };
        let pairs: Vec<(&OwnRule, &OwnRule)> = self
            .covered()
            .flat_map(|name| {
                let rules = over(name);
                rules.iter().skip(1).map(|other| (rules[0], *other)).collect::<Vec<_>>()
            })
            .collect();
        let several = self.covering().any(|rule| covered_by(rule, &self.list.names).len() > 1);
        vec![
            ("0 with a prefix that covers several names", several),
            ("0 with a name that several prefixes cover", !pairs.is_empty()),
            ("0 with equal prefixes over one name", pairs.iter().any(|(one, other)| one.name == other.name)),
            ("0 with nested prefixes over one name", pairs.iter().any(|(one, other)| one.name != other.name)),
            (
                "0 with an allow and a deny over one name",
                pairs.iter().any(|(one, other)| one.verdict != other.verdict),
            ),
        ]
    }

    fn of_names(&self) -> Found {
        let is_prefix = |name: &String| self.prefixes().any(|rule| text_of(rule) == Some(name));
        let is_exact = |name: &&String| {
            self.policy.own.iter().any(|rule| matches!(&rule.name, NameMatcher::Name(text) if text == *name))
        };
        let stands = |name: &&String| self.strings.windows(name.len()).any(|text| text == name.as_bytes());
        let goes_on = |name: &&String| {
            let begins = |text: &String| name.starts_with(text.as_str()) && name.len() > text.len();
            self.prefixes().any(|rule| text_of(rule).is_some_and(begins) && !rule.name.matches(name))
        };
        let first = self.list.names.first();
        let any_covered = self.covered().next().is_some();
        let is_longest = |name: &&String| name.len() == MAX_NAME_LENGTH;
        vec![
            ("0 with the prefix itself listed", self.covered().any(is_prefix)),
            (
                "0 with a name that goes on behind a prefix without a dot",
                self.uncovered().any(|n| goes_on(&n)),
            ),
            ("0 with a covered name that stands in the old strings", self.covered().any(|n| stands(&n))),
            ("0 with a covered name that an exact rule is about", self.covered().any(|n| is_exact(&n))),
            (
                "0 with a name that is not covered before one that is",
                any_covered && first.is_some_and(|name| !is_covered(&self.policy, name)),
            ),
            ("0 with a covered name of 255 bytes", self.covered().any(|n| is_longest(&n))),
            ("0 with a name of 255 bytes that is not covered", self.uncovered().any(|n| is_longest(&n))),
            ("0 with the bus's name covered", self.covered().any(|name| name == BUS_NAME)),
            ("0 with the bus's name not covered", self.uncovered().any(|name| name == BUS_NAME)),
        ]
    }

    /// What alone makes the conversion too large; the own rules of a list that is far too long are
    /// more bytes than there may be, too.
    fn of_too_large(&self) -> Found {
        let Reckoned { own, length } = self.reckoned;
        let [many, long, beyond] = [own > MAX_OWN, length > MAX_LENGTH, self.room < length];
        let room_alone = beyond && !many && !long;
        vec![
            ("53 for 257 own rules alone", own == MAX_OWN + 1 && !long && !beyond),
            ("53 for more own rules alone", own > MAX_OWN + 1 && !long && !beyond),
            ("53 for 65,537 bytes alone", length == MAX_LENGTH + 1 && !many && !beyond),
            ("53 for a room one shorter alone", self.room + 1 == length && room_alone),
            ("53 for a room of 0 alone", self.room == 0 && room_alone),
            ("53 for a room as long as the old image alone", self.room == self.old && room_alone),
            ("53 without prefixes", !self.has_prefixes),
        ]
    }

    fn of_bad_list(&self) -> Found {
        let is = |fault| self.list.fault == Some(fault);
        vec![
            ("54 for a length byte at the end", is(ListFault::LengthAtTheEnd)),
            ("54 for a cut name", is(ListFault::Cut)),
            ("54 for an empty name", is(ListFault::Empty)),
            ("54 for an ill-formed name", is(ListFault::IllFormed)),
            ("54 for a name repeated at once", is(ListFault::RepeatedAtOnce)),
            ("54 for a name repeated later", is(ListFault::RepeatedLater)),
            ("54 without prefixes", !self.has_prefixes),
            ("54 before 53 for the room", self.room < self.reckoned.length),
            ("54 before 53 for the own rules", self.reckoned.own > MAX_OWN),
            ("54 behind names that are good", !self.list.names.is_empty()),
        ]
    }
}

fn text_of(rule: &OwnRule) -> Option<&String> {
    match &rule.name {
        NameMatcher::Any => None,
        NameMatcher::Name(text) | NameMatcher::Prefix(text) => Some(text),
    }
}
