//! Few distinct ids, names and paths, so that rules, owners and replies really meet.

use super::random::Random;
use super::spelling;
use crate::header::{ERROR_NAME, INTERFACE, MEMBER, PATH, SIGNATURE};
use crate::name_forms::Form;
use crate::names::BUS_NAME;

/// Users and groups share their numbers on purpose: they must not be mixed up.
pub const IDS: [u32; 6] = [0, 5, 6, 1000, 1001, u32::MAX];

const NAMES: [&str; 9] = [
    "org.a.x",
    "org.b.y",
    "org.foo",
    "org.foo.bar",
    "org.foobar",
    "com.a-b.c",
    "a.b",
    "-.-",
    "org.foo.bar.baz",
];
const PATHS: [&str; 6] = ["/", "/a", "/a/b", "/1", "/org/theatre/Fans_1", "/a_b"];
const INTERFACES: [&str; 5] = ["a.b", "org.foo.I", "_.a1", "a.b.c", "org.foo.I2"];
const MEMBERS: [&str; 5] = ["M", "Get", "_1", "SetSpeed", "m"];
const ERRORS: [&str; 2] = ["org.foo.Error.No", "a.b"];
const SIGNATURES: [&str; 12] = [
    "",
    "y",
    "s",
    "a{sv}",
    "(ii)",
    "aay",
    "a{s(iav)}",
    "ybnqiuxtdsoghv",
    "a(y(b))",
    "a{oa{sa{sv}}}",
    "vv",
    "h",
];

const NOT_WELL_KNOWN: [&str; 14] = [
    "",
    "org",
    "org.",
    ".org",
    "org..a",
    "org.1a",
    "1a.b",
    ":1.1",
    "a.b/c",
    "org.a\u{e9}",
    "a b.c",
    "org.a.",
    ":",
    "a.b\0",
];
const NOT_BUS_NAMES: [&str; 11] =
    ["", "org", "org.", ":1", ":1.", ":.1", ":", "::1.1", "a..b", "1.a", ":1.1\u{e9}"];
const NOT_PATHS: [&str; 9] = ["", "a", "//", "/a/", "/a//b", "/a-b", "/a.b", "a/b", "/\0"];
const NOT_INTERFACES: [&str; 10] = ["", "a", "a.", ".a", "a..b", "a.1", "1.a", "a-b.c", "a.b c", ":1.1"];
const NOT_MEMBERS: [&str; 7] = ["", "1a", "a.b", "a-b", "a b", ".", "\u{e9}"];
const NOT_SIGNATURES: [&str; 16] = [
    "a", "()", "{sv}", "a{vs}", "a{s}", "a{sss}", "(", ")", "(i", "i)", "z", "aa", "a{(i)s}", "a{sv", "(a)",
    "r",
];

/// `start` made longer with letters to `length` bytes.
pub fn longer(start: &str, length: usize) -> String {
    let mut text = start.to_string();
    while text.len() < length {
        text.push('x');
    }
    text
}

pub fn id(random: &mut Random) -> u32 {
    random.pick(&IDS)
}

pub fn name(random: &mut Random) -> String {
    match random.below(40) {
        0 => longer("org.a.", 255),
        1 => BUS_NAME.to_string(),
        2 => spelling::good(random, Form::WellKnown),
        _ => random.pick(&NAMES).to_string(),
    }
}

pub fn path(random: &mut Random) -> String {
    match random.below(40) {
        0 => longer("/a/", 256),
        1 => longer("/", 300),
        2 => spelling::good(random, Form::Path),
        _ => random.pick(&PATHS).to_string(),
    }
}

pub fn interface(random: &mut Random) -> String {
    match random.below(40) {
        0 => longer("a.b", 255),
        1 => spelling::good(random, Form::Interface),
        _ => random.pick(&INTERFACES).to_string(),
    }
}

pub fn member(random: &mut Random) -> String {
    match random.below(40) {
        0 => longer("M", 255),
        1 => spelling::good(random, Form::Member),
        _ => random.pick(&MEMBERS).to_string(),
    }
}

pub fn error_name(random: &mut Random) -> String {
    match random.below(40) {
        0 => longer("a.b", 255),
        1..=4 => spelling::good(random, Form::ErrorName),
        _ => random.pick(&ERRORS).to_string(),
    }
}

pub fn signature(random: &mut Random) -> String {
    match random.below(20) {
        0 => "a".repeat(32) + "y",
        1 => "(".repeat(32) + "i" + &")".repeat(32),
        2 => "a(".repeat(32) + "i" + &")".repeat(32),
        3 => "a{s".repeat(32) + "v" + &"}".repeat(32),
        4 => "y".repeat(255),
        5 => "a".repeat(31) + "(ayay)" + &"a".repeat(32) + "i",
        _ => random.pick(&SIGNATURES).to_string(),
    }
}

fn bad_signature(random: &mut Random) -> String {
    match random.below(12) {
        0 => "a".repeat(33) + "y",
        1 => "(".repeat(33) + "i" + &")".repeat(33),
        2 => "a".repeat(32) + "(ay)",
        3 => "a{s".repeat(33) + "v" + &"}".repeat(33),
        4 => "(a".repeat(33) + "i" + &")".repeat(33),
        5 => "y".repeat(254) + "a",
        _ => random.pick(&NOT_SIGNATURES).to_string(),
    }
}

pub fn not_well_known(random: &mut Random) -> Vec<u8> {
    match random.below(30) {
        0..=1 => longer("org.a.", 256).into_bytes(),
        2..=3 => longer("org.a.", 1000).into_bytes(),
        4..=15 => random.pick(&NOT_WELL_KNOWN).into(),
        _ => spelling::bad(random, Form::WellKnown),
    }
}

/// A value that breaks the rule of field `code`.
pub fn bad_value(random: &mut Random, code: u8) -> Vec<u8> {
    // One bus name in two is meant to be unique.
    let front = random.pick(&[b":".as_slice(), b""]);
    match Form::of_field(code, front) {
        Some(form) if random.chance(70) => spelling::bad(random, form),
        _ => known_bad_value(random, code).into_bytes(),
    }
}

fn known_bad_value(random: &mut Random, code: u8) -> String {
    let one_too_long = random.chance(15);
    match code {
        PATH => random.pick(&NOT_PATHS).to_string(),
        INTERFACE | ERROR_NAME if one_too_long => longer("a.b", 256),
        INTERFACE | ERROR_NAME => random.pick(&NOT_INTERFACES).to_string(),
        MEMBER if one_too_long => longer("M", 256),
        MEMBER => random.pick(&NOT_MEMBERS).to_string(),
        SIGNATURE => bad_signature(random),
        _ if one_too_long => longer(":1.", 256),
        _ => random.pick(&NOT_BUS_NAMES).to_string(),
    }
}
