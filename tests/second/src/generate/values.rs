//! Random values of random types, for header fields without a rule of their own.

use super::random::Random;
use super::{spelling, vocabulary};
use crate::name_forms::Form;
use crate::signature::types_of;
use crate::typed::Typed;

pub const BASIC: &[u8] = b"ybnqiuxtdsogh";

/// Both ends of each length of UTF-8 and of the surrogates' gap, noncharacters, and others.
const CHARACTERS: [char; 18] = [
    '\u{1}',
    'a',
    ' ',
    '\u{7f}',
    '\u{80}',
    '\u{e9}',
    '\u{7ff}',
    '\u{800}',
    '\u{d7ff}',
    '\u{e000}',
    '\u{fdd0}',
    '\u{fffe}',
    '\u{ffff}',
    '\u{10000}',
    '\u{1f600}',
    '\u{fffff}',
    '\u{100000}',
    '\u{10ffff}',
];

/// Element types of arrays that have no elements.
const ELEMENTS: [&str; 10] = ["y", "q", "u", "t", "s", "v", "(y)", "{sv}", "at", "(a{yv})"];

/// One complete type with at most `depth` containers in each other.
pub fn one_type(random: &mut Random, depth: usize) -> Vec<u8> {
    if depth == 0 || random.chance(40) {
        return vec![if random.chance(12) { b'v' } else { random.pick(BASIC) }];
    }
    match random.below(3) {
        0 => [b"a".to_vec(), one_type(random, depth - 1)].concat(),
        1 => {
            let key = random.pick(BASIC);
            [b"a{", [key].as_slice(), &one_type(random, depth - 1), b"}"].concat()
        }
        _ => {
            let count = random.between(1, 4);
            let inside: Vec<u8> = (0..count).flat_map(|_| one_type(random, depth - 1)).collect();
            [b"(".to_vec(), inside, b")".to_vec()].concat()
        }
    }
}

/// A good value of one complete type, or of a dict entry's type.
pub fn value_of(random: &mut Random, one_type: &[u8], depth: usize) -> Typed {
    let inside = |random: &mut Random| {
        let types = types_of(&one_type[1..one_type.len() - 1]).unwrap_or_default();
        types.into_iter().map(|one_type| value_of(random, one_type, depth)).collect::<Vec<Typed>>()
    };
    match one_type[0] {
        b'a' => {
            let count = random.pick(&[0, 0, 1, 1, 1, 2, 3]);
            let elements = (0..count).map(|_| value_of(random, &one_type[1..], depth)).collect();
            Typed::Array(one_type[1..].to_vec(), elements)
        }
        b'(' => Typed::Struct(inside(random)),
        b'{' => {
            let mut both = inside(random).into_iter();
            let (key, value) = (both.next().unwrap_or(BYTE), both.next().unwrap_or(BYTE));
            Typed::entry(key, value)
        }
        b'v' => Typed::variant(value(random, depth.saturating_sub(1))),
        letter => basic(random, letter),
    }
}

const BYTE: Typed = Typed::Number(b'y', 0);

/// A value of a random type.
pub fn value(random: &mut Random, depth: usize) -> Typed {
    let one_type = one_type(random, depth);
    value_of(random, &one_type, depth)
}

pub fn basic(random: &mut Random, letter: u8) -> Typed {
    match letter {
        b's' => Typed::Text(letter, text(random).into_bytes()),
        b'o' => Typed::Text(letter, path(random).into_bytes()),
        b'g' => Typed::Text(letter, vocabulary::signature(random).into_bytes()),
        b'b' => Typed::Number(letter, random.below(2) as u64),
        _ => Typed::Number(letter, random.next_u64()),
    }
}

fn path(random: &mut Random) -> String {
    match random.chance(50) {
        true => spelling::good(random, Form::Path),
        false => vocabulary::path(random),
    }
}

/// A good string, empty, short or longer than a name may be.
pub fn text(random: &mut Random) -> String {
    let length = match random.below(20) {
        0..=3 => 0,
        4 => random.between(60, 100),
        _ => random.between(1, 6),
    };
    (0..length).map(|_| character(random)).collect()
}

fn character(random: &mut Random) -> char {
    let any = char::from_u32(random.between(1, 0x10_ffff) as u32);
    match any {
        Some(character) if random.chance(30) => character,
        _ => random.pick(&CHARACTERS),
    }
}

/// Parentheses round so many letters that the signature is close to its limit or at it.
pub fn long(random: &mut Random) -> Typed {
    let count = if random.chance(50) { 253 } else { random.between(60, 252) };
    let letters: Vec<u8> = (0..count).map(|_| random.pick(b"yyyyyyynqbg")).collect();
    let number = |random: &mut Random, letter| match letter {
        b'g' => Typed::text(letter, ""),
        _ => basic(random, letter),
    };
    Typed::Struct(letters.into_iter().map(|letter| number(random, letter)).collect())
}

/// More containers than may be open at once, one behind the other, so that few are.
pub fn wide(random: &mut Random) -> Typed {
    let empty = Typed::Array(b"y".to_vec(), Vec::new());
    let one = random.pick(&[Typed::variant(BYTE), Typed::Struct(vec![BYTE]), empty]);
    Typed::array(vec![one; random.between(64, 90)])
}

/// How far one signature has come, counted from its inside.
#[derive(Default)]
struct Nest {
    arrays: usize,
    parentheses: usize,
    open: usize,
}

/// A variant in which exactly `open` are open at once, of one kind of container or of all.
pub fn deep(random: &mut Random, open: usize) -> Typed {
    let kinds = random.pick(&[b"v".as_slice(), b"av", b"(v", b"{v", b"aaa(((v", b"va({", b"va({", b"vva({"]);
    let mut nest = Nest::default();
    let mut inside = match random.chance(40) {
        true => {
            nest = Nest { arrays: 4, parentheses: 2, open: 1 };
            Typed::Array(random.pick(&ELEMENTS).into(), Vec::new())
        }
        false => {
            let letter = random.pick(BASIC);
            basic(random, letter)
        }
    };
    while nest.open + 1 < open {
        let kind = random.pick(kinds);
        inside = layer(random, kind, inside, &mut nest, open - 1);
    }
    Typed::variant(inside)
}

/// One container more, or a variant where the signature has no room for another.
fn layer(random: &mut Random, kind: u8, inside: Typed, nest: &mut Nest, most: usize) -> Typed {
    let is_full = nest.arrays >= 32 || nest.parentheses >= 32;
    match kind {
        b'a' if !is_full => {
            *nest = Nest { arrays: nest.arrays + 1, open: nest.open + 1, ..*nest };
            Typed::array(vec![inside])
        }
        b'(' if !is_full => {
            *nest = Nest { parentheses: nest.parentheses + 1, open: nest.open + 1, ..*nest };
            Typed::Struct(vec![inside])
        }
        b'{' if !is_full && nest.open + 2 <= most => {
            *nest = Nest { arrays: nest.arrays + 1, open: nest.open + 2, ..*nest };
            let letter = random.pick(b"ybnqiuxtdh");
            Typed::array(vec![Typed::entry(basic(random, letter), inside)])
        }
        _ => {
            *nest = Nest { open: nest.open + 1, ..Nest::default() };
            Typed::variant(inside)
        }
    }
}
