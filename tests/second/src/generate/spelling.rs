//! Names spelled with all the characters of their form: good ones, and ones with a single fault.

use super::random::Random;
use crate::name_forms::Form;

/// Both ends of each range of characters, and the characters that stand alone.
const ENDS: &[u8] = b"AZaz09_-";

/// Bytes that a careless test might take for characters: the neighbours of the ranges, marks
/// of other forms, and bytes with the top bit set, some of which are letters without it.
const STRANGERS: &[u8] = b"/:@[`{-.^,\x00\x7f\x80\xb0\xc1\xc3\xdf\xfa\xff";

/// Lengths round those that a test might take in one go, and the longest.
const LENGTHS: [usize; 12] = [8, 9, 15, 16, 17, 31, 32, 33, 34, 64, 65, 255];

pub fn good(random: &mut Random, form: Form) -> String {
    let name = form.join(&elements(random, form));
    // A good name is plain ASCII, so nothing is lost.
    String::from_utf8_lossy(&name).into_owned()
}

/// A name with one fault: a byte that is no character, a digit that leads an element, or an
/// empty element.
pub fn bad(random: &mut Random, form: Form) -> Vec<u8> {
    let mut elements = elements(random, form);
    let at = random.below(elements.len());
    match random.below(10) {
        0..=2 if !form.is_led_by_digits() => elements[at][0] = random.pick(b"0123456789"),
        3..=4 if elements.len() > 1 => elements[at].clear(),
        _ => put_stranger(random, form, &mut elements),
    }
    form.join(&elements)
}

fn elements(random: &mut Random, form: Form) -> Vec<Vec<u8>> {
    let most = if form.separator().is_some() { 4 } else { 1 };
    let count = random.between(form.fewest_elements(), most);
    let length = if random.chance(30) { random.pick(&LENGTHS) } else { random.between(1, 12) };
    let mut elements: Vec<Vec<u8>> = (0..count).map(|_| vec![leading_character(random, form)]).collect();
    for _ in form.join(&elements).len()..length {
        let at = random.below(count);
        elements[at].push(character(random, form));
    }
    elements
}

fn character(random: &mut Random, form: Form) -> u8 {
    loop {
        let byte = if random.chance(50) { random.pick(ENDS) } else { random.byte() & 127 };
        if form.is_character(byte) {
            return byte;
        }
    }
}

fn leading_character(random: &mut Random, form: Form) -> u8 {
    loop {
        let byte = character(random, form);
        if form.is_led_by_digits() || !byte.is_ascii_digit() {
            return byte;
        }
    }
}

/// At the very end of the name, or first, in the middle or last in any element.
fn put_stranger(random: &mut Random, form: Form, elements: &mut [Vec<u8>]) {
    let at_the_end = random.chance(30);
    let at = if at_the_end { elements.len() - 1 } else { random.below(elements.len()) };
    let last = elements[at].len() - 1;
    let place = if at_the_end { last } else { random.pick(&[0, last / 2, last]) };
    elements[at][place] = stranger(random, form);
}

fn stranger(random: &mut Random, form: Form) -> u8 {
    loop {
        let byte = if random.chance(75) { random.pick(STRANGERS) } else { random.byte() };
        if form.separator() != Some(byte) && !form.is_character(byte) {
            return byte;
        }
    }
}
