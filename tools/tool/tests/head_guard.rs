//! The tool's reading of heads against the guard itself: thousands of heads, mended and broken.

mod cases;

use forms::message::{ByteOrder, Message, FIELDS};
use forms::policy::Uid;
use forms::{image, policy_text};
use std::collections::BTreeMap;
use tool::guard::Guard;
use tool::head::{self, Outcome};

/// A guard that allows everything, with one peer, and the heads that it was asked about.
struct Trial {
    image: Vec<u8>,
    guard: Guard,
    answers: BTreeMap<u32, usize>,
}

const ALL: &str =
    "connect default allow any\ntransaction default allow send any\ntransaction default allow receive any\n";

impl Trial {
    fn new() -> Trial {
        let image = image::write(&policy_text::parse(ALL).unwrap().policy).unwrap();
        let mut guard = Guard::new();
        assert_eq!(guard.connect(&image, Uid(0), &[]).answer, 0);
        Trial { image, guard, answers: BTreeMap::new() }
    }

    /// Reads bytes and offers them to a guard of their own; both must say the same.
    fn agree(&mut self, bytes: &[u8]) {
        let place = self.guard.clone().piece(&self.image, 1, bytes);
        let reading = head::read(bytes);
        let shown = || format!("{}: {place:?} {:?}", forms::hex::show(bytes), reading.outcome);
        *self.answers.entry(place.answer).or_default() += 1;
        match &reading.outcome {
            Outcome::Broken(fault) => {
                assert_eq!(place.answer, fault.answer, "{}", shown());
                let head_length = reading.parts.last().unwrap().to;
                assert_eq!(place.taken as usize, head_length, "{}", shown());
                assert!(fault.at < head_length, "{}", shown());
                assert!(head::KINDS.contains(&fault.kind), "{}", shown());
                assert!(reading
                    .parts
                    .iter()
                    .any(|part| part.name == fault.part && (part.from..part.to).contains(&fault.at)));
            }
            Outcome::Good(head) => {
                assert!(!(1..=9).contains(&place.answer), "{}", shown());
                assert_eq!(reading.parts.last().unwrap().to, head.head_length);
                let ends = head.head_length + head.body_length as usize;
                let finished = ends <= bytes.len();
                assert_eq!(place.answer == 10, !finished, "{}", shown());
                assert_eq!(place.taken as usize, ends.min(bytes.len()), "{}", shown());
            }
            Outcome::Unfinished { wanted } => {
                assert_eq!((place.answer, place.taken as usize), (10, bytes.len()), "{}", shown());
                assert!(*wanted > bytes.len());
            }
        }
        let mut at = 0;
        for part in &reading.parts {
            assert!(part.from == at && part.to > at, "{}", shown());
            at = part.to;
        }
        assert_eq!(head::good(bytes).is_some(), matches!(reading.outcome, Outcome::Good(_)));
    }

    /// Each byte changed to several values, each one put in, each taken out, and every front part.
    fn mutate(&mut self, bytes: &[u8], random: &mut Random) {
        self.agree(bytes);
        for at in 0..bytes.len() {
            let old = bytes[at];
            let values = [0, 1, 2, 9, 10, b'/', b'.', b'-', b'a', b'{', 0x80, 0xff, old ^ 1, random.byte()];
            for value in values {
                let mut changed = bytes.to_vec();
                changed[at] = value;
                self.agree(&changed);
            }
            for add in [1, 2, 4, 7, 8] {
                let mut changed = bytes.to_vec();
                changed[at] = old.wrapping_add(add);
                self.agree(&changed);
                changed[at] = old.wrapping_sub(add);
                self.agree(&changed);
            }
            let mut changed = bytes.to_vec();
            changed.remove(at);
            self.agree(&changed);
            changed = bytes.to_vec();
            changed.insert(at, random.byte());
            self.agree(&changed);
            self.agree(&bytes[..at]);
        }
    }
}

/// Xorshift.
struct Random(u64);

impl Random {
    fn next(&mut self) -> u64 {
        self.0 ^= self.0 << 13;
        self.0 ^= self.0 >> 7;
        self.0 ^= self.0 << 17;
        self.0
    }

    fn below(&mut self, most: u64) -> u64 {
        (self.next() >> 11) % most
    }

    fn byte(&mut self) -> u8 {
        self.below(256) as u8
    }
}

const ORDERS: [ByteOrder; 2] = [ByteOrder::Little, ByteOrder::Big];

fn call() -> Message {
    Message::new(1, 3).text(1, "/org/t").text(2, "org.t.F").text(3, "Stop").text(6, ":1.9").text(8, "a{sv}")
}

fn messages() -> Vec<Message> {
    let mut all = Message::new(7, 0x0102_0304).number(5, 2).number(9, 0);
    for kind in FIELDS.iter().filter(|kind| kind.letter != b'u') {
        let value = match kind.code {
            1 => "/",
            3 => "M",
            8 => "(ya{ov})",
            _ => "a.b",
        };
        all = all.text(kind.code, value);
    }
    all.body = vec![b'l'; 9];
    vec![
        call(),
        Message::new(2, 9).number(5, 2).text(6, "a.b-c"),
        Message::new(3, 9).text(4, "org.x.Y").number(5, 0xff00_0000).text(7, "org.s.T"),
        Message::new(4, 1).text(1, "/p").text(2, "org.i").text(3, "M").text(8, ""),
        Message::new(5, 1),
        all,
    ]
}

#[test]
fn every_byte_of_plain_messages() {
    let (mut trial, mut random) = (Trial::new(), Random(1));
    for message in messages() {
        for order in ORDERS {
            let message = Message { order, ..message.clone() };
            trial.mutate(&message.bytes(), &mut random);
        }
    }
    for answer in (0..=10).chain([20]) {
        assert!(trial.answers.contains_key(&answer), "no head had the answer {answer}: {:?}", trial.answers);
    }
}

/// Each way to break, and each such head with every byte changed.
#[test]
fn every_way_to_break() {
    let (mut trial, mut random) = (Trial::new(), Random(5));
    for case in cases::all() {
        trial.agree(&case.bytes);
        if case.bytes.len() < 100 {
            trial.mutate(&case.bytes, &mut random);
        }
    }
    for bytes in cases::near_limits() {
        trial.agree(&bytes);
    }
}

/// Writes values of a signature as the rules lay them out, from a place of the message on.
struct Writer<'a> {
    bytes: Vec<u8>,
    order: ByteOrder,
    random: &'a mut Random,
}

impl Writer<'_> {
    fn pad(&mut self, alignment: usize) {
        self.bytes.resize(self.bytes.len().next_multiple_of(alignment), 0);
    }

    fn number(&mut self, number: u32) {
        self.pad(4);
        self.bytes.extend(self.order.bytes(number));
    }

    fn text(&mut self, text: &[u8]) {
        self.number(text.len() as u32);
        self.bytes.extend(text);
        self.bytes.push(0);
    }

    fn short_text(&mut self, text: &[u8]) {
        self.bytes.push(text.len() as u8);
        self.bytes.extend(text);
        self.bytes.push(0);
    }

    fn value(&mut self, one: &[u8], depth: usize) {
        match one[0] {
            b'y' => self.bytes.push(0),
            b'n' | b'q' => self.plain(2),
            b'i' | b'u' | b'h' => self.plain(4),
            b'x' | b't' | b'd' => self.plain(8),
            b'b' => {
                let number = self.random.below(2) as u32;
                self.number(number)
            }
            b's' => {
                let text = self.pick(&["", "a", "\u{e9}\u{20ac}", "\u{10ffff}\u{d7ff}\u{e000}\u{ffff}"]);
                self.text(text)
            }
            b'o' => {
                let text = self.pick(&["/", "/a/0"]);
                self.text(text)
            }
            b'g' => {
                let text = self.pick(&["", "a{sv}"]);
                self.short_text(text)
            }
            b'v' => {
                let inner = signature(self.random, depth + 1);
                self.short_text(&inner);
                self.value(&inner, depth + 1)
            }
            b'a' => self.array(&one[1..], depth),
            _ => {
                self.pad(8);
                let mut types = &one[1..one.len() - 1];
                while !types.is_empty() {
                    let (first, rest) = head::signature::first(types);
                    self.value(first, depth + 1);
                    types = rest;
                }
            }
        }
    }

    fn pick(&mut self, texts: &[&'static str]) -> &'static [u8] {
        texts[self.random.below(texts.len() as u64) as usize].as_bytes()
    }

    fn plain(&mut self, width: usize) {
        self.pad(width);
        for _ in 0..width {
            self.bytes.push(self.random.byte());
        }
    }

    fn array(&mut self, element: &[u8], depth: usize) {
        self.number(0);
        let at = self.bytes.len() - 4;
        self.pad(match element[0] {
            b'y' | b'g' | b'v' => 1,
            b'n' | b'q' => 2,
            b'x' | b't' | b'd' | b'(' | b'{' => 8,
            _ => 4,
        });
        let from = self.bytes.len();
        for _ in 0..self.random.below(3) {
            self.value(element, depth + 1);
        }
        let length = self.order.bytes((self.bytes.len() - from) as u32);
        self.bytes[at..at + 4].copy_from_slice(&length);
    }
}

/// One complete type, less deep the deeper it stands.
fn signature(random: &mut Random, depth: usize) -> Vec<u8> {
    let basic = b"ybnqiuxtdsogh";
    let pick = |random: &mut Random| vec![basic[random.below(13) as usize]];
    if depth > 3 {
        return pick(random);
    }
    match random.below(6) {
        0 | 1 => pick(random),
        2 => b"v".to_vec(),
        3 => [b"a".to_vec(), signature(random, depth + 1)].concat(),
        4 => {
            let (key, value) = (pick(random), signature(random, depth + 1));
            [b"a{".to_vec(), key, value, b"}".to_vec()].concat()
        }
        _ => {
            let count = 1 + random.below(3);
            let types: Vec<u8> = (0..count).flat_map(|_| signature(random, depth + 1)).collect();
            [b"(".to_vec(), types, b")".to_vec()].concat()
        }
    }
}

/// A call with an unknown field in front of its path, one behind, and a body.
fn with_unknown(order: ByteOrder, random: &mut Random) -> Vec<u8> {
    let mut bytes = vec![order.mark(), 1, 0, 1];
    for number in [3, 1, 0] {
        bytes.extend(order.bytes(number));
    }
    let known = Message { order, ..Message::new(1, 1) }.text(1, "/").text(3, "M").bytes()[16..].to_vec();
    let mut writer = Writer { bytes, order, random };
    writer.unknown();
    writer.pad(8);
    writer.bytes.extend(known);
    writer.pad(8);
    writer.unknown();
    let mut bytes = writer.bytes;
    let array = order.bytes((bytes.len() - 16) as u32);
    bytes[12..16].copy_from_slice(&array);
    bytes.resize(bytes.len().next_multiple_of(8) + 3, 0);
    bytes
}

impl Writer<'_> {
    fn unknown(&mut self) {
        let code = 10 + self.random.below(246) as u8;
        self.bytes.push(code);
        let one = signature(self.random, 0);
        self.short_text(&one);
        self.value(&one, 0);
    }
}

#[test]
fn unknown_fields_of_all_types() {
    let (mut trial, mut random) = (Trial::new(), Random(77));
    let mut good = 0;
    for round in 0..20_000 {
        let bytes = with_unknown(ORDERS[round % 2], &mut random);
        if bytes.len() > 2_000 {
            continue;
        }
        trial.agree(&bytes);
        good += usize::from(head::good(&bytes).is_some());
        for _ in 0..8 {
            let mut changed = bytes.clone();
            let at = 16 + random.below(bytes.len() as u64 - 16) as usize;
            changed[at] = match random.below(4) {
                0 => random.byte(),
                1 => changed[at] ^ 1,
                2 => changed[at].wrapping_add(1),
                _ => 0,
            };
            trial.agree(&changed);
        }
    }
    assert!(good > 19_000, "{good}");
    for round in 0..6 {
        let bytes = with_unknown(ORDERS[round % 2], &mut random);
        trial.mutate(&bytes[..bytes.len().min(400)], &mut random);
    }
}
