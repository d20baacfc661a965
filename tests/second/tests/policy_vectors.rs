//! The decisions that `crates/policy_vectors` prints, made here from the same choices.
//!
//! The lines also go to `target/tmp/policy_vectors`, from where they can be copied when the
//! rules change.

use second::header::{Header, METHOD_CALL, SIGNAL};
use second::image;
use second::policy::{Credentials, Decision, Gid, Policy, Uid, Verdict};
use second::wire::{ByteOrder, FixedPart};

const VECTORS: &str = concat!(env!("CARGO_MANIFEST_DIR"), "/../../crates/policy_vectors/stdout");
const FOUND: &str = concat!(env!("CARGO_TARGET_TMPDIR"), "/policy_vectors");

/// All strings of an image overlap in this one area.
const AREA: &str = "org.foo.bar/p/qi.fMorg.foobar";
const OWN_AT: usize = 64;
const TRANSACTION_AT: usize = 128;
const AREA_AT: usize = 608;

/// A part of the area: where it starts and how long it is.
type Part = (usize, usize);

const ORG_FOO: Part = (0, 7);
const ORG_FOO_BAR: Part = (0, 11);
const FOO_BAR: Part = (4, 7);
const PATHS: [Part; 2] = [(11, 2), (11, 4)];
const INTERFACES: [Part; 2] = [(15, 3), ORG_FOO];
const MEMBERS: [Part; 2] = [(18, 1), (17, 1)];

fn text((start, length): Part) -> String {
    AREA[start..start + length].to_string()
}

/// The choice, below `options`, that a seed makes at a place.
fn choice(seed: usize, place: usize, options: usize) -> usize {
    let spread = (seed * 4096 + place) * 2_654_435_761 / 65_536 % 65_536;
    spread * 40_503 / 64 % 65_536 % options
}

/// An image that is being filled with the choices of one seed.
struct Draft {
    seed: usize,
    image: Vec<u8>,
}

impl Draft {
    fn choice(&self, place: usize, options: usize) -> usize {
        choice(self.seed, place, options)
    }

    fn word(&mut self, at: usize, value: usize) {
        self.image[at..at + 4].copy_from_slice(&(value as u32).to_le_bytes());
    }

    fn byte(&mut self, at: usize, value: usize) {
        self.image[at] = value as u8;
    }

    /// Choice 1 or 2 is one of two parts of the area; every other choice leaves zeros, for any.
    fn string(&mut self, at: usize, choice: usize, parts: [Part; 2]) {
        if let 1 | 2 = choice {
            let (start, length) = parts[choice - 1];
            self.word(at, start);
            self.word(at + 4, length);
        }
    }

    /// Context, verdict, and the subject where the context has one.
    fn front(&mut self, at: usize, context: usize) {
        self.byte(at, context);
        self.byte(at + 1, self.choice(at + 1, 2));
        if let 1 | 2 = context {
            self.word(at + 4, 5 + self.choice(at + 4, 3));
        }
    }

    fn connect(&mut self, at: usize) {
        self.front(at, 3 * self.choice(at, 2));
        let matcher = self.choice(at + 2, 3);
        self.byte(at + 2, matcher);
        if matcher > 0 {
            self.word(at + 4, 5 + self.choice(at + 4, 4));
        }
    }

    fn own(&mut self, at: usize) {
        self.front(at, self.choice(at, 4));
        let matcher = self.choice(at + 2, 3);
        self.byte(at + 2, matcher);
        if matcher > 0 {
            self.string(at + 8, 1 + self.choice(at + 8, 2), [ORG_FOO, FOO_BAR]);
        }
    }

    fn transaction(&mut self, at: usize) {
        self.front(at, self.choice(at, 4));
        self.byte(at + 2, self.choice(at + 2, 2));
        self.byte(at + 3, [0, 1, 4][self.choice(at + 3, 3)]);
        self.string(at + 8, self.choice(at + 8, 3), [ORG_FOO_BAR, FOO_BAR]);
        self.string(at + 16, self.choice(at + 16, 5), PATHS);
        self.string(at + 24, self.choice(at + 24, 5), INTERFACES);
        self.string(at + 32, self.choice(at + 32, 5), MEMBERS);
    }
}

/// Four connect rules, four own rules and twelve transaction rules.
fn image_of(seed: usize) -> Vec<u8> {
    let total = AREA_AT + AREA.len();
    let mut draft = Draft { seed, image: vec![0; total] };
    let header = [total, 4, 32, 4, OWN_AT, 12, TRANSACTION_AT, AREA_AT];
    for (index, value) in header.into_iter().enumerate() {
        draft.word(4 * index, value);
    }
    for index in 0..4 {
        draft.connect(32 + 8 * index);
        draft.own(OWN_AT + 16 * index);
    }
    for index in 0..12 {
        draft.transaction(TRANSACTION_AT + 40 * index);
    }
    draft.image[AREA_AT..].copy_from_slice(AREA.as_bytes());
    draft.image
}

/// What the other side owns, up to four names; one may stand there twice.
fn names_of(seed: usize) -> Vec<String> {
    let names = [ORG_FOO, ORG_FOO_BAR, FOO_BAR];
    let chosen = (3000..3004).map(|place| choice(seed, place, 4));
    chosen.filter(|&choice| choice > 0).map(|choice| text(names[choice - 1])).collect()
}

/// A call or a signal. Either may lack its interface here, though no good head of a signal does.
fn message_of(seed: usize, at: usize) -> Header {
    let one_of = |place: usize, parts: [Part; 2]| Some(text(parts[choice(seed, place, 2)]));
    let interface = match choice(seed, at + 1, 3) {
        0 => None,
        which => Some(text(INTERFACES[which - 1])),
    };
    let message_type = [METHOD_CALL, SIGNAL][choice(seed, at + 3, 2)];
    let order = ByteOrder::Little;
    Header {
        fixed: FixedPart { order, message_type, flags: 0, body_length: 0, serial: 1, array_length: 0 },
        path: one_of(at, PATHS),
        interface,
        member: one_of(at + 2, MEMBERS),
        destination: None,
        reply_serial: None,
        unknown: Vec::new(),
    }
}

/// The same as a method call without an interface.
fn without_interface(message: Header) -> Header {
    let fixed = FixedPart { message_type: METHOD_CALL, ..message.fixed };
    Header { fixed, interface: None, ..message }
}

/// A dot where no rule matched, else the letter of the rule's position: upper case where it
/// allows, lower case where it denies.
fn character(decision: Decision) -> char {
    let letter = |first: u8, position: usize| char::from(first + position as u8);
    match decision {
        Decision::NoneMatched => '.',
        Decision::Rule { position, verdict: Verdict::Allow } => letter(b'A', position),
        Decision::Rule { position, verdict: Verdict::Deny } => letter(b'a', position),
    }
}

/// Who may connect, who may own what, and what may be sent and received, as it is and without
/// an interface: one character each.
fn line_of(policy: &Policy, seed: usize) -> String {
    let gids = [Gid(6), Gid(8)];
    let users = [5, 6, 7].map(|uid| Credentials { uid: Uid(uid), gids: &gids });
    let mut decisions: Vec<Decision> = users.iter().map(|&who| policy.connect(who)).collect();
    for name in ["org.foo", "org.foo.bar", "foo.bar", "org.foobar"] {
        decisions.extend(users.iter().map(|&who| policy.own(who, name)));
    }
    let names = names_of(seed);
    let mut passes: [Vec<Decision>; 4] = Default::default();
    for at in (0..12).map(|question| 2000 + 16 * question) {
        let id = |place: usize| 5 + choice(seed, place, 3) as u32;
        let gids = [Gid(id(at + 5)), Gid(8)];
        let who = Credentials { uid: Uid(id(at + 4)), gids: &gids };
        let message = message_of(seed, at);
        let bare = without_interface(message.clone());
        passes[0].push(policy.send(who, &names, &message));
        passes[1].push(policy.receive(who, &names, &message));
        passes[2].push(policy.send(who, &names, &bare));
        passes[3].push(policy.receive(who, &names, &bare));
    }
    decisions.into_iter().chain(passes.concat()).map(character).collect()
}

#[test]
fn every_vector_is_decided_the_same() {
    let mut found = String::new();
    for seed in 0..32 {
        let policy = image::read(&image_of(seed)).expect("the image is good");
        found += &(line_of(&policy, seed) + "\n");
    }
    std::fs::write(FOUND, &found).expect("the lines can be left for copying");
    let wanted = std::fs::read_to_string(VECTORS).expect("the vectors can be read");
    for (seed, (ours, theirs)) in found.lines().zip(wanted.lines()).enumerate() {
        assert_eq!(ours, theirs, "seed {seed}");
    }
    assert_eq!(found, wanted);
}
