//! The policy image: every breach, every limit, and what is no breach.

mod common;

use common::image_of;
use second::image::{self, Breach};
use second::image_write;
use second::policy::*;

const SAMPLE: &str = "connect default allow uid 7
    own user 1 allow name org.a
    transaction default allow send call name=org.a path=/a interface=a.b member=M";

/// The sample's sections: connect at 32, own at 40, transaction at 56, strings at 96.
const CONNECT: usize = 32;
const OWN: usize = 40;
const TRANSACTION: usize = 56;
const STRINGS: usize = 96;

fn breach_of(image: &[u8]) -> Option<Breach> {
    image::read(image).err().map(|bad| bad.breach)
}

fn with_byte(at: usize, byte: u8) -> Option<Breach> {
    let mut image = image_of(SAMPLE);
    image[at] = byte;
    breach_of(&image)
}

fn with_word(at: usize, word: u32) -> Option<Breach> {
    let mut image = image_of(SAMPLE);
    image[at..at + 4].copy_from_slice(&word.to_le_bytes());
    breach_of(&image)
}

#[test]
fn the_sample_is_good() {
    let image = image_of(SAMPLE);
    assert_eq!(breach_of(&image), None);
    assert_eq!(&image[STRINGS..], b"org.a/aa.bM");
    let header: Vec<u32> =
        image[..32].chunks(4).map(|four| u32::from_le_bytes(four.try_into().expect("four"))).collect();
    assert_eq!(header, [107, 1, 32, 1, 40, 1, 56, 96]);
}

#[test]
fn lengths() {
    let empty = image_of("");
    assert_eq!(empty.len(), 32);
    assert_eq!(breach_of(&empty), None);
    for length in [0, 1, 4, 31] {
        assert_eq!(breach_of(&empty[..length]), Some(Breach::ShorterThanHeader));
    }
    let padded = |length: usize| {
        let mut image = empty.clone();
        image.resize(length, 0xff);
        image[..4].copy_from_slice(&(length as u32).to_le_bytes());
        image
    };
    assert_eq!(breach_of(&padded(33)), None);
    assert_eq!(breach_of(&padded(65_536)), None);
    assert_eq!(breach_of(&padded(65_537)), Some(Breach::LongerThanLimit));
    assert_eq!(with_word(0, 106), Some(Breach::TotalLength));
    assert_eq!(with_word(0, 108), Some(Breach::TotalLength));
    assert_eq!(breach_of(&image_of(SAMPLE)[..106]), Some(Breach::TotalLength));
}

#[test]
fn counts_and_offsets() {
    assert_eq!(with_word(4, 257), Some(Breach::TooManyConnect));
    assert_eq!(with_word(12, 257), Some(Breach::TooManyOwn));
    assert_eq!(with_word(20, 513), Some(Breach::TooManyTransaction));
    assert_eq!(with_word(20, 0x0666_6667), Some(Breach::TooManyTransaction));
    assert_eq!(with_word(8, 40), Some(Breach::ConnectOffset));
    assert_eq!(with_word(4, 2), Some(Breach::OwnOffset));
    assert_eq!(with_word(4, 0), Some(Breach::OwnOffset));
    assert_eq!(with_word(12, 0), Some(Breach::TransactionOffset));
    assert_eq!(with_word(20, 2), Some(Breach::StringOffset));
    assert_eq!(with_word(28, 95), Some(Breach::StringOffset));
    let mut beyond = image_of("transaction default allow send any");
    beyond.truncate(71);
    beyond[..4].copy_from_slice(&71_u32.to_le_bytes());
    assert_eq!(breach_of(&beyond), Some(Breach::StringsBeyondTotal));
}

#[test]
fn empty_sections_have_their_one_offset() {
    for at in [8, 16, 24, 28] {
        let mut image = image_of("");
        image[at..at + 4].copy_from_slice(&0_u32.to_le_bytes());
        assert!(breach_of(&image).is_some(), "{at}");
        image[at..at + 4].copy_from_slice(&31_u32.to_le_bytes());
        assert!(breach_of(&image).is_some(), "{at}");
    }
}

#[test]
fn connect_rules() {
    for (context, breach) in [(0, None), (3, None), (1, Some(Breach::ConnectContext))] {
        assert_eq!(with_byte(CONNECT, context), breach);
    }
    assert_eq!(with_byte(CONNECT, 2), Some(Breach::ConnectContext));
    assert_eq!(with_byte(CONNECT, 4), Some(Breach::Context));
    assert_eq!(with_byte(CONNECT + 1, 2), Some(Breach::Verdict));
    assert_eq!(with_byte(CONNECT + 2, 0), Some(Breach::AnyWithId));
    assert_eq!(with_byte(CONNECT + 2, 2), None);
    assert_eq!(with_byte(CONNECT + 2, 3), Some(Breach::Matcher));
    assert_eq!(with_byte(CONNECT + 3, 1), Some(Breach::ZeroByte));
    assert_eq!(with_word(CONNECT + 4, 0), None);
    assert_eq!(with_word(CONNECT + 4, u32::MAX), None);
}

#[test]
fn own_rules() {
    assert_eq!(with_byte(OWN, 0), Some(Breach::Subject));
    assert_eq!(with_byte(OWN, 1), None);
    assert_eq!(with_byte(OWN, 3), Some(Breach::Subject));
    assert_eq!(with_byte(OWN, 4), Some(Breach::Context));
    assert_eq!(with_byte(OWN + 1, 2), Some(Breach::Verdict));
    assert_eq!(with_byte(OWN + 2, 0), Some(Breach::AnyWithString));
    assert_eq!(with_byte(OWN + 2, 2), None);
    assert_eq!(with_byte(OWN + 2, 3), Some(Breach::Matcher));
    assert_eq!(with_byte(OWN + 3, 1), Some(Breach::ZeroByte));
    assert_eq!(with_word(OWN + 4, 0), None);
    assert_eq!(with_word(OWN + 12, 0), Some(Breach::EmptyString));
    assert_eq!(with_word(OWN + 12, 3), Some(Breach::NotAWellKnownName));
    assert_eq!(with_word(OWN + 12, 12), Some(Breach::StringOutside));
    assert_eq!(with_word(OWN + 12, u32::MAX), Some(Breach::StringOutside));
    assert_eq!(with_word(OWN + 8, u32::MAX), Some(Breach::StringOutside));
    let mut any = image_of("own default allow any");
    any[40] = 1;
    assert_eq!(breach_of(&any), Some(Breach::AnyWithString));
}

#[test]
fn transaction_rules() {
    assert_eq!(with_byte(TRANSACTION, 4), Some(Breach::Context));
    assert_eq!(with_word(TRANSACTION + 4, 1), Some(Breach::Subject));
    assert_eq!(with_byte(TRANSACTION + 1, 2), Some(Breach::Verdict));
    assert_eq!(with_byte(TRANSACTION + 2, 1), None);
    assert_eq!(with_byte(TRANSACTION + 2, 2), Some(Breach::Direction));
    for kind in 0..=255 {
        let good = matches!(kind, 0 | 1 | 4);
        assert_eq!(with_byte(TRANSACTION + 3, kind), (!good).then_some(Breach::Type), "{kind}");
    }
    let rules = [Breach::NotAWellKnownName, Breach::NotAPath, Breach::NotAnInterface, Breach::NotAMember];
    for (index, breach) in rules.into_iter().enumerate() {
        let at = TRANSACTION + 8 + index * 8;
        assert_eq!(with_word(at, 1_000), Some(Breach::StringOutside));
        assert_eq!(with_word(at + 4, u32::MAX), Some(Breach::StringOutside));
        let zero_length = if index == 0 { None } else { Some(Breach::OffsetWithoutLength) };
        assert_eq!(with_word(at + 4, 0), zero_length);
        let foreign = if index == 1 { 0 } else { 5 };
        assert_eq!(with_word(at, foreign), Some(breach));
    }
}

#[test]
fn strings_may_overlap_and_end_at_the_total() {
    let mut image = image_of(SAMPLE);
    image[OWN + 8..OWN + 16].copy_from_slice(&[0, 0, 0, 0, 5, 0, 0, 0]);
    assert_eq!(breach_of(&image), None);
    assert_eq!(with_word(TRANSACTION + 36, 2), Some(Breach::StringOutside));
    let bus = image_of(
        "own default deny name org.freedesktop.DBus
         transaction default allow send any name=org.freedesktop.DBus",
    );
    assert_eq!(breach_of(&bus), None);
}

/// A rule that allows everybody to send anything.
fn open_send() -> TransactionRule {
    TransactionRule {
        context: Context::Default,
        verdict: Verdict::Allow,
        direction: Direction::Send,
        message_type: None,
        name: None,
        path: None,
        interface: None,
        member: None,
    }
}

#[test]
fn name_lengths_in_rules() {
    let with = |name: &str, path: &str| {
        let (name, path) = (Some(name.to_string()), Some(path.to_string()));
        let rule = TransactionRule { name, path, ..open_send() };
        let policy = Policy { transaction: vec![rule], ..Policy::default() };
        breach_of(&image_write::write(&policy).expect("it has an image"))
    };
    let name = |length: usize| "a.".to_string() + &"b".repeat(length - 2);
    let path = |length: usize| "/".to_string() + &"b".repeat(length - 1);
    assert_eq!(with(&name(255), &path(10_000)), None);
    assert_eq!(with(&name(256), "/"), Some(Breach::NotAWellKnownName));
    assert_eq!(with("org", "/"), Some(Breach::NotAWellKnownName));
    assert_eq!(with(":1.1", "/"), Some(Breach::NotAWellKnownName));
}

#[test]
fn full_sections() {
    let (context, verdict) = (Context::Default, Verdict::Allow);
    let rules = |connect, own, transaction| {
        image_write::write(&Policy {
            connect: vec![ConnectRule { context, verdict, who: Who::Any }; connect],
            own: vec![OwnRule { context, verdict, name: NameMatcher::Any }; own],
            transaction: vec![open_send(); transaction],
        })
    };
    assert_eq!(breach_of(&rules(256, 256, 512).expect("it has an image")), None);
    for (connect, own, transaction) in [(257, 0, 0), (0, 257, 0), (0, 0, 513)] {
        assert!(rules(connect, own, transaction).is_err());
    }
}
