//! Policy images: written and read back, every limit, and one test for each breach that a reading tells.

use forms::image::{read, write};
use forms::policy::{Context, Direction, Policy, TransactionRule, Verdict};
use forms::policy_text;

const SAMPLE: &str = "connect default allow uid 7
    own user 1 allow name org.a
    transaction default allow send call name=org.a path=/a interface=a.b member=M";

/// The sample's sections: connect at 32, own at 40, transaction at 56, strings at 96.
const CONNECT: usize = 32;
const OWN: usize = 40;
const TRANSACTION: usize = 56;
const STRINGS: usize = 96;

fn image_of(text: &str) -> Vec<u8> {
    write(&policy_text::parse(text).expect("good text").policy).expect("it has an image")
}

/// What is told of the sample with other bytes at a place.
fn with(at: usize, bytes: &[u8]) -> String {
    let mut image = image_of(SAMPLE);
    image[at..at + bytes.len()].copy_from_slice(bytes);
    told(&image)
}

fn with_word(at: usize, word: u32) -> String {
    with(at, &word.to_le_bytes())
}

/// The breach, or "good".
fn told(image: &[u8]) -> String {
    read(image).map_or_else(|breach| breach, |_| "good".to_string())
}

/// The image with another length, which its first number says too.
fn resized(mut image: Vec<u8>, length: usize) -> Vec<u8> {
    image.resize(length, 0xff);
    image[..4].copy_from_slice(&(length as u32).to_le_bytes());
    image
}

#[test]
fn the_sample() {
    let image = image_of(SAMPLE);
    assert_eq!(told(&image), "good");
    assert_eq!(&image[STRINGS..], b"org.a/aa.bM");
    let header: Vec<u32> =
        image[..32].chunks(4).map(|four| u32::from_le_bytes(four.try_into().expect("four"))).collect();
    assert_eq!(header, [107, 1, 32, 1, 40, 1, 56, 96]);
    assert_eq!(&image[CONNECT..OWN], [0, 1, 1, 0, 7, 0, 0, 0]);
    assert_eq!(&image[OWN..TRANSACTION], [2, 1, 1, 0, 1, 0, 0, 0, 0, 0, 0, 0, 5, 0, 0, 0]);
    assert_eq!(&image[TRANSACTION..TRANSACTION + 8], [0, 1, 0, 1, 0, 0, 0, 0]);
}

#[test]
fn read_back() {
    let text = "connect mandatory deny gid 4294967295
        connect default allow any
        own group 5 deny prefix org.foo
        own mandatory allow any
        transaction mandatory deny receive signal interface=a.b
        transaction user 4294967295 allow send any path=/";
    let policy = policy_text::parse(text).expect("good text").policy;
    assert_eq!(read(&image_of(text)), Ok(policy));
    assert_eq!(read(&image_of("")), Ok(Policy::default()));
}

/// A text that stands in the area already, be it inside another, is not written again.
#[test]
fn strings_are_shared() {
    let image =
        image_of("own default allow name org.a.b\nown default allow name org.a\nown default deny name g.a");
    assert_eq!(&image[80..], b"org.a.b");
    assert_eq!(told(&image), "good");
}

#[test]
fn shorter_than_its_header() {
    let empty = image_of("");
    assert_eq!(empty.len(), 32);
    for length in [0, 1, 4, 31] {
        let breach = format!("header: the image has {length} bytes, and its header alone has 32");
        assert_eq!(told(&empty[..length]), breach);
    }
}

#[test]
fn longer_than_the_limit() {
    assert_eq!(told(&resized(image_of(""), 33)), "good");
    assert_eq!(told(&resized(image_of(""), 65_536)), "good");
    let breach = "header: the image is longer than 65,536 bytes";
    assert_eq!(told(&resized(image_of(""), 65_537)), breach);
}

#[test]
fn another_total_length() {
    for total in [0, 106, 108, u32::MAX] {
        let breach = format!("header: the total length is {total}, and the image has 107 bytes");
        assert_eq!(with_word(0, total), breach);
    }
}

#[test]
fn too_many_rules() {
    assert_eq!(with_word(4, 257), "header: 257 connect rules, and 256 are the most");
    assert_eq!(with_word(12, 257), "header: 257 own rules, and 256 are the most");
    assert_eq!(with_word(20, 513), "header: 513 transaction rules, and 512 are the most");
    assert_eq!(with_word(20, u32::MAX), "header: 4294967295 transaction rules, and 512 are the most");
    let many = |connect: usize, own: usize, transaction: usize| {
        let text = "connect default allow any\n".repeat(connect)
            + &"own default allow any\n".repeat(own)
            + &"transaction default allow send any\n".repeat(transaction);
        write(&policy_text::parse(&text).expect("good text").policy).map(|image| told(&image))
    };
    assert_eq!(many(256, 256, 512), Ok("good".to_string()));
    assert_eq!(many(257, 0, 0), Err("more than 256 connect rules".to_string()));
    assert_eq!(many(0, 257, 0), Err("more than 256 own rules".to_string()));
    assert_eq!(many(0, 0, 513), Err("more than 512 transaction rules".to_string()));
}

#[test]
fn another_offset() {
    let begin =
        |section, said, place| format!("header: the {section} said to begin at {said}, not at {place}");
    assert_eq!(with_word(8, 40), begin("connect rules are", 40, 32));
    assert_eq!(with_word(4, 2), begin("own rules are", 40, 48));
    assert_eq!(with_word(4, 0), begin("own rules are", 40, 32));
    assert_eq!(with_word(16, 41), begin("own rules are", 41, 40));
    assert_eq!(with_word(12, 0), begin("transaction rules are", 56, 40));
    assert_eq!(with_word(24, u32::MAX), begin("transaction rules are", u32::MAX, 56));
    assert_eq!(with_word(20, 0), begin("string area is", 96, 56));
    assert_eq!(with_word(28, 95), begin("string area is", 95, 96));
}

/// An empty section has its one offset too.
#[test]
fn offsets_of_empty_sections() {
    for at in [8, 16, 24, 28] {
        for offset in [0_u32, 31, 33] {
            let mut image = image_of("");
            image[at..at + 4].copy_from_slice(&offset.to_le_bytes());
            assert!(told(&image).contains(&format!("said to begin at {offset}, not at 32")), "{at}");
        }
    }
}

#[test]
fn sections_beyond_the_end() {
    let image = image_of("transaction default allow send any");
    assert_eq!(told(&resized(image.clone(), 72)), "good");
    assert_eq!(told(&resized(image, 71)), "header: the sections run past the end of the image");
}

#[test]
fn contexts() {
    assert_eq!(with(CONNECT, &[3]), "good");
    for context in [1, 2] {
        let breach = "connect rule 0: the context of a connect rule is neither default nor mandatory";
        assert_eq!(with(CONNECT, &[context]), breach);
    }
    assert_eq!(with(CONNECT, &[4]), "connect rule 0: the context is 4, and 3 is the highest");
    assert_eq!(with(OWN, &[1]), "good");
    assert_eq!(with(OWN, &[4]), "own rule 0: the context is 4, and 3 is the highest");
    assert_eq!(with(TRANSACTION, &[255]), "transaction rule 0: the context is 255, and 3 is the highest");
}

#[test]
fn subjects() {
    for context in [0, 3] {
        assert_eq!(with(OWN, &[context]), "own rule 0: a default or mandatory rule has the subject 1");
    }
    assert_eq!(with_word(OWN + 4, 0), "good");
    let breach = "transaction rule 0: a default or mandatory rule has the subject 9";
    assert_eq!(with_word(TRANSACTION + 4, 9), breach);
}

#[test]
fn verdicts() {
    for (at, section) in [(CONNECT, "connect"), (OWN, "own"), (TRANSACTION, "transaction")] {
        assert_eq!(with(at + 1, &[0]), "good");
        assert_eq!(with(at + 1, &[2]), format!("{section} rule 0: the verdict is 2, neither 0 nor 1"));
    }
}

#[test]
fn matchers() {
    for (at, section) in [(CONNECT, "connect"), (OWN, "own")] {
        assert_eq!(with(at + 2, &[2]), "good");
        assert_eq!(with(at + 2, &[3]), format!("{section} rule 0: the matcher is 3, and 2 is the highest"));
        assert_eq!(with(at + 3, &[1]), format!("{section} rule 0: byte 3 is 1, not zero"));
    }
    assert_eq!(with(CONNECT + 2, &[0]), "connect rule 0: a rule for any has the id 7");
    assert_eq!(with(OWN + 2, &[0]), "own rule 0: a rule for any has a string");
    let mut any = image_of("own default allow any");
    any[40] = 1;
    assert_eq!(told(&any), "own rule 0: a rule for any has a string");
    assert_eq!(with_word(OWN + 12, 0), "own rule 0: a rule for a name or prefix has no string");
}

#[test]
fn directions_and_types() {
    assert_eq!(with(TRANSACTION + 2, &[1]), "good");
    let breach = "transaction rule 0: the direction is 2, neither 0 nor 1";
    assert_eq!(with(TRANSACTION + 2, &[2]), breach);
    for kind in 0..=255 {
        let breach = format!("transaction rule 0: the message type is {kind}, not 0, 1 or 4");
        let wanted = if matches!(kind, 0 | 1 | 4) { "good" } else { &breach };
        assert_eq!(with(TRANSACTION + 3, &[kind]), wanted);
    }
}

const LITERALS: [&str; 4] = ["name", "path", "interface", "member"];

#[test]
fn strings_outside_the_area() {
    let outside = |section, what| format!("{section} rule 0: the {what} lies outside the string area");
    for length in [12, u32::MAX] {
        assert_eq!(with_word(OWN + 12, length), outside("own", "name"));
    }
    assert_eq!(with_word(OWN + 8, u32::MAX), outside("own", "name"));
    for (index, what) in LITERALS.into_iter().enumerate() {
        let at = TRANSACTION + 8 + 8 * index;
        assert_eq!(with_word(at, 1_000), outside("transaction", what));
        assert_eq!(with_word(at + 4, u32::MAX), outside("transaction", what));
        assert_eq!(with(at, &[0xff; 8]), outside("transaction", what));
    }
    // The member is the last byte of the area.
    assert_eq!(with_word(TRANSACTION + 36, 2), outside("transaction", "member"));
}

#[test]
fn an_offset_without_a_length() {
    for (index, (what, offset)) in LITERALS.into_iter().zip([0, 5, 7, 10]).enumerate() {
        let breach = format!("transaction rule 0: the {what} has no length, but the offset {offset}");
        let wanted = if offset == 0 { "good" } else { &breach };
        assert_eq!(with_word(TRANSACTION + 12 + 8 * index, 0), wanted);
    }
    assert_eq!(
        with_word(OWN + 8, 5),
        "own rule 0: the name breaks its rule at its byte 0: wanted a letter, _ or -"
    );
}

#[test]
fn strings_that_break_their_rules() {
    let breach = |what, at, wanted| {
        format!("transaction rule 0: the {what} breaks its rule at its byte {at}: wanted {wanted}")
    };
    let place = |index: usize, offset: u32, length: u32| {
        let words = [offset.to_le_bytes(), length.to_le_bytes()].concat();
        with(TRANSACTION + 8 + 8 * index, &words)
    };
    assert_eq!(place(0, 0, 3), breach("name", 3, "two elements at least"));
    assert_eq!(place(1, 0, 5), breach("path", 0, "/ at the start"));
    assert_eq!(place(2, 5, 5), breach("interface", 0, "a letter or _"));
    assert_eq!(place(3, 7, 3), breach("member", 1, "a letter, a digit or _"));
    assert_eq!(
        with(STRINGS, &[0xc3]),
        "own rule 0: the name breaks its rule at its byte 0: wanted a letter, _ or -"
    );
}

/// The rule that is told is the first bad one, counted from 0.
#[test]
fn the_place_of_a_bad_rule() {
    let mut image = image_of(&"own default allow any\n".repeat(3));
    image[32 + 2 * 16 + 1] = 9;
    assert_eq!(told(&image), "own rule 2: the verdict is 9, neither 0 nor 1");
    image[32 + 16 + 3] = 9;
    assert_eq!(told(&image), "own rule 1: byte 3 is 9, not zero");
}

/// Strings may overlap, the bus's name may be cited, and bytes that no rule cites may be anything.
#[test]
fn what_is_no_breach() {
    let mut image = image_of(SAMPLE);
    image.extend([0, 255]);
    let length = image.len();
    assert_eq!(told(&resized(image, length)), "good");
    let bus = "own default deny name org.freedesktop.DBus\ntransaction default allow send any name=org.freedesktop.DBus";
    assert_eq!(told(&image_of(bus)), "good");
}

fn with_texts(name: &str, path: &str) -> Result<Vec<u8>, String> {
    let rule = TransactionRule {
        context: Context::Default,
        verdict: Verdict::Allow,
        direction: Direction::Send,
        message_type: None,
        name: Some(name.to_string()),
        path: Some(path.to_string()),
        interface: None,
        member: None,
    };
    write(&Policy { transaction: vec![rule], ..Policy::default() })
}

#[test]
fn lengths_of_texts_and_of_the_image() {
    let name = |length: usize| "a.".to_string() + &"b".repeat(length - 2);
    let path = |length: usize| "/".to_string() + &"c".repeat(length - 1);
    assert_eq!(with_texts(&name(255), "/").map(|image| told(&image)), Ok("good".to_string()));
    let breach = "transaction rule 0: the name breaks its rule at its byte 255: wanted at most 255 bytes";
    assert_eq!(with_texts(&name(256), "/").map(|image| told(&image)), Ok(breach.to_string()));
    // 32 bytes of header and 40 of the rule.
    let rest = 65_536 - 72 - 255;
    assert_eq!(with_texts(&name(255), &path(rest)).map(|image| told(&image)), Ok("good".to_string()));
    let too_long = Err("the image would be longer than 65,536 bytes".to_string());
    assert_eq!(with_texts(&name(255), &path(rest + 1)), too_long);
}
