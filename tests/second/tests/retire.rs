//! The converter of stored images: what it writes, and what it refuses.

mod common;

use common::image_of;
use second::conversions::FILLING;
use second::convert::retire;
use second::image::{self, MAX_LENGTH};
use second::policy::{Context, Gid, NameMatcher, OwnRule, Uid, Verdict};

fn list(names: &[&str]) -> Vec<u8> {
    names.iter().flat_map(|name| [&[name.len() as u8], name.as_bytes()].concat()).collect()
}

/// The answer and the new image; the rest of the room, and all of it where refused, must keep its bytes.
fn into_room(image: &[u8], list: &[u8], room: usize) -> (u32, Vec<u8>) {
    let mut room = vec![FILLING; room];
    let converted = retire(image, list, &mut room);
    assert!(room[converted.length..].iter().all(|byte| *byte == FILLING));
    room.truncate(converted.length);
    (converted.answer.number(), room)
}

fn answer(image: &[u8], list: &[u8]) -> u32 {
    into_room(image, list, 70_000).0
}

/// The own rules of the new image.
fn own(rules: &str, names: &[&str]) -> Vec<OwnRule> {
    let (answer, new) = into_room(&image_of(rules), &list(names), 70_000);
    assert_eq!(answer, 0);
    image::read(&new).expect("the new image is good").own
}

/// The names of the new image's own rules, by their order.
fn texts(rules: &str, names: &[&str]) -> Vec<String> {
    let text = |rule: OwnRule| match rule.name {
        NameMatcher::Any => "any".to_string(),
        NameMatcher::Name(name) => name,
        NameMatcher::Prefix(prefix) => panic!("{prefix} is still there"),
    };
    own(rules, names).into_iter().map(text).collect()
}

fn words(numbers: &[u32]) -> Vec<u8> {
    numbers.iter().flat_map(|number| number.to_le_bytes()).collect()
}

/// An allow of everybody to connect, own rules, one transaction rule, and strings, byte by byte.
fn by_hand(header: [u32; 8], own: &[(u32, [u32; 3])], strings: &[u8]) -> Vec<u8> {
    let mut image = words(&header);
    image.extend(words(&[0x0000_0100, 0]));
    for (front, rest) in own {
        image.extend(words(&[*front]));
        image.extend(words(rest));
    }
    image.extend(words(&[0x0000_0100, 0, 0, 5, 0, 0, 0, 0, 0, 0]));
    image.extend(strings);
    image
}

/// Each byte of a small image before and behind its conversion, written down by hand.
#[test]
fn written_by_hand() {
    let rules = [(0x0002_0102, [1000, 0, 5]), (0x0001_0001, [7, 5, 7])];
    let old = by_hand([124, 1, 32, 2, 40, 1, 72, 112], &rules, b"org.aorg.a.b");
    let rules = [(0x0001_0102, [1000, 12, 7]), (0x0001_0102, [1000, 19, 5]), (0x0001_0001, [7, 5, 7])];
    let new = by_hand([152, 1, 32, 3, 40, 1, 88, 128], &rules, b"org.aorg.a.borg.a.borg.a");
    let list = b"\x05org.b\x07org.a.b\x05org.a";
    assert_eq!(into_room(&old, list, 152), (0, new.clone()));
    assert_eq!(into_room(&old, list, 153), (0, new.clone()));
    assert_eq!(into_room(&old, list, 1000), (0, new));
    for room in [0, 1, 123, 124, 125, 151] {
        assert_eq!(into_room(&old, list, room), (53, Vec::new()), "{room}");
    }
}

#[test]
fn nothing_to_convert() {
    let rules = "connect default allow gid 5\nown default allow any\nown user 7 deny name org.a
        transaction default allow send any path=/a";
    for rules in ["", rules] {
        let image = image_of(rules);
        for names in [&[][..], &["org.a"], &["org.b", "org.freedesktop.DBus"]] {
            let list = list(names);
            assert_eq!(into_room(&image, &list, 70_000), (0, image.clone()));
            assert_eq!(into_room(&image, &list, image.len()), (0, image.clone()));
            assert_eq!(into_room(&image, &list, image.len() - 1), (53, Vec::new()));
        }
        assert_eq!(answer(&image, b"\x05org."), 54);
    }
}

#[test]
fn what_a_prefix_covers() {
    let rules = "own default allow prefix org.foo";
    assert_eq!(
        texts(rules, &["org.foobar", "org.foo", "com.org.foo", "org.foo.bar", "org.fo"]),
        ["org.foo", "org.foo.bar"]
    );
    assert_eq!(texts(rules, &["org.foo-.a", "org.foo_", "org.foo.a.b.c", "org.foo1.a"]), ["org.foo.a.b.c"]);
    let bus = "own default allow prefix org.freedesktop";
    assert_eq!(texts(bus, &["org.freedesktop.DBus"]), ["org.freedesktop.DBus"]);
    let long = format!("org.foo.{}", "x".repeat(247));
    assert_eq!(texts(rules, &[&long]), [long.clone()]);
    assert_eq!(texts(&format!("own default allow prefix {long}"), &["org.foo", &long]), [long.clone()]);
}

#[test]
fn each_in_its_place() {
    let rules = "own default allow any
        own default deny prefix org.foo
        own default allow name org.foo.b
        own mandatory allow prefix org.none
        own default deny prefix org.foo.b
        own default allow name org.z";
    assert_eq!(
        texts(rules, &["org.foo.b", "org.x", "org.foo.a"]),
        ["any", "org.foo.b", "org.foo.a", "org.foo.b", "org.foo.b", "org.z"]
    );
    assert_eq!(texts(rules, &[]), ["any", "org.foo.b", "org.z"]);
    assert_eq!(texts("own default deny prefix org.foo", &["org.x"]), Vec::<String>::new());
}

#[test]
fn context_verdict_and_subject_stay() {
    let cases = [
        ("default allow", Context::Default, Verdict::Allow),
        ("group 9 deny", Context::Group(Gid(9)), Verdict::Deny),
        ("user 4294967295 allow", Context::User(Uid(u32::MAX)), Verdict::Allow),
        ("mandatory deny", Context::Mandatory, Verdict::Deny),
    ];
    for (front, context, verdict) in cases {
        let rule = |name: &str| OwnRule { context, verdict, name: NameMatcher::Name(name.to_string()) };
        let new = own(&format!("own {front} prefix org.foo"), &["org.foo.b", "org.foo"]);
        assert_eq!(new, [rule("org.foo.b"), rule("org.foo")]);
    }
}

/// The old strings stay whole, and each covered name comes once behind them, wherever else it stands.
#[test]
fn strings() {
    let mut old = image_of("own default deny prefix org.foo\nown user 1 allow prefix org.foo.a");
    old.extend(b"uncited org.foo.a");
    let length = old.len() as u32;
    old[..4].copy_from_slice(&length.to_le_bytes());
    let names = list(&["org.x", "org.foo.a", "org.foo.b"]);
    let (answer, new) = into_room(&old, &names, 70_000);
    assert_eq!(answer, 0);
    let area = |image: &[u8]| {
        let at = u32::from_le_bytes([image[28], image[29], image[30], image[31]]) as usize;
        image[at..].to_vec()
    };
    assert_eq!(area(&new), [area(&old).as_slice(), b"org.foo.aorg.foo.b"].concat());
    // Both rules about the first name cite the same copy, which is the added one.
    let cited: Vec<&[u8]> = new[32..80].chunks(16).map(|rule| &rule[8..]).collect();
    let [added, length] = [area(&old).len() as u32, 9];
    assert_eq!(cited, [words(&[added, length]), words(&[added + 9, length]), words(&[added, length])]);
}

#[test]
fn bad_lists() {
    let with = image_of("own default allow prefix org.foo");
    let without = image_of("own default allow name org.foo");
    let longest = [&[255][..], format!("a.{}", "b".repeat(253)).as_bytes()].concat();
    let good: [&[u8]; 4] = [b"", b"\x03a.b", b"\x03a.b\x03a.c", &longest];
    let bad: [&[u8]; 12] = [
        b"\x00",
        b"\x03",
        b"\x04a.b",
        b"\x03a.b\xff",
        b"\x03a.b\x00",
        b"\x00\x03a.b",
        b"\x01a",
        b"\x04:1.1",
        b"\x03a.1",
        b"\x03a.b\x03a.b",
        b"\x03a.b\x03a.c\x03a.d\x03a.b",
        &longest[..255],
    ];
    for image in [&with, &without] {
        assert!(good.iter().all(|list| answer(image, list) == 0));
        for list in bad {
            assert_eq!(into_room(image, list, 70_000), (54, Vec::new()), "{list:?}");
            assert_eq!(into_room(image, list, 0), (54, Vec::new()), "{list:?}");
        }
    }
}

#[test]
fn bad_images_come_first() {
    let good = image_of("own default allow prefix org.foo");
    let mut bad = good.clone();
    bad[33] = 2;
    for image in [&bad[..], &good[..20], &[], &[0; 70_000]] {
        for list in [&b""[..], b"\x03a.b", b"\x00", b"\x03a.b\x03a.b"] {
            assert_eq!(into_room(image, list, 70_000), (50, Vec::new()));
            assert_eq!(into_room(image, list, 0), (50, Vec::new()));
        }
    }
}

fn numbered(count: usize) -> Vec<String> {
    (0..count).map(|number| format!("org.foo.n{number}")).collect()
}

#[test]
fn at_most_256_own_rules() {
    let covered = |rules: &str, count: usize| {
        let names = numbered(count);
        let names: Vec<&str> = names.iter().map(String::as_str).collect();
        answer(&image_of(rules), &list(&names))
    };
    let prefix = "own default allow prefix org.foo\n";
    let exact = "own default allow name org.foo\n";
    assert_eq!(covered(prefix, 256), 0);
    assert_eq!(covered(prefix, 257), 53);
    assert_eq!(covered(&prefix.repeat(16), 16), 0);
    assert_eq!(covered(&(prefix.repeat(16) + exact), 16), 53);
    assert_eq!(covered(&(exact.repeat(254) + prefix), 2), 0);
    assert_eq!(covered(&(exact.repeat(255) + prefix), 2), 53);
    // Rules that vanish make room for others.
    let nothing = "own default allow prefix org.none\n".repeat(255);
    assert_eq!(covered(&(nothing + prefix), 256), 0);
}

#[test]
fn at_most_65536_bytes() {
    let filled = |length: usize| {
        let mut image = image_of("own default allow prefix org.foo");
        image.resize(length, b'u');
        image[..4].copy_from_slice(&(length as u32).to_le_bytes());
        image
    };
    // The name is added, and its rule is as long as the old one.
    let name = list(&["org.foo"]);
    let (answer, new) = into_room(&filled(MAX_LENGTH - 7), &name, 70_000);
    assert_eq!((answer, new.len()), (0, MAX_LENGTH));
    assert!(image::read(&new).is_ok());
    assert_eq!(into_room(&filled(MAX_LENGTH - 6), &name, 70_000), (53, Vec::new()));
    // The rule vanishes, and with it 16 bytes.
    let (answer, new) = into_room(&filled(MAX_LENGTH), &[], MAX_LENGTH - 16);
    assert_eq!((answer, new.len()), (0, MAX_LENGTH - 16));
}
