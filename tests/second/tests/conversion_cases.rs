//! The cases of conversions that coverage counts, and the reckoning behind them.

mod common;

use common::image_of;
use second::conversion_cases::{of_conversion, CASES};
use second::conversions::Conversion;
use second::convert::retire;
use second::reckoning::{read_list, List, ListFault};

fn list(names: &[&str]) -> Vec<u8> {
    names.iter().flat_map(|name| [&[name.len() as u8], name.as_bytes()].concat()).collect()
}

/// The cases of one conversion into a room of that length.
fn cases(image: &[u8], list: &[u8], room: usize) -> Vec<&'static str> {
    let conversion = Conversion { image: image.to_vec(), list: list.to_vec(), room: room as u32 };
    let answer = retire(image, list, &mut vec![0; room]).answer;
    let cases = of_conversion(&conversion, answer);
    assert!(cases.iter().all(|case| CASES.contains(case)), "{cases:?}");
    assert!(cases.iter().all(|case| case.starts_with(&format!("{} ", answer.number()))), "{cases:?}");
    cases
}

/// The cases into a long room, without the one about the room.
fn of(rules: &str, names: &[&str]) -> Vec<&'static str> {
    let mut cases = cases(&image_of(rules), &list(names), 60_000);
    cases.retain(|case| *case != "0 into a room longer by 100 and more");
    cases
}

#[test]
fn little_to_do() {
    assert_eq!(of("", &[]), ["0 without own rules", "0 without prefixes, nothing listed"]);
    assert_eq!(of("own default allow any", &["a.b"]), ["0 without prefixes, names listed"]);
    let vanishes = ["0 with prefixes, nothing listed", "0 with no own rule left"];
    assert_eq!(of("own default allow prefix a.b", &[]), vanishes);
}

#[test]
fn one_rule() {
    let simple = of("own user 7 deny prefix a.b", &["a.b.c"]);
    assert_eq!(simple, ["0 with a covering deny", "0 with a covering user's rule"]);
    let itself = of("own default allow prefix a.b", &["a.bc", "a.b"]);
    for case in [
        "0 with the prefix itself listed",
        "0 with a name that goes on behind a prefix without a dot",
        "0 with a covered name that stands in the old strings",
        "0 with a name that is not covered before one that is",
    ] {
        assert!(itself.contains(&case), "{case}");
        assert!(!simple.contains(&case), "{case}");
    }
    // A name that goes on with a dot is covered.
    let below = of("own default allow prefix a.b", &["a.b.c", "x.y"]);
    assert!(!below.contains(&"0 with a name that goes on behind a prefix without a dot"));
    assert!(!below.contains(&"0 with a name that is not covered before one that is"));
    let bus = of("own default allow prefix org.freedesktop", &["org.freedesktop.DBus"]);
    assert!(bus.contains(&"0 with the bus's name covered"));
    let bus = of("own default allow prefix a.b", &["org.freedesktop.DBus"]);
    assert!(bus.contains(&"0 with the bus's name not covered"));
}

#[test]
fn several_rules() {
    let over = |second: &str| {
        let cases = of(&format!("own default allow prefix a.b\nown default {second}"), &["a.b.c", "a.b.d"]);
        cases.into_iter().filter(|case| case.contains(" over one name")).collect::<Vec<_>>()
    };
    assert_eq!(over("allow prefix a.b"), ["0 with equal prefixes over one name"]);
    assert_eq!(over("allow prefix a.b.c"), ["0 with nested prefixes over one name"]);
    let denied = ["0 with equal prefixes over one name", "0 with an allow and a deny over one name"];
    assert_eq!(over("deny prefix a.b"), denied);
    assert_eq!(over("deny prefix x.y"), Vec::<&str>::new());
    assert_eq!(over("deny name a.b.c"), Vec::<&str>::new());
    let between = "own default allow any\nown default deny prefix a.b\nown default allow name a.b.c";
    let cases = of(between, &["a.b.c"]);
    assert!(cases.contains(&"0 with other rules before and behind a covering one"));
    assert!(cases.contains(&"0 with a covered name that an exact rule is about"));
    let cases = of("own default deny prefix a.b\nown default allow any", &["a.b.c"]);
    assert!(!cases.contains(&"0 with other rules before and behind a covering one"));
}

#[test]
fn rooms() {
    let image = image_of("own default allow prefix a.b");
    let (longer, shorter) = (list(&["a.b.c"]), Vec::new());
    let has = |list: &[u8], room: usize, case| cases(&image, list, room).contains(&case);
    let (old, new) = (image.len(), image.len() + 5);
    assert!(has(&longer, new, "0 into a room just long enough"));
    assert!(has(&longer, new + 1, "0 into a room one longer"));
    assert!(has(&longer, new + 100, "0 into a room longer by 100 and more"));
    assert!(!has(&longer, new + 99, "0 into a room longer by 100 and more"));
    assert!(has(&longer, new - 1, "53 for a room one shorter alone"));
    assert!(has(&longer, 0, "53 for a room of 0 alone"));
    assert!(has(&longer, old, "53 for a room as long as the old image alone"));
    assert!(has(&shorter, old - 16, "0 into a room shorter than the old image"));
    assert!(cases(&image_of(""), &[], 31).contains(&"53 without prefixes"));
}

#[test]
fn limits() {
    let names: Vec<String> = (0..258).map(|number| format!("a.b.n{number}")).collect();
    let names: Vec<&str> = names.iter().map(String::as_str).collect();
    let image = image_of("own default allow prefix a.b");
    let of = |count: usize| cases(&image, &list(&names[..count]), 60_000);
    assert!(of(256).contains(&"0 with 256 own rules, more than before"));
    assert_eq!(of(257), ["53 for 257 own rules alone"]);
    assert_eq!(of(258), ["53 for more own rules alone"]);
    // With a short room it is for two reasons, and counts for none.
    assert_eq!(cases(&image, &list(&names[..257]), 100), Vec::<&str>::new());
    let repeated = [list(&names), list(&names[..1])].concat();
    let both = cases(&image, &repeated, 0);
    assert!(both.contains(&"54 before 53 for the own rules") && both.contains(&"54 before 53 for the room"));
}

#[test]
fn bad_images() {
    assert_eq!(cases(&[0; 40], &[], 40), ["50 alone"]);
    assert_eq!(cases(&[0; 40], &[0], 40), ["50 before 54"]);
    assert_eq!(cases(&[0; 40], &[], 0), ["50 with a room of 0"]);
}

#[test]
fn faults_of_lists() {
    let fault = |list: &[u8]| read_list(list).fault;
    assert_eq!(read_list(b"\x03a.b\x03a.c"), List { names: vec!["a.b".into(), "a.c".into()], fault: None });
    assert_eq!(fault(b"\x03a.b\x05"), Some(ListFault::LengthAtTheEnd));
    assert_eq!(fault(b"\x03a.b\x05a"), Some(ListFault::Cut));
    assert_eq!(fault(b"\x03a.b\x00\x03a.b"), Some(ListFault::Empty));
    assert_eq!(fault(b"\x01a"), Some(ListFault::IllFormed));
    assert_eq!(fault(b"\x03a.b\x03a.b"), Some(ListFault::RepeatedAtOnce));
    assert_eq!(fault(b"\x03a.b\x03a.c\x03a.b"), Some(ListFault::RepeatedLater));
    assert_eq!(read_list(b"\x03a.b\x00").names, ["a.b"]);
    let image = image_of("own default allow any");
    assert_eq!(cases(&image, b"\x00", 60_000), ["54 for an empty name", "54 without prefixes"]);
    let behind = ["54 for a cut name", "54 without prefixes", "54 behind names that are good"];
    assert_eq!(cases(&image, b"\x03a.b\x05a", 60_000), behind);
}
