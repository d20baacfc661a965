//! The name rules, with the examples of the D-Bus Specification and every limit.

use second::names::*;

type Rule = fn(&[u8]) -> bool;

fn long(prefix: &str, length: usize) -> Vec<u8> {
    let mut text = prefix.as_bytes().to_vec();
    text.resize(length, b'x');
    text
}

#[test]
fn interfaces() {
    for good in
        ["org.freedesktop.DBus.Introspectable", "a.b", "_._", "a1.b2.c3", "org._7_zip.Plugin", "A.Z_9"]
    {
        assert!(is_interface(good.as_bytes()), "{good}");
        assert!(is_error_name(good.as_bytes()), "{good}");
    }
    let bad = [
        "",
        ".",
        "a",
        "a.",
        ".a",
        "a..b",
        ".a.b",
        "a.b.",
        "a.1b",
        "1a.b",
        "org.7-zip.Plugin",
        "a-b.c",
        "a.b c",
        "a.b/",
        "a.\u{e9}",
        ":a.b",
        "a.b\0",
        "a.b\n",
        "a.@",
        "a.[",
        "a.`",
        "a.{",
    ];
    for bad in bad {
        assert!(!is_interface(bad.as_bytes()), "{bad}");
        assert!(!is_error_name(bad.as_bytes()), "{bad}");
    }
    assert!(is_interface(&long("a.b", 255)));
    assert!(!is_interface(&long("a.b", 256)));
    assert!(is_error_name(&long("a.b", 255)));
    assert!(!is_error_name(&long("a.b", 256)));
}

#[test]
fn members() {
    for good in ["Frobate", "a", "_", "Get_1", "_1"] {
        assert!(is_member(good.as_bytes()), "{good}");
    }
    for bad in ["", "1a", "a.b", "a-b", "a b", "a/", "\u{e9}", "a\0"] {
        assert!(!is_member(bad.as_bytes()), "{bad}");
    }
    assert!(is_member(&long("M", 255)));
    assert!(!is_member(&long("M", 256)));
}

#[test]
fn well_known_names() {
    let good = [
        "com.example.backup-manager",
        "org.freedesktop.DBus",
        "a.b",
        "-.-",
        "a.-",
        "-a.b",
        "org._7_zip.X",
        "a.b-1",
    ];
    for good in good {
        assert!(is_well_known(good.as_bytes()), "{good}");
        assert!(is_bus_name(good.as_bytes()), "{good}");
    }
    for bad in
        ["", "org", "org.", ".org", "org..a", "org.7-zip", "1.a", ":1.1", ":a.b", "a.b:", "a.b/c", "a.\u{e9}"]
    {
        assert!(!is_well_known(bad.as_bytes()), "{bad}");
    }
    assert!(is_well_known(&long("a.b", 255)));
    assert!(!is_well_known(&long("a.b", 256)));
}

#[test]
fn unique_names() {
    for good in [":1.42", ":1.1", ":34.907", ":1.07", ":1.0", ":2.1", ":1.1.1", ":a.b", ":-.-", ":_.9"] {
        assert!(is_unique(good.as_bytes()), "{good}");
    }
    // The D-Bus Specification shows this one in passing, but its rules ask for a dot.
    assert!(!is_unique(b":34-907"));
    for bad in ["", ":", ":1", ":1.", ":.1", ":1..1", "1.1", "::1.1", ":1.1:", ":1.1 ", ":1.\u{e9}", "a.b"] {
        assert!(!is_unique(bad.as_bytes()), "{bad}");
    }
    assert!(is_unique(&long(":1.", 255)));
    assert!(!is_unique(&long(":1.", 256)));
    assert!(is_bus_name(b":1.1"));
    assert!(!is_bus_name(b":1"));
}

#[test]
fn paths() {
    for good in ["/", "/a", "/org/freedesktop/DBus", "/com/example/MusicPlayer1", "/1", "/_", "/a/1/_"] {
        assert!(is_path(good.as_bytes()), "{good}");
    }
    for bad in ["", "a", "//", "/a/", "/a//b", "//a", "/a-b", "/a.b", "/ ", "/\u{e9}", "/a\0", "a/b"] {
        assert!(!is_path(bad.as_bytes()), "{bad}");
    }
    assert!(is_path(&long("/", 256)));
    assert!(is_path(&long("/", 2000)));
}

#[test]
fn unique_name_texts() {
    assert_eq!(unique_name_of(7), ":1.7");
    assert_eq!(unique_name_of(4_294_967_295), ":1.4294967295");
}

/// A form of names, a good name of it, and for each place of the name those of the tried bytes
/// that may stand there instead.
struct Tried {
    form: &'static str,
    keeps_the_rule: Rule,
    text: &'static str,
    good: &'static [&'static str],
}

/// Both ends of every range of characters, their neighbours, the other marks that names know,
/// and bytes that no text has.
const BYTES: &[u8] = b"09AZaz_/:@[`{-.\x00\x7f\x80\xc3\xff";

const DOTTED: &[&str] = &["AZaz_", "09AZaz_.", "09AZaz_", ".", "AZaz_", "09AZaz_.", "09AZaz_"];
const WELL_KNOWN: &[&str] = &["-AZaz_", "-09AZaz_.", "-09AZaz_", ".", "-AZaz_", "-09AZaz_.", "-09AZaz_"];
// A colon in front leaves a unique name.
const WELL_KNOWN_OR_UNIQUE: &[&str] =
    &[":-AZaz_", "-09AZaz_.", "-09AZaz_", ".", "-AZaz_", "-09AZaz_.", "-09AZaz_"];
const UNIQUE: &[&str] = &[":", "-09AZaz_", "-09AZaz_.", "-09AZaz_", ".", "-09AZaz_", "-09AZaz_.", "-09AZaz_"];
// With a letter in front, what was unique is well-known.
const UNIQUE_OR_WELL_KNOWN: &[&str] =
    &[":-AZaz_", "-09AZaz_", "-09AZaz_.", "-09AZaz_", ".", "-09AZaz_", "-09AZaz_.", "-09AZaz_"];
const ONE_ELEMENT: &[&str] = &["AZaz_", "09AZaz_", "09AZaz_"];
// Without its second slash this path is one element.
const SLASHED: &[&str] =
    &["/", "09AZaz_", "09AZaz_/", "09AZaz_", "09AZaz_/", "09AZaz_", "09AZaz_/", "09AZaz_"];

const TRIED: [Tried; 8] = [
    Tried { form: "interface", keeps_the_rule: is_interface, text: "aaa.aaa", good: DOTTED },
    Tried { form: "error name", keeps_the_rule: is_error_name, text: "aaa.aaa", good: DOTTED },
    Tried { form: "well-known name", keeps_the_rule: is_well_known, text: "aaa.aaa", good: WELL_KNOWN },
    Tried { form: "unique name", keeps_the_rule: is_unique, text: ":aaa.aaa", good: UNIQUE },
    Tried { form: "bus name", keeps_the_rule: is_bus_name, text: "aaa.aaa", good: WELL_KNOWN_OR_UNIQUE },
    Tried { form: "bus name", keeps_the_rule: is_bus_name, text: ":aaa.aaa", good: UNIQUE_OR_WELL_KNOWN },
    Tried { form: "member", keeps_the_rule: is_member, text: "aaa", good: ONE_ELEMENT },
    Tried { form: "path", keeps_the_rule: is_path, text: "/aaa/aaa", good: SLASHED },
];

fn with_byte(text: &[u8], place: usize, byte: u8) -> Vec<u8> {
    let mut text = text.to_vec();
    text[place] = byte;
    text
}

#[test]
fn every_place_takes_its_characters_alone() {
    for Tried { form, keeps_the_rule, text, good } in TRIED {
        assert_eq!(text.len(), good.len(), "{form} {text}");
        for (place, good) in good.iter().enumerate() {
            for &byte in BYTES {
                let is_good = keeps_the_rule(&with_byte(text.as_bytes(), place, byte));
                assert_eq!(is_good, good.as_bytes().contains(&byte), "{form} {text}: {byte} at {place}");
            }
        }
    }
}

#[test]
fn leading_digits() {
    for digit in ['0', '1', '9'] {
        for text in ["#.b.c", "a.#.c", "a.b.#", "#a.b.c", "a.#b.c", "a.b.#c", "a.#", "#.#"] {
            let text = text.replace('#', &digit.to_string());
            let (unique, path) = (format!(":{text}"), format!("/{}", text.replace('.', "/")));
            for refuses in [is_interface, is_error_name, is_well_known, is_bus_name] {
                assert!(!refuses(text.as_bytes()), "{text}");
            }
            assert!(is_unique(unique.as_bytes()), "{unique}");
            assert!(is_bus_name(unique.as_bytes()), "{unique}");
            assert!(is_path(path.as_bytes()), "{path}");
        }
        assert!(!is_member(format!("{digit}").as_bytes()));
        assert!(!is_member(format!("{digit}a").as_bytes()));
        assert!(is_member(format!("a{digit}").as_bytes()));
    }
}

const LENGTHS: [usize; 10] = [8, 9, 16, 17, 31, 32, 33, 34, 255, 256];

/// Each form with the beginning of a name that only letters follow.
const BEGINNINGS: [(Rule, &str); 8] = [
    (is_interface, "a.b"),
    (is_error_name, "a.b"),
    (is_well_known, "a.b"),
    (is_unique, ":1.b"),
    (is_bus_name, "a.b"),
    (is_bus_name, ":1.b"),
    (is_member, "M"),
    (is_path, "/a/b"),
];

/// At every length one byte that is no character is found wherever it stands, most of all at
/// the end.
#[test]
fn one_fault_in_a_long_name() {
    for (keeps_the_rule, beginning) in BEGINNINGS {
        for length in LENGTHS {
            let good = long(beginning, length);
            let has_no_limit = beginning.starts_with('/');
            assert_eq!(keeps_the_rule(&good), length <= 255 || has_no_limit, "{beginning} {length}");
            for &byte in b"/:@[`{.\x00\x7f\x80\xc3\xff" {
                let bad = with_byte(&good, length - 1, byte);
                assert!(!keeps_the_rule(&bad), "{beginning} {length}: {byte} at the end");
            }
            for place in 0..length {
                let bad = with_byte(&good, place, b'@');
                assert!(!keeps_the_rule(&bad), "{beginning} {length}: @ at {place}");
            }
        }
    }
}

/// The last element is one digit, at every length.
#[test]
fn a_leading_digit_at_the_end_of_a_long_name() {
    for length in LENGTHS {
        let ending = |beginning: &str, end: &[u8]| [&long(beginning, length - 2), end].concat();
        let is_short = length <= 255;
        for keeps_the_rule in [is_interface, is_error_name, is_well_known, is_bus_name] {
            assert!(!keeps_the_rule(&ending("a", b".1")), "{length}");
            assert_eq!(keeps_the_rule(&ending("a", b".b")), is_short, "{length}");
        }
        assert_eq!(is_unique(&ending(":a", b".1")), is_short, "{length}");
        assert_eq!(is_bus_name(&ending(":a", b".1")), is_short, "{length}");
        assert!(is_path(&ending("/a", b"/1")), "{length}");
    }
}
