//! The lines that `crates/name_vectors` prints, made here with this program's own name rules.
//!
//! A line takes one text and one place in it, and tells which of the 256 bytes make the text a
//! name when they stand there. The lines also go to `target/tmp/name_vectors`, from where they
//! can be copied when the rules change.

use second::names::{is_bus_name, is_interface, is_member, is_path, is_unique, is_well_known};

const VECTORS: &str = concat!(env!("CARGO_MANIFEST_DIR"), "/../../crates/name_vectors/stdout");
const FOUND: &str = concat!(env!("CARGO_TARGET_TMPDIR"), "/name_vectors");

const LENGTHS: [usize; 13] = [1, 2, 3, 8, 9, 16, 17, 31, 32, 33, 34, 255, 256];

/// A form of names, and the look of the texts that are tried for it.
struct Kind {
    name: &'static str,
    keeps_the_rule: fn(&[u8]) -> bool,
    /// What the text begins with.
    mark: Option<u8>,
    /// What stands between its elements.
    separator: Option<u8>,
}

const KINDS: [Kind; 7] = [
    Kind { name: "interface", keeps_the_rule: is_interface, mark: None, separator: Some(b'.') },
    Kind { name: "well-known", keeps_the_rule: is_well_known, mark: None, separator: Some(b'.') },
    Kind { name: "unique", keeps_the_rule: is_unique, mark: Some(b':'), separator: Some(b'.') },
    Kind { name: "bus", keeps_the_rule: is_bus_name, mark: None, separator: Some(b'.') },
    Kind { name: "bus-colon", keeps_the_rule: is_bus_name, mark: Some(b':'), separator: Some(b'.') },
    Kind { name: "member", keeps_the_rule: is_member, mark: None, separator: None },
    Kind { name: "path", keeps_the_rule: is_path, mark: Some(b'/'), separator: Some(b'/') },
];

/// Where the separator stands: behind the first letter, or just before the middle.
#[derive(Clone, Copy)]
enum Base {
    Early,
    Middle,
}

impl Base {
    fn name(self) -> &'static str {
        match self {
            Base::Early => "early",
            Base::Middle => "middle",
        }
    }

    fn separator_place(self, kind: &Kind, length: usize) -> usize {
        match self {
            Base::Early => 1 + usize::from(kind.mark.is_some()),
            Base::Middle => (length / 2).saturating_sub(1),
        }
    }
}

/// Letters, with the kind's mark in front and its separator where one can stand.
fn base_text(kind: &Kind, length: usize, base: Base) -> Vec<u8> {
    let mut text = vec![b'a'; length];
    let place = base.separator_place(kind, length);
    if let Some(separator) = kind.separator.filter(|_| place > 0 && place + 1 < length) {
        text[place] = separator;
    }
    if let Some(mark) = kind.mark {
        text[0] = mark;
    }
    text
}

/// The places of a text that are tried, rising and each once.
fn places(length: usize) -> Vec<usize> {
    let mut places: Vec<usize> = Vec::new();
    for place in [0, 1, length / 2, length - 1] {
        if place < length && places.last().is_none_or(|last| *last < place) {
            places.push(place);
        }
    }
    places
}

/// The bytes that make the text a name of this kind when they stand at `place`.
fn accepted(kind: &Kind, text: &[u8], place: usize) -> Vec<u8> {
    let with = |byte: u8| [&text[..place], &[byte], &text[place + 1..]].concat();
    (0..=255).filter(|&byte| (kind.keeps_the_rule)(&with(byte))).collect()
}

/// Rising bytes as runs without gaps, each with a blank before it.
fn runs(bytes: &[u8]) -> String {
    let run = |run: &[u8]| match run {
        [from, .., to] => format!(" {from}-{to}"),
        _ => format!(" {}", run[0]),
    };
    bytes.chunk_by(|one, next| u16::from(*one) + 1 == u16::from(*next)).map(run).collect()
}

fn lines_of(kind: &Kind, length: usize, base: Base) -> String {
    let text = base_text(kind, length, base);
    let line = |place: usize| {
        let runs = runs(&accepted(kind, &text, place));
        format!("{} {length} {} {place}:{runs}\n", kind.name, base.name())
    };
    places(length).into_iter().map(line).collect()
}

fn all_lines() -> String {
    let mut lines = String::new();
    for kind in &KINDS {
        for length in LENGTHS {
            for base in [Base::Early, Base::Middle] {
                lines += &lines_of(kind, length, base);
            }
        }
    }
    lines
}

/// What to say about the first line that is not the same, or that only one side has.
fn first_difference(ours: &str, theirs: &str) -> Option<String> {
    let (mut ours, mut theirs) = (ours.split('\n'), theirs.split('\n'));
    for number in 1.. {
        match (ours.next(), theirs.next()) {
            (None, None) => break,
            (here, there) if here == there => {}
            (here, there) => {
                let [here, there] = [here, there].map(|line| line.unwrap_or("(no line)"));
                return Some(format!("line {number}\n  second program: {here}\n  name vectors:   {there}"));
            }
        }
    }
    None
}

#[test]
fn every_vector_is_told_the_same() {
    let found = all_lines();
    std::fs::write(FOUND, &found).expect("the lines can be left for copying");
    let wanted = std::fs::read_to_string(VECTORS).unwrap_or_else(|fault| panic!("{VECTORS}: {fault}"));
    if let Some(difference) = first_difference(&found, &wanted) {
        panic!("{difference}");
    }
}

#[test]
fn lines_worked_out_by_hand() {
    let found = all_lines();
    let by_hand = [
        "interface 1 early 0:",
        "interface 3 early 1: 46",
        "interface 3 middle 1: 46",
        "interface 8 early 0: 65-90 95 97-122",
        "interface 8 early 1: 46",
        "interface 8 early 4: 46 48-57 65-90 95 97-122",
        "interface 8 early 7: 48-57 65-90 95 97-122",
        "interface 8 middle 4: 65-90 95 97-122",
        "interface 255 middle 0: 65-90 95 97-122",
        "interface 256 middle 0:",
        "well-known 9 middle 8: 45 48-57 65-90 95 97-122",
        "unique 2 early 0:",
        "unique 8 early 0: 58",
        "unique 8 early 1: 45 48-57 65-90 95 97-122",
        "bus 8 early 0: 45 65-90 95 97-122",
        "bus 8 middle 0: 45 58 65-90 95 97-122",
        "bus-colon 8 early 0: 45 58 65-90 95 97-122",
        "member 1 early 0: 65-90 95 97-122",
        "member 255 middle 254: 48-57 65-90 95 97-122",
        "path 1 early 0: 47",
        "path 3 middle 1: 48-57 65-90 95 97-122",
        "path 8 early 4: 47-57 65-90 95 97-122",
        "path 256 early 255: 48-57 65-90 95 97-122",
    ];
    for line in by_hand {
        assert!(found.split('\n').any(|ours| ours == line), "{line}");
    }
    assert_eq!(found.lines().count(), 7 * 2 * (1 + 2 + 3 + 10 * 4));
}

#[test]
fn the_first_difference_is_named() {
    assert_eq!(first_difference("a\nb\n", "a\nb\n"), None);
    let says = |ours, theirs| first_difference(ours, theirs).expect("they differ");
    assert!(says("a\nb\nc\n", "a\nx\ny\n").starts_with("line 2\n  second program: b\n  name vectors:   x"));
    assert!(says("a\nb\n", "a\n").ends_with("line 2\n  second program: b\n  name vectors:   "));
    assert!(says("a\n", "a").starts_with("line 2\n"));
    assert!(says("a", "a\n").ends_with("name vectors:   "));
    assert!(says("a\n", "a\n\n").starts_with("line 3\n"));
    assert!(says("a\n", "a\r\n").starts_with("line 1\n"));
}
