//! What coverage sees of refused names.

mod common;

use common::{image_of, OPEN};
use second::capture::{self, Call, Capture};
use second::coverage::Coverage;
use second::header::{bad_text, INTERFACE};
use second::image::{self, Breach};
use second::image_write;
use second::message::Message;
use second::name_cases::{cases, of_image, of_text};
use second::name_forms::Form;
use second::policy::{Context, NameMatcher, OwnRule, Policy, Uid, Verdict};

const BYTE: Option<&str> = Some("a byte that is no character");
const DIGIT: Option<&str> = Some("a leading digit");
const EMPTY: Option<&str> = Some("an empty element");

#[test]
fn one_kind_of_fault() {
    let texts = [
        (Form::Interface, "a-b.c", BYTE),
        (Form::Interface, "@@.b/c", BYTE),
        (Form::Interface, "a.1b", DIGIT),
        (Form::Interface, "1.2", DIGIT),
        (Form::Interface, "a..b", EMPTY),
        (Form::Interface, ".a", EMPTY),
        (Form::ErrorName, "a.b{", BYTE),
        (Form::ErrorName, "a.b.", EMPTY),
        (Form::Member, "a.b", BYTE),
        (Form::Member, "1a", DIGIT),
        (Form::WellKnown, "a.b/c", BYTE),
        (Form::WellKnown, ":1.1", None),
        (Form::WellKnown, "a.-.1", DIGIT),
        (Form::Unique, ":1.@", BYTE),
        (Form::Unique, "::1.1", BYTE),
        (Form::Unique, ":1..1", EMPTY),
        (Form::Unique, ":.1", EMPTY),
        (Form::Path, "/a-b", BYTE),
        (Form::Path, "/a/", EMPTY),
        (Form::Path, "//", EMPTY),
    ];
    for (form, text, fault) in texts {
        let case = fault.map(|fault| format!("8 {} with {fault}", form.name()));
        assert_eq!(of_text(8, form, text.as_bytes()), case, "{text}");
        assert!(case.is_none_or(|case| cases().contains(&case)), "{text}");
    }
}

#[test]
fn other_texts_show_nothing() {
    let texts = [
        (Form::Interface, "a.b"),
        (Form::Interface, ""),
        (Form::Interface, "a"),
        (Form::Interface, "a.1@"),
        (Form::Interface, "a..1"),
        (Form::Member, "M"),
        (Form::Member, ""),
        (Form::Unique, ":1.1"),
        (Form::Unique, ":1"),
        (Form::Unique, "1.1"),
        (Form::Path, "/1"),
        (Form::Path, "a"),
        (Form::Path, "/-//a"),
    ];
    for (form, text) in texts {
        assert_eq!(of_text(8, form, text.as_bytes()), None, "{text}");
    }
    let too_long = [b"a.".as_slice(), &[b'b'; 254]].concat();
    assert_eq!(of_text(31, Form::WellKnown, &too_long), None);
}

#[test]
fn texts_of_images() {
    let image = |name: &str| {
        let name = NameMatcher::Name(name.to_string());
        let own = vec![OwnRule { context: Context::Default, verdict: Verdict::Allow, name }];
        image_write::write(&Policy { own, ..Policy::default() }).expect("it fits")
    };
    let bad = image("a.1b");
    assert_eq!(image::read(&bad).map_err(|bad| bad.breach), Err(Breach::NotAWellKnownName));
    let case = Some("50 well-known name with a leading digit".to_string());
    assert_eq!(of_image(&bad, Breach::NotAWellKnownName), case);
    assert_eq!(of_image(&bad, Breach::NotAPath), None);
    assert_eq!(of_image(&bad, Breach::Subject), None);
    assert_eq!(of_image(&[], Breach::ShorterThanHeader), None);
    assert_eq!(of_image(&image("a.b"), Breach::NotAWellKnownName), None);
}

#[test]
fn texts_of_heads() {
    let call = Message::call(1, "/", "M");
    assert_eq!(bad_text(&call.bytes()), None);
    assert_eq!(bad_text(&Message::method_return(1, 0).bytes()), None);
    assert_eq!(bad_text(&call.interface("a.1").bytes()), Some((INTERFACE, b"a.1".to_vec())));
}

#[test]
fn calls_of_a_capture() {
    let calls = vec![
        Call::Connect { uid: Uid(1), gids: Vec::new() },
        Call::Own { peer: 1, name: b"a..b".to_vec() },
        Call::Release { peer: 1, name: b"a.b\xc3".to_vec() },
        // A stranger's bad name is not looked at.
        Call::Own { peer: 2, name: b"a..b".to_vec() },
        Call::Piece { peer: 1, bytes: Message::call(1, "/", "M").to(":1..1").bytes() },
    ];
    let mut coverage = Coverage::default();
    coverage.add(&capture::write(&Capture { image: image_of(OPEN), calls }));
    let report = coverage.report();
    let with: Vec<&str> = report.lines().filter(|line| line.contains(" with ")).collect();
    let wanted = [
        "case 31 well-known name with a byte that is no character: 1",
        "case 31 well-known name with an empty element: 1",
        "case 8 unique name with an empty element: 1",
    ];
    assert_eq!(with, wanted);
    assert!(coverage.never().contains(&"50 path with an empty element".to_string()));
}

#[test]
fn every_case_once() {
    let mut all = cases();
    assert_eq!(all.len(), 15 + 3 + 10);
    all.sort();
    all.dedup();
    assert_eq!(all.len(), 15 + 3 + 10);
}
