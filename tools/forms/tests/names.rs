//! The name rules at their limits, and the byte at which each of them breaks.

use forms::names::{fault, is, is_under, Form, NameFault};

const ALL: [Form; 6] = [Form::Interface, Form::WellKnown, Form::Unique, Form::Bus, Form::Member, Form::Path];

fn breaks(form: Form, text: &str, at: usize, wanted: &str) {
    let told = NameFault { at, wanted: wanted.to_string() };
    assert_eq!(fault(form, text.as_bytes()), Some(told), "{form:?} {text}");
}

fn good(form: Form, texts: &[&str]) {
    for text in texts {
        assert_eq!(fault(form, text.as_bytes()), None, "{form:?} {text}");
        assert!(is(form, text.as_bytes()));
    }
}

#[test]
fn good_names() {
    good(Form::Interface, &["a.b", "_._", "A9.z_0.Z", "org.theatre.Fans"]);
    good(Form::WellKnown, &["a.b", "-.-", "a-.-b", "org.theatre.Fan-Control"]);
    good(Form::Unique, &[":1.0", ":a.b", ":-.9-", ":1.2.3"]);
    good(Form::Bus, &["a.b", "-.-", ":1.0", "org.freedesktop.DBus"]);
    good(Form::Member, &["a", "_", "A9", "GetSpeed"]);
    good(Form::Path, &["/", "/a", "/0", "/_/9a/B", "/org/theatre/Fans"]);
}

#[test]
fn empty_texts_break_at_0() {
    breaks(Form::Interface, "", 0, "a letter or _");
    breaks(Form::WellKnown, "", 0, "a letter, _ or -");
    breaks(Form::Unique, "", 0, ": at the start");
    breaks(Form::Bus, "", 0, "a letter, _, - or :");
    breaks(Form::Member, "", 0, "a letter or _");
    breaks(Form::Path, "", 0, "/ at the start");
}

#[test]
fn elements_are_not_empty() {
    breaks(Form::Interface, ".a.b", 0, "a letter or _");
    breaks(Form::Interface, "a..b", 2, "a letter or _");
    breaks(Form::Interface, "a.b.", 4, "another element behind the dot");
    breaks(Form::Unique, ":", 1, "a letter, a digit, _ or -");
    breaks(Form::Unique, ":.1", 1, "a letter, a digit, _ or -");
    breaks(Form::Bus, ":1.", 3, "another element behind the dot");
    breaks(Form::Path, "//", 1, "a letter, a digit or _");
    breaks(Form::Path, "/a//b", 3, "a letter, a digit or _");
    breaks(Form::Path, "/a/", 3, "another element behind the /");
}

#[test]
fn elements_are_counted() {
    breaks(Form::Interface, "org", 3, "two elements at least");
    breaks(Form::WellKnown, "org", 3, "two elements at least");
    breaks(Form::Unique, ":1", 2, "two elements at least");
    breaks(Form::Bus, ":1", 2, "two elements at least");
    breaks(Form::Member, "a.b", 1, "a letter, a digit or _");
}

#[test]
fn digits_begin_some_elements() {
    breaks(Form::Interface, "9a.b", 0, "no digit at the start of an element");
    breaks(Form::Interface, "a.9b", 2, "no digit at the start of an element");
    breaks(Form::WellKnown, "a.0", 2, "no digit at the start of an element");
    breaks(Form::Bus, "1.0", 0, "no digit at the start of an element");
    breaks(Form::Member, "0", 0, "no digit at the start of an element");
}

#[test]
fn dashes_stand_in_bus_names_only() {
    breaks(Form::Interface, "a-b.c", 1, "a letter, a digit, _ or a dot");
    breaks(Form::Interface, "-.c", 0, "a letter or _");
    breaks(Form::Member, "Get-Speed", 3, "a letter, a digit or _");
    breaks(Form::Path, "/a-b", 2, "a letter, a digit, _ or /");
    breaks(Form::Path, "/-", 1, "a letter, a digit or _");
}

#[test]
fn leads() {
    breaks(Form::Path, "a", 0, "/ at the start");
    breaks(Form::Unique, "1.0", 0, ": at the start");
    breaks(Form::WellKnown, ":1.0", 0, "a letter, _ or -");
    breaks(Form::Bus, "/a", 0, "a letter, _, - or :");
    breaks(Form::Unique, ":1.0:", 4, "a letter, a digit, _, - or a dot");
}

/// 255 bytes are good and 256 are not, the colon among them; a path goes on.
#[test]
fn length() {
    for (form, front) in [
        (Form::Interface, "a."),
        (Form::WellKnown, "a."),
        (Form::Unique, ":1."),
        (Form::Bus, "a."),
        (Form::Bus, ":1."),
        (Form::Member, ""),
    ] {
        let most = format!("{front}{}", "x".repeat(255 - front.len()));
        good(form, &[&most]);
        breaks(form, &(most.clone() + "x"), 255, "at most 255 bytes");
        breaks(form, &(most.clone() + "x-?"), 255, "at most 255 bytes");
        breaks(form, &most.replace("xx", "x?"), front.len() + 1, &wanted_inside(form));
    }
    good(Form::Path, &[&("/".to_string() + &"x".repeat(300))]);
}

fn wanted_inside(form: Form) -> String {
    let words = match form {
        Form::Interface => "a letter, a digit, _ or a dot",
        Form::Member => "a letter, a digit or _",
        _ => "a letter, a digit, _, - or a dot",
    };
    words.to_string()
}

/// Every byte at the start, inside and behind a separator, against the sets as the rules list them.
#[test]
fn every_byte() {
    for form in ALL {
        for byte in 0..=255_u8 {
            let letter = byte.is_ascii_alphabetic() || byte == b'_';
            let dash = byte == b'-' && !matches!(form, Form::Interface | Form::Member | Form::Path);
            let digit = byte.is_ascii_digit();
            let begins = letter || dash || digit && matches!(form, Form::Unique | Form::Path);
            let front: &[u8] = match form {
                Form::Unique => b":a.",
                Form::Path => b"/a/",
                Form::Member => b"",
                _ => b"a.",
            };
            assert_eq!(is(form, &[front, &[byte]].concat()), begins, "{form:?} {byte:02x} at the start");
            let inside = letter || dash || digit;
            let separates = byte == b'.' && !matches!(form, Form::Path | Form::Member);
            let separates = separates || byte == b'/' && form == Form::Path;
            let text = [front, b"x", &[byte], b"x"].concat();
            assert_eq!(is(form, &text), inside || separates, "{form:?} {byte:02x} inside");
        }
    }
}

#[test]
fn prefixes_reach_to_a_dot() {
    assert!(is_under("org.foo", "org.foo"));
    assert!(is_under("org.foo.bar", "org.foo"));
    assert!(!is_under("org.foobar", "org.foo"));
    assert!(!is_under("org.fo", "org.foo"));
}
