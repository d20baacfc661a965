//! The SVG picture: well-formed, self-contained, and with everything that was told.

mod cases;

use cases::call_c;
use forms::message::Message;
use tool::draw::svg::{picture, Figure};
use tool::head::{self, Outcome};
use tool::slid;

fn figure(lines: &[&str], bytes: &[u8]) -> Figure {
    let lines = lines.iter().map(|line| line.to_string()).collect();
    Figure { lines, bytes: bytes.to_vec(), reading: head::read(bytes), neighbour: slid::neighbour(bytes) }
}

/// Tags are closed in their order, attributes are quoted, and text has no bare signs. Gives back the texts.
fn texts(svg: &str) -> Vec<String> {
    let (mut open, mut texts, mut rest) = (Vec::new(), Vec::new(), svg);
    while let Some(from) = rest.find('<') {
        let text = &rest[..from];
        let to = from + rest[from..].find('>').expect("a tag ends");
        let tag = &rest[from + 1..to];
        if !text.trim().is_empty() {
            texts.push(unescaped(text));
        }
        let name = tag.trim_matches('/').split(' ').next().unwrap().to_string();
        assert!(["svg", "defs", "marker", "path", "rect", "text"].contains(&name.as_str()), "{tag}");
        assert_eq!(tag.matches('"').count() % 2, 0, "{tag}");
        if tag.starts_with('/') {
            assert_eq!(open.pop(), Some(name));
        } else if !tag.ends_with('/') {
            open.push(name);
        }
        rest = &rest[to + 1..];
    }
    assert!(open.is_empty() && rest.trim().is_empty());
    texts
}

fn unescaped(text: &str) -> String {
    for part in text.split('&').skip(1) {
        assert!(["amp;", "lt;", "gt;", "quot;"].iter().any(|name| part.starts_with(name)), "{text}");
    }
    assert!(!text.contains('>') && !text.chars().any(|letter| letter.is_control()), "{text}");
    text.replace("&lt;", "<").replace("&gt;", ">").replace("&quot;", "\"").replace("&amp;", "&")
}

/// The number behind an attribute, of every tag that begins so.
fn numbers(svg: &str, tag: &str, attribute: &str) -> Vec<usize> {
    let of = |line: &&str| line.starts_with(tag);
    let number = |line: &str| {
        let from = line.find(&format!(" {attribute}=\"")).map(|at| at + attribute.len() + 3)?;
        line[from..].split('"').next()?.parse().ok()
    };
    svg.lines().filter(of).filter_map(number).collect()
}

#[test]
fn all_heads_are_drawn() {
    for case in cases::all() {
        let svg = picture(&[figure(&["one", "two"], &case.bytes)]);
        let texts = texts(&svg);
        let Outcome::Broken(fault) = head::read(&case.bytes).outcome else { panic!() };
        assert!(texts.contains(&format!("wanted {}", fault.wanted)), "{texts:?}");
        assert_eq!(texts[..2], ["one", "two"]);
        assert_eq!(svg.matches("#f9dcd5").count(), svg.matches("wanted ").count());
        let (width, height) = (numbers(&svg, "<svg", "width")[0], numbers(&svg, "<svg", "height")[0]);
        assert!(numbers(&svg, "<text", "x").iter().all(|&x| x < width));
        assert!(numbers(&svg, "<text", "y").iter().all(|&y| y < height));
        let (tops, heights) = (numbers(&svg, "<rect x", "y"), numbers(&svg, "<rect x", "height"));
        assert!(tops.iter().zip(heights).all(|(y, high)| y + high <= height));
    }
}

#[test]
fn every_byte_and_value_of_a_good_head() {
    let bytes =
        Message { flags: 1, ..Message::new(1, 3) }.text(1, "/org/theatre/Fans").text(3, "Stop").bytes();
    let told = texts(&picture(&[figure(&[], &bytes)]));
    for word in [
        "no reply",
        "expected",
        "little",
        "call",
        "/org/theatre/Fans",
        "Stop",
        "array length",
        "6c l",
        "2f /",
    ] {
        assert!(told.iter().any(|text| text == word), "{word} {told:?}");
    }
    // Each byte stands under its offset.
    for (at, byte) in bytes.iter().enumerate() {
        let (offset, digits) = (at.to_string(), format!("{byte:02x}"));
        assert!(told.windows(2).any(|two| two[0] == offset && two[1].starts_with(&digits)), "{at} {told:?}");
    }
    assert!(told.contains(&"field: member, bytes 48 to 63".to_string()), "{told:?}");
}

#[test]
fn nothing_from_elsewhere() {
    let svg = picture(&[figure(&["<a href=\"x\"> & \u{1b}[0m \u{ffff}"], &call_c())]);
    assert_eq!(texts(&svg)[0], "<a href=\"x\"> & \u{fffd}[0m \u{fffd}");
    assert_eq!(svg.matches("http").count(), 1);
    for word in ["script", "href=\"", "@import", "url(http", "<image", "<style"] {
        assert!(!svg.contains(word), "{word}");
    }
}

#[test]
fn slid_rows() {
    let mut lost = call_c();
    lost.remove(1);
    let svg = picture(&[figure(&["lost"], &lost)]);
    assert_eq!(svg.matches("stroke=\"#1e7d32\"").count(), 1);
    assert_eq!(svg.matches("marker-end=\"url(#slide)\"").count(), 16);
    assert!(texts(&svg).iter().any(|text| text.starts_with("with one byte put in at 1 (01)")));
    let mut more = call_c();
    more.insert(33, 7);
    let svg = picture(&[figure(&["lost"], &lost), figure(&["more"], &more)]);
    assert_eq!(svg.matches("stroke=\"#1e7d32\"").count(), 1);
    let crosses =
        svg.lines().filter(|line| line.contains("stroke=\"#b3261e\"") && line.starts_with("<path")).count();
    // Two strokes through the byte taken out; three arrows from what was wanted, of which one stands over both rows.
    assert_eq!(crosses, 2 + 3);
}

#[test]
fn long_heads_are_cut() {
    let bad = texts(&picture(&[figure(&[], &cases::bad_in_the_middle())]));
    assert!(bad.contains(&"wanted a letter, a digit, _ or /".to_string()), "{bad:?}");
    assert!(bad.contains(&"bytes 48 to 1023 are not drawn".to_string()), "{bad:?}");
    assert!(bad.contains(&"bytes 1040 to 2015 are not drawn".to_string()), "{bad:?}");
    let svg = picture(&[figure(&["x ".repeat(5_000).as_str()], &cases::long_path(2_000))]);
    assert!(texts(&svg).contains(&"bytes 48 to 2015 are not drawn".to_string()), "{:?}", texts(&svg));
    assert!(svg.len() < 60_000);
    assert!(texts(&picture(&[])).is_empty());
    for count in 0..20 {
        texts(&picture(&[figure(&[], &call_c()[..count])]));
    }
}
