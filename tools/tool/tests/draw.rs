//! Pictures: what they show of every head, and that they keep within their room.

mod cases;

use cases::{bad_in_the_middle, call_c, long_path, with, without};
use forms::message::{ByteOrder, Message};
use tool::cli::Style;
use tool::draw::terminal;
use tool::head::{self, HeadFault, Outcome};
use tool::slid;

const WIDTHS: [usize; 5] = [60, 73, 80, 100, 200];

fn style(width: usize) -> Style {
    Style { colour: false, width }
}

fn drawn(bytes: &[u8], width: usize) -> String {
    terminal::head(bytes, &head::read(bytes), style(width))
}

fn slid_drawn(bytes: &[u8], width: usize) -> String {
    let neighbour = slid::neighbour(bytes).expect("a neighbour");
    terminal::slid(bytes, &head::read(bytes), &neighbour, style(width))
}

/// All broken heads, and some good and unfinished ones.
fn heads() -> Vec<Vec<u8>> {
    let mut heads: Vec<Vec<u8>> = cases::all().into_iter().map(|case| case.bytes).collect();
    heads.extend(cases::near_limits());
    heads.extend((0..48).map(|count| call_c()[..count].to_vec()));
    heads.push(Message { flags: 0xff, order: ByteOrder::Big, ..Message::new(1, 1) }.bytes());
    heads.push(bad_in_the_middle());
    // The box of the bad signature is followed by two more.
    let signatures = [b"\x01y\0".repeat(40), b"\x01z\0".to_vec(), b"\x01y\0".repeat(40)].concat();
    let length = signatures.len() as u8;
    heads.push(cases::unknown(&[&b"\x02ag\0\0\0\0"[..], &[length, 0, 0, 0], &signatures].concat()));
    let mut many = Message::new(5, 1);
    for _ in 0..252 {
        many = many.raw(10, b"\x01y\0\0");
    }
    heads.push(many.bytes());
    heads
}

fn fault(bytes: &[u8]) -> Option<HeadFault> {
    match head::read(bytes).outcome {
        Outcome::Broken(fault) => Some(fault),
        _ => None,
    }
}

#[test]
fn a_good_head() {
    let wanted = r#"
    0        1      2       3         4             8             12
  +--------+------+-------+---------+-------------+-------------+--------------+
  | 6c     | 01   | 00    | 01      | 00 00 00 00 | 01 00 00 00 | 1a 00 00 00  |
  +--------+------+-------+---------+-------------+-------------+--------------+
    order    type   flags   version   body length   serial        array length
    little   call   none    1         0             1             26
    16     17            20            24     25     26
  +------+-------------+-------------+------+------+-------------------+
  | 01   | 01 6f 00    | 01 00 00 00 | 2f   | 00   | 00 00 00 00 00 00 |
  +------+-------------+-------------+------+------+-------------------+
    code   type 'o'      length        path   zero   padding
    path   object path   1             /
    32       33         36            40       41     42
  +--------+----------+-------------+--------+------+-------------------+
  | 03     | 01 73 00 | 01 00 00 00 | 4d     | 00   | 00 00 00 00 00 00 |
  +--------+----------+-------------+--------+------+-------------------+
    code     type 's'   length        member   zero   padding
    member   string     1             M
"#;
    assert_eq!(drawn(&call_c(), 100), wanted[1..]);
}

#[test]
fn a_lost_byte() {
    let wanted = r#"
                   v wanted 01
    0    1    2    3    4    5    6    7    8    9    10   11   12   13   14   15
   order type flag ver body length         serial              array length
  +----+----+----+----+-------------------+-------------------+-------------------+
  | 6c | 00 | 01 | 00 | 00   00   00   01 | 00   00   00   1a | 00   00   00   01 |
  +----+----+----+----+-------------------+-------------------+-------------------+
    |      \    \    \    \    \    \    \    \    \    \    \    \    \    \    \
    |        \    \    \    \    \    \    \    \    \    \    \    \    \    \    \
  +----+----+----+----+-------------------+-------------------+-------------------+
  | 6c |[01]| 00 | 01 | 00   00   00   00 | 01   00   00   00 | 1a   00   00   00 |
  +----+----+----+----+-------------------+-------------------+-------------------+
   order type flag ver body length         serial              array length
"#;
    let text = slid_drawn(&without(&call_c(), 1), 100);
    assert!(text.starts_with(&wanted[1..]), "{text}");
    let good = drawn(&call_c(), 100);
    let fields = &good[good.find("    16").unwrap()..];
    let sentence = "with one byte put in at 1 (01), this reads as: call path=/ member=M\n";
    assert_eq!(text[wanted.len() - 1..], format!("{fields}{sentence}"));
}

#[test]
fn a_byte_too_many() {
    let wanted = r#"
    v wanted 6c (little) or 42 (big)
    0    1    2    3    4    5    6    7
   order type flag ver body length
  +----+----+----+----+-------------------+
  |(07)| 6c | 01 | 00 | 01   00   00   00 |
  +----+----+----+----+-------------------+
    x   /    /    /    /    /    /    /
    x /    /    /    /    /    /    /
  +----+----+----+----+-------------------+
  | 6c | 01 | 00 | 01 | 00   00   00   00 |
  +----+----+----+----+-------------------+
   order type flag ver body length
"#;
    let text = slid_drawn(&with(&call_c(), 0, 7), 60);
    assert!(text.starts_with(&wanted[1..]), "{text}");
    assert!(
        text.ends_with("with the byte at 0 (07) taken out, this reads as: call path=/ member=M\n"),
        "{text}"
    );
}

/// The sign stands under the first digit of the deciding byte, and beside it what was wanted.
#[test]
fn the_deciding_byte_is_marked() {
    for bytes in heads() {
        let Some(fault) = fault(&bytes) else { continue };
        for width in WIDTHS {
            let text = drawn(&bytes, width);
            let lines: Vec<&str> = text.lines().collect();
            // No name has this sign, and the values are below the first line that has it.
            let marked = lines.iter().position(|line| line.contains('^')).unwrap_or_else(|| panic!("{text}"));
            let column = lines[marked].find('^').unwrap();
            let digits = format!("{:02x}", bytes[fault.at]);
            assert_eq!(&lines[marked - 2][column..column + 2], digits, "{text}");
            assert!(lines.iter().skip(marked + 1).take(2).any(|line| line.contains(&fault.part)), "{text}");
            assert!(text.contains(&format!("wanted {}", fault.wanted)), "{text}");
            assert_eq!(text.matches("wanted ").count(), 1, "{text}");
        }
    }
}

#[test]
fn lines_keep_their_width() {
    for bytes in heads() {
        for width in WIDTHS {
            let text = drawn(&bytes, width);
            assert!(text.lines().all(|line| line.len() <= width), "{width}\n{text}");
            assert!(text.is_ascii() && !text.contains('\u{1b}'));
            assert!(text.lines().all(|line| line.trim_end() == line && !line.is_empty()), "{text}");
        }
        drawn(&bytes, 0);
    }
}

/// Every box stands there with its offset and its name, one row for each field.
#[test]
fn every_box_is_there() {
    for bytes in heads().iter().filter(|bytes| bytes.len() < 100) {
        let text = drawn(bytes, 100);
        let words: Vec<&str> = text.split_whitespace().collect();
        for part in head::read(bytes).parts {
            assert!(words.contains(&part.from.to_string().as_str()), "{part:?}\n{text}");
            assert!(text.contains(&part.name), "{part:?}\n{text}");
        }
    }
    let text = drawn(&Message::new(1, 1).text(1, "/org/theatre").text(3, "Stop").bytes(), 100);
    assert!(text.contains("/org/theatre") && text.contains("Stop"));
    assert_eq!(text.lines().filter(|line| line.starts_with("  +")).count(), 6);
}

#[test]
fn long_texts_are_cut() {
    let text = drawn(&long_path(2_000), 100);
    assert!(text.lines().count() < 20, "{text}");
    assert!(text.contains(" .. ") && text.contains("xx.."), "{text}");
    let numbers = [&b"\x02au\0\0\0\0\x90\x01\0\0"[..], &[7; 400]].concat();
    let text = drawn(&cases::unknown(&numbers), 100);
    assert!(text.contains("boxes more") && text.lines().count() < 80, "{text}");
    // The last number is there.
    assert!(text.contains(" 424 "), "{text}");
}

/// Colour adds nothing but colour.
#[test]
fn colours() {
    let plain = |text: &str| {
        ["\x1b[0m", "\x1b[1m", "\x1b[2m", "\x1b[31m", "\x1b[32m"]
            .iter()
            .fold(text.to_string(), |text, code| text.replace(code, ""))
    };
    for bytes in heads() {
        let reading = head::read(&bytes);
        let coloured = terminal::head(&bytes, &reading, Style { colour: true, width: 100 });
        assert_eq!(plain(&coloured), drawn(&bytes, 100));
        if let Some(fault) = fault(&bytes) {
            assert!(coloured.contains(&format!("\x1b[31m{:02x}\x1b[0m", bytes[fault.at])), "{coloured}");
        }
    }
    let lost = without(&call_c(), 1);
    let neighbour = slid::neighbour(&lost).unwrap();
    let coloured = terminal::slid(&lost, &head::read(&lost), &neighbour, Style { colour: true, width: 100 });
    assert_eq!(plain(&coloured), slid_drawn(&lost, 100));
    assert!(coloured.contains("\x1b[32m[01]\x1b[0m"));
}

/// Wherever a byte was lost or is too many, both rows are drawn and no line is too wide.
#[test]
fn slides_everywhere() {
    let call = Message::new(1, 1).text(1, "/org/theatre/Fans").text(3, "Stop").text(8, "s").bytes();
    let stream = [call.clone(), call_c()].concat();
    for at in 0..call.len() {
        for bytes in [without(&stream, at), with(&stream, at, 0x5a)] {
            if slid::neighbour(&bytes).is_none() {
                continue;
            }
            for width in WIDTHS {
                let text = slid_drawn(&bytes, width);
                let told = text.lines().last().unwrap();
                assert!(told.contains("this reads as: call path=/"), "{text}");
                assert!(text.lines().all(|line| line.len() <= width || line == told), "{width}\n{text}");
                assert!(text.contains('\\') || text.contains('/'));
                let rows: String = text.lines().filter(|line| line.starts_with("  |")).collect();
                assert_eq!(rows.matches(['[', '(']).count(), 1, "{text}");
            }
        }
    }
}
