//! The command `head`.

use crate::cli::{write_file, Done, Fault, Out, Words};
use crate::draw::{svg, terminal};
use crate::head::{self, Outcome, Reading};
use crate::slid::{self, Neighbour};
use forms::hex;
use forms::policy_text::named;
use std::io::Read;

pub const HELP: &str = "usage: aygeshunt head FILE [--svg PICTURE]
       aygeshunt head --hex DIGITS .. [--svg PICTURE]

Reads a message from its first byte on and draws its head, box by box. It says whether the head is good, or which answer
the guard has for it, 1 to 9, and why; the byte that decided is marked with what was wanted there. Of a broken head it
looks for a good one that is one byte away: where a byte is lost or doubled, all behind it slide by one box. No guard is
asked; aygeshunt explain does that.

  FILE            the bytes of the message; - is standard input. At most 1,048,576 bytes are read
  --hex           the words are hex digits, with spaces wherever you like
  --svg PICTURE   writes an SVG picture too; to - it is written alone

For example:

  aygeshunt head --hex 6c01000100000000010000001a000000 01016f00010000002f00000000000000 03017300010000004d00000000000000
  aygeshunt head --hex 6c00010000000001000000 1a000000 01016f0001000000 2f00000000000000 0301730001000000 4d00000000000000
  aygeshunt head message --svg message.svg

Status: 0 where a head was drawn, be it broken; 1 something could not be read or written, 2 wrong use.
";

/// More than any head has: what stands behind it tells which of its neighbours is likely.
const MOST_BYTES: u64 = 1 << 20;

pub fn run(words: &[String], out: &mut Out) -> Done {
    let words = Words::parse(words, &["--hex"], &["--svg"])?;
    let bytes = match words.rest.as_slice() {
        [] => return Err(Fault::usage("a file or --hex DIGITS is missing")),
        digits if words.has("--hex") => parse_digits(&digits.concat())?,
        [path] => read_front(path)?,
        [_, more, ..] => return Err(Fault::usage(format!("one file at a time, without {}", named(more)))),
    };
    let reading = head::read(&bytes);
    let neighbour = slid::neighbour(&bytes);
    let lines = sentences(&bytes, &reading);
    match words.value("--svg") {
        Some("-") => return out.text(&picture(lines, bytes, reading, neighbour)),
        Some(path) => {
            let picture = picture(lines.clone(), bytes.clone(), reading.clone(), neighbour.clone());
            write_file(path, picture.as_bytes())?;
        }
        None => {}
    }
    for line in &lines {
        out.line(line)?;
    }
    out.text(&terminal::head(&bytes, &reading, out.style))?;
    match neighbour {
        Some(neighbour) => {
            out.text(&format!("\n{}", terminal::slid(&bytes, &reading, &neighbour, out.style)))
        }
        None => Ok(()),
    }
}

fn picture(lines: Vec<String>, bytes: Vec<u8>, reading: Reading, neighbour: Option<Neighbour>) -> String {
    svg::picture(&[svg::Figure { lines, bytes, reading, neighbour }])
}

fn parse_digits(digits: &str) -> Result<Vec<u8>, Fault> {
    let digits: String = digits.split_ascii_whitespace().collect();
    hex::parse(&digits).map_err(|what| Fault::usage(named(&what)))
}

/// The first bytes of a file. A message may be longer; what is left has no part in its head.
fn read_front(path: &str) -> Result<Vec<u8>, Fault> {
    let told = |fault: std::io::Error| Fault::input(format!("{path}: {fault}"));
    let mut bytes = Vec::new();
    match path {
        "-" => std::io::stdin().lock().take(MOST_BYTES).read_to_end(&mut bytes),
        path => std::fs::File::open(path).map_err(told)?.take(MOST_BYTES).read_to_end(&mut bytes),
    }
    .map_err(told)?;
    Ok(bytes)
}

/// What is there, and what the guard answers.
fn sentences(bytes: &[u8], reading: &Reading) -> Vec<String> {
    match &reading.outcome {
        Outcome::Good(head) => {
            let to = head.destination.as_ref().map_or(String::new(), |name| format!(", to {name}"));
            let lengths = format!("a good head of {}", counted(head.head_length));
            let body = match head.body_length {
                0 => "without a body".to_string(),
                length => format!("with a body of {}", counted(length as usize)),
            };
            vec![head::summary(head) + &to, format!("{lengths}, {body}")]
        }
        Outcome::Broken(fault) => vec![
            format!("answer {}: {}", fault.answer, fault.what),
            format!("byte {} decides, in the box {}: wanted {}", fault.at, fault.part, fault.wanted),
        ],
        Outcome::Unfinished { wanted } => {
            let what = match wanted {
                16 => "the fixed part has 16".to_string(),
                wanted => format!("the head has {wanted}"),
            };
            vec![format!("unfinished: {} are there, and {what}", counted(bytes.len()))]
        }
    }
}

fn counted(bytes: usize) -> String {
    match bytes {
        1 => "1 byte".to_string(),
        bytes => format!("{bytes} bytes"),
    }
}
