//! Scripts: a capture in readable lines.

use crate::capture::{Call, Capture};
use crate::message::{ByteOrder, FieldValue, Message, FIELDS, TYPES};
use crate::policy::{Gid, Policy, Uid};
use crate::policy_text::{self, named, number_of, without_comment, TextFault};
use crate::{hex, image};
use std::fmt::Display;
use std::path::Path;

/// The most zeros that `body-length` may ask for: what a message has at the most.
const MOST_BODY: u32 = 134_217_728;

/// The longest capture that a script may come to, and what a piece has in it beside its bytes.
const MOST_CAPTURE: usize = 1 << 28;
const PIECE_FRONT: usize = 12;

/// Reads the files that a script names; paths are relative to the script's folder.
pub type FileReader<'a> = &'a dyn Fn(&Path) -> Result<Vec<u8>, String>;

/// What a script has said so far.
#[derive(Default)]
struct Script {
    image: Option<Vec<u8>>,
    rules: Policy,
    /// The line of the last rule, where there is one.
    last_rule: Option<usize>,
    calls: Vec<Call>,
    /// Bytes that the pieces take in the capture.
    size: usize,
}

pub fn parse(text: &str, files: FileReader) -> Result<Capture, TextFault> {
    let mut script = Script::default();
    for (index, line) in text.lines().enumerate() {
        let line_number = index + 1;
        let words: Vec<&str> = without_comment(line).split_ascii_whitespace().collect();
        script.add(line_number, &words, files).map_err(|what| TextFault { line: line_number, what })?;
    }
    let image = match script.last_rule {
        Some(line) => image::write(&script.rules).map_err(|what| TextFault { line, what })?,
        None => script.image.unwrap_or_default(),
    };
    Ok(Capture { image, calls: script.calls })
}

/// What a piece takes in the capture. Of the other calls a text cannot have too many.
fn size_of(call: &Call) -> usize {
    match call {
        Call::Piece { bytes, .. } => PIECE_FRONT + bytes.len(),
        _ => 0,
    }
}

impl Script {
    fn add(&mut self, line: usize, words: &[&str], files: FileReader) -> Result<(), String> {
        match words {
            [] => Ok(()),
            ["policy" | "image" | "rule", ..] => self.add_policy(line, words, files),
            _ if self.image.is_none() && self.last_rule.is_none() => {
                Err("a policy, an image or rules must come first".to_string())
            }
            words => {
                let calls = parse_call(words, files)?;
                self.size += calls.iter().map(size_of).sum::<usize>();
                self.calls.extend(calls);
                fits(self.size)
            }
        }
    }

    /// One policy or image, or any number of rules, before the first call.
    fn add_policy(&mut self, line: usize, words: &[&str], files: FileReader) -> Result<(), String> {
        if !self.calls.is_empty() {
            return Err("the policy comes before the calls".to_string());
        }
        match words {
            ["rule", rule @ ..] if self.image.is_none() => {
                let more = policy_text::parse(&rule.join(" ")).map_err(|fault| fault.what)?.policy;
                self.rules.connect.extend(more.connect);
                self.rules.own.extend(more.own);
                self.rules.transaction.extend(more.transaction);
                self.last_rule = Some(line);
            }
            _ if self.image.is_some() || self.last_rule.is_some() => {
                return Err("a script has one policy, one image, or rules".to_string())
            }
            _ => self.image = Some(parse_image(words, files)?),
        }
        Ok(())
    }
}

fn parse_image(words: &[&str], files: FileReader) -> Result<Vec<u8>, String> {
    match words {
        ["policy", path] => {
            let bytes = files(Path::new(path))?;
            let text = String::from_utf8(bytes).map_err(|_| format!("{path} is no text"))?;
            let policy = policy_text::parse(&text)
                .map_err(|fault| format!("{path}:{}: {}", fault.line, fault.what))?;
            image::write(&policy.policy).map_err(|fault| format!("{path}: {fault}"))
        }
        ["image", "hex", digits @ ..] => hex::parse(&digits.concat()),
        ["image", path] => files(Path::new(path)),
        _ => Err("expected policy FILE, image FILE or image hex DIGITS".to_string()),
    }
}

fn parse_call(words: &[&str], files: FileReader) -> Result<Vec<Call>, String> {
    match words {
        ["start"] => Ok(vec![Call::Start]),
        ["connect", uid] => Ok(vec![Call::Connect { uid: Uid(parse_number(uid)?), gids: Vec::new() }]),
        ["connect", uid, "gid", gids @ ..] => {
            let gids = gids.iter().map(|gid| parse_number(gid).map(Gid)).collect::<Result<_, _>>()?;
            Ok(vec![Call::Connect { uid: Uid(parse_number(uid)?), gids }])
        }
        ["own", peer, name @ ..] => {
            Ok(vec![Call::Own { peer: parse_number(peer)?, name: parse_name(name)? }])
        }
        ["release", peer, name @ ..] => {
            Ok(vec![Call::Release { peer: parse_number(peer)?, name: parse_name(name)? }])
        }
        ["piece", peer, rest @ ..] => parse_pieces(parse_number(peer)?, rest, files),
        ["disconnect", peer] => Ok(vec![Call::Disconnect { peer: parse_number(peer)? }]),
        ["tick", tick, limit] => Ok(vec![Call::Tick { tick: parse_long(tick)?, limit: parse_long(limit)? }]),
        _ => Err(format!("not a call: {}", named(&words.join(" ")))),
    }
}

/// A name, no name, or the bytes of something that cannot be written as a word.
fn parse_name(words: &[&str]) -> Result<Vec<u8>, String> {
    match words {
        [] => Ok(Vec::new()),
        [name] => Ok(name.as_bytes().to_vec()),
        ["hex", digits] => hex::parse(digits),
        _ => Err(format!("not a name: {}", named(&words.join(" ")))),
    }
}

fn parse_number(word: &str) -> Result<u32, String> {
    parse_up_to(word, u32::MAX)
}

/// A tick or a limit.
fn parse_long(word: &str) -> Result<u64, String> {
    parse_up_to(word, u64::MAX)
}

fn parse_up_to<Number: TryFrom<u64> + Display>(word: &str, most: Number) -> Result<Number, String> {
    let parsed = match word.strip_prefix("0x") {
        Some(digits) => number_of(digits, 16),
        None => number_of(word, 10),
    };
    parsed.ok_or_else(|| format!("{} is no number up to {most}", named(word)))
}

/// The bytes that the words describe, as one piece or cut into several.
fn parse_pieces(peer: u32, words: &[&str], files: FileReader) -> Result<Vec<Call>, String> {
    let (words, cut) = match words.split_last() {
        Some((last, rest)) if last.starts_with("cut=") => (rest, Some(parse_number(&last[4..])?)),
        _ => (words, None),
    };
    let bytes = match words {
        ["empty"] => Vec::new(),
        ["hex", digits @ ..] => hex::parse(&digits.concat())?,
        ["file", path] => files(Path::new(path))?,
        ["message", kind, fields @ ..] => parse_message(kind, fields)?.bytes(),
        _ => return Err("a piece is empty, hex DIGITS, file PATH or message TYPE".to_string()),
    };
    match cut {
        Some(0) => Err("cut=0 would never end".to_string()),
        Some(length) => {
            let parts = bytes.chunks(length as usize);
            fits(parts.len() * PIECE_FRONT + bytes.len())?;
            Ok(parts.map(|part| Call::Piece { peer, bytes: part.to_vec() }).collect())
        }
        None => Ok(vec![Call::Piece { peer, bytes }]),
    }
}

/// CODE:SIGNATURE:DIGITS, the digits being all bytes behind the zero that ends the signature.
fn parse_field(message: Message, value: &str) -> Result<Message, String> {
    let parts: Vec<&str> = value.split(':').collect();
    let [code, signature, digits] = parts[..] else {
        return Err(format!("{} is not CODE:SIGNATURE:DIGITS", named(value)));
    };
    let Ok(length) = u8::try_from(signature.len()) else {
        return Err("a signature has at most 255 bytes".to_string());
    };
    let value = hex::parse(digits)?;
    let rest = [&[length], signature.as_bytes(), &[0], &value].concat();
    Ok(message.raw(parse_byte(code)?, &rest))
}

/// Header fields are written in the order in which the script gives them.
pub fn parse_message(kind: &str, words: &[&str]) -> Result<Message, String> {
    let message_type = match TYPES.iter().find(|(_, word)| *word == kind) {
        Some((number, _)) => *number,
        None => parse_byte(kind)?,
    };
    let mut message = Message::new(message_type, 1);
    for word in words {
        let (key, value) = word.split_once('=').ok_or_else(|| format!("{} is not KEY=VALUE", named(word)))?;
        message = add_part(message, key, value)?;
    }
    Ok(message)
}

fn parse_byte(word: &str) -> Result<u8, String> {
    u8::try_from(parse_number(word)?).map_err(|_| format!("{} does not fit a byte", named(word)))
}

fn add_part(message: Message, key: &str, value: &str) -> Result<Message, String> {
    if let Some(kind) = FIELDS.iter().find(|kind| kind.key == key) {
        let value = match kind.letter {
            b'u' => FieldValue::Number(parse_number(value)?),
            b'g' if value.len() > 255 => return Err("a signature has at most 255 bytes".to_string()),
            _ => FieldValue::Text(value.as_bytes().to_vec()),
        };
        return Ok(message.field(kind.code, value));
    }
    Ok(match (key, value) {
        ("field", _) => parse_field(message, value)?,
        ("serial", _) => Message { serial: parse_number(value)?, ..message },
        ("flags", _) => Message { flags: parse_byte(value)?, ..message },
        ("version", _) => Message { version: parse_byte(value)?, ..message },
        ("order", "little") => Message { order: ByteOrder::Little, ..message },
        ("order", "big") => Message { order: ByteOrder::Big, ..message },
        ("body", _) => Message { body: hex::parse(value)?, ..message },
        ("body-length", _) => Message { body: vec![0; body_length(value)?], ..message },
        _ => return Err(format!("unknown part {}", named(&format!("{key}={value}")))),
    })
}

fn fits(size: usize) -> Result<(), String> {
    match size {
        0..=MOST_CAPTURE => Ok(()),
        _ => Err("the capture would be longer than 268,435,456 bytes".to_string()),
    }
}

/// A length is tested before the memory for it is taken.
fn body_length(value: &str) -> Result<usize, String> {
    match parse_number(value)? {
        length @ 0..=MOST_BODY => Ok(length as usize),
        length => Err(format!("a body of {length} bytes is longer than a message may be")),
    }
}
