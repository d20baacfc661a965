//! Captures as scripts that compile to the same capture, with the guard's own line behind each call.

use crate::cli::Done;
use crate::guard::{Guard, Place};
use crate::head::{self, FieldAt, Head, Outcome};
use forms::capture::{Call, Reading};
use forms::message::{self, ByteOrder, TYPES};
use forms::{hex, image, policy_text, script};

/// What the guard reports of a call, as `replay` prints it.
pub fn line(call: &Call, place: &Place) -> String {
    let Place { answer, taken, kind, value, count, decider, position } = place;
    match call {
        Call::Start => format!("start {answer}"),
        Call::Connect { .. } => format!("connect {answer} {value} {count} {decider} {position}"),
        Call::Own { .. } => format!("own {answer} {decider} {position}"),
        Call::Release { .. } => format!("release {answer}"),
        Call::Piece { .. } => format!("piece {answer} {taken} {kind} {value} {count} {decider} {position}"),
        Call::Disconnect { .. } => format!("disconnect {answer} {value}"),
        Call::Tick { .. } => format!("tick {answer} {value}"),
    }
}

/// Hands out the script of a capture, a few lines at a time; the fault of a broken layout is its last line.
pub fn show(reading: &Reading, write: &mut dyn FnMut(&str) -> Done) -> Done {
    let image = &reading.capture.image;
    write(&image_lines(image))?;
    let mut guard = Guard::new();
    for call in &reading.capture.calls {
        let place = guard.make(image, call);
        write(&format!("{} # {}\n", call_words(call), line(call, &place)))?;
    }
    match &reading.fault {
        Some(fault) => write(&format!("# {fault}\n")),
        None => Ok(()),
    }
}

/// Rules where writing them gives the very same image, else its bytes.
fn image_lines(bytes: &[u8]) -> String {
    if let Ok(policy) = image::read(bytes) {
        let rules = policy_text::show(&policy);
        if !rules.is_empty() && image::write(&policy).is_ok_and(|again| again == bytes) {
            return rules.lines().map(|rule| format!("rule {rule}\n")).collect();
        }
    }
    format!("image hex {}\n", hex::show(bytes))
}

fn call_words(call: &Call) -> String {
    match call {
        Call::Start => "start".to_string(),
        Call::Connect { uid, gids } if gids.is_empty() => format!("connect {}", uid.0),
        Call::Connect { uid, gids } => {
            let gids: Vec<String> = gids.iter().map(|gid| gid.0.to_string()).collect();
            format!("connect {} gid {}", uid.0, gids.join(" "))
        }
        Call::Own { peer, name } => format!("own {peer}{}", name_words(name)),
        Call::Release { peer, name } => format!("release {peer}{}", name_words(name)),
        Call::Piece { peer, bytes } => format!("piece {peer} {}", piece_words(bytes)),
        Call::Disconnect { peer } => format!("disconnect {peer}"),
        Call::Tick { tick, limit } => format!("tick {tick} {limit}"),
    }
}

/// Whether a script reads the bytes back as one word.
fn is_word(bytes: &[u8]) -> bool {
    !bytes.is_empty() && bytes.iter().all(|&byte| byte.is_ascii_graphic() && byte != b'#')
}

fn name_words(name: &[u8]) -> String {
    match name {
        [] => String::new(),
        name if is_word(name) => format!(" {}", String::from_utf8_lossy(name)),
        name => format!(" hex {}", hex::show(name)),
    }
}

fn piece_words(bytes: &[u8]) -> String {
    match bytes {
        [] => "empty".to_string(),
        bytes => message_words(bytes).unwrap_or_else(|| format!("hex {}", hex::show(bytes))),
    }
}

/// The words of one whole message, where they compile to its very bytes.
fn message_words(bytes: &[u8]) -> Option<String> {
    let Outcome::Good(head) = head::read(bytes).outcome else { return None };
    let body = bytes.get(head.head_length..)?;
    if body.len() != head.body_length as usize {
        return None;
    }
    let known = TYPES.iter().find(|(number, _)| *number == head.message_type);
    let kind = known.map_or(head.message_type.to_string(), |(_, word)| word.to_string());
    let words = head_words(&head, bytes, body)?;
    let split: Vec<&str> = words.iter().map(String::as_str).collect();
    let again = script::parse_message(&kind, &split).ok()?;
    let is_same = split.iter().all(|word| is_word(word.as_bytes())) && again.bytes() == bytes;
    is_same.then(|| format!("message {kind} {}", split.join(" ")))
}

/// What is as a script has it without a word is left out, apart from the serial, by which replies are known.
fn head_words(head: &Head, bytes: &[u8], body: &[u8]) -> Option<Vec<String>> {
    let mut words = Vec::new();
    if head.order == ByteOrder::Big {
        words.push("order=big".to_string());
    }
    words.push(format!("serial={}", head.serial));
    if head.flags != 0 {
        words.push(format!("flags={}", head.flags));
    }
    for field in &head.fields {
        words.push(field_word(head, bytes.get(field.from..field.to)?, field)?);
    }
    match body {
        [] => {}
        body if body.iter().all(|&byte| byte == 0) => words.push(format!("body-length={}", body.len())),
        body => words.push(format!("body={}", hex::show(body))),
    }
    Some(words)
}

fn field_word(head: &Head, bytes: &[u8], field: &FieldAt) -> Option<String> {
    let Some(kind) = message::field_kind(field.code) else { return unknown_word(bytes) };
    let text = match field.code {
        message::PATH => &head.path,
        message::INTERFACE => &head.interface,
        message::MEMBER => &head.member,
        message::ERROR_NAME => &head.error_name,
        message::REPLY_SERIAL => &head.reply_serial.map(|number| number.to_string()),
        message::DESTINATION => &head.destination,
        message::SENDER => &head.sender,
        message::SIGNATURE => &head.signature,
        _ => &head.descriptors.map(|number| number.to_string()),
    };
    text.as_ref().map(|text| format!("{}={text}", kind.key))
}

/// Code, signature with its length and its zero, and all bytes behind that.
fn unknown_word(field: &[u8]) -> Option<String> {
    let [code, length, rest @ ..] = field else { return None };
    let (signature, rest) = rest.split_at_checked(usize::from(*length))?;
    let signature = std::str::from_utf8(signature).ok()?;
    Some(format!("field={code}:{signature}:{}", hex::show(rest.get(1..)?)))
}
