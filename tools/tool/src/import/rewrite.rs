//! Messages with the guard's unique names in place of the recorded ones.

use super::traffic::{is_unique, Heard};
use crate::head;
use forms::message::{Message, DESTINATION, SENDER};

/// A message whose sender and destination have the guard's numbers; all else stays byte for byte. None where its head
/// breaks a limit with them.
pub fn rewritten(heard: &Heard, sender: u32, number_of: impl Fn(&str) -> Option<u32>) -> Option<Vec<u8>> {
    let head = &heard.head;
    let body = heard.bytes.get(head.head_length..)?.to_vec();
    let mut message = Message {
        order: head.order,
        flags: head.flags,
        body,
        ..Message::new(head.message_type, head.serial)
    };
    for field in &head.fields {
        message = match (field.code, &head.destination) {
            (SENDER, _) => message.text(SENDER, &format!(":1.{sender}")),
            (DESTINATION, Some(name)) => message.text(DESTINATION, &guards_name(name, &number_of)),
            // A field begins at a multiple of 8 before and after, so that nothing in it is padded otherwise.
            (code, _) => message.raw(code, heard.bytes.get(field.from + 1..field.to)?),
        };
    }
    let bytes = message.bytes();
    head::good(&bytes).map(|_| bytes)
}

/// The guard's names are `:1.N`, so a name that is nobody's gets a beginning that none of them has.
fn guards_name(name: &str, number_of: impl Fn(&str) -> Option<u32>) -> String {
    match (number_of(name), name.strip_prefix(':')) {
        (Some(number), _) => format!(":1.{number}"),
        (None, Some(rest)) if is_unique(name) => format!(":0.{rest}"),
        (None, _) => name.to_string(),
    }
}
