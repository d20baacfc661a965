//! The boxes that a reading leaves, and bytes as text.

use super::Part;

/// The most bytes of a text that a box shows.
const MOST_SHOWN: usize = 200;

/// Collects boxes, or none where only the outcome is wanted.
pub struct Boxes {
    parts: Option<Vec<Part>>,
}

impl Boxes {
    pub fn drawn() -> Boxes {
        Boxes { parts: Some(Vec::new()) }
    }

    pub fn none() -> Boxes {
        Boxes { parts: None }
    }

    /// Adds a box, but for one without bytes.
    pub fn put(&mut self, from: usize, to: usize, name: &str, value: impl FnOnce() -> String) {
        if let Some(parts) = self.parts.as_mut().filter(|_| from < to) {
            parts.push(Part { from, to, name: name.to_string(), value: value() });
        }
    }

    /// Puts what no box holds yet into a last one.
    pub fn put_rest(&mut self, to: usize) {
        let from = self.parts.iter().flatten().last().map_or(0, |part| part.to);
        self.put(from, to, "rest", String::new);
    }

    pub fn into_parts(self) -> Vec<Part> {
        self.parts.unwrap_or_default()
    }
}

/// The name of the box that holds a byte.
pub fn name_at(parts: &[Part], at: usize) -> String {
    parts.iter().find(|part| part.from <= at && at < part.to).map_or(String::new(), |part| part.name.clone())
}

/// A byte as a character where it has one. The backslash is written as a number, so that no text reads as another.
pub fn shown_byte(byte: u8) -> String {
    match byte {
        b'\\' => "\\x5c".to_string(),
        0x20..=0x7e => char::from(byte).to_string(),
        _ => format!("\\x{byte:02x}"),
    }
}

/// A text in printable characters, cut where it is long.
pub fn shown(text: &[u8]) -> String {
    let mut shown: String = text.iter().take(MOST_SHOWN).map(|&byte| shown_byte(byte)).collect();
    if text.len() > MOST_SHOWN {
        shown.push_str("...");
    }
    shown
}
