//! The policy that is to be converted: a text or an image.

use crate::cli::{read_file, text_of, Fault, MOST_TEXT};
use forms::image;
use forms::policy::{Policy, Section};
use forms::policy_text::{self, PolicyText};

/// A policy's image with what it says; of a text the text too.
pub struct Old {
    pub image: Vec<u8>,
    /// The rules; of a bad image what it breaks.
    pub policy: Result<Policy, String>,
    pub text: Option<(String, PolicyText)>,
}

impl Old {
    pub fn read(path: &str) -> Result<Old, Fault> {
        let bytes = read_file(path, MOST_TEXT)?;
        match is_image(&bytes) {
            true => Ok(Old { policy: image::read(&bytes), image: bytes, text: None }),
            false => Old::of_text(path, text_of(path, bytes)?),
        }
    }

    fn of_text(path: &str, text: String) -> Result<Old, Fault> {
        let read = policy_text::parse(&text)
            .map_err(|fault| Fault::input(format!("{path}:{}: {}", fault.line, fault.what)))?;
        let image = image::write(&read.policy).map_err(|what| Fault::input(format!("{path}: {what}")))?;
        Ok(Old { image, policy: Ok(read.policy.clone()), text: Some((text, read)) })
    }

    /// "own rule 0, line 15", the line only of a text.
    pub fn place(&self, position: usize) -> String {
        let line = self.text.as_ref().and_then(|(_, read)| read.line(Section::Own, position));
        let line = line.map(|line| format!(", line {line}")).unwrap_or_default();
        format!("own rule {position}{line}")
    }
}

/// A text has no zero byte; an image has many, since byte 3 of its total length is one already.
fn is_image(bytes: &[u8]) -> bool {
    bytes.contains(&0)
}
