//! The list of names that services own: a text with a well-known name on each line.

use forms::names::{fault, Form};
use forms::policy_text::{named, without_comment, TextFault};
use std::collections::HashMap;

/// The longest list that is read. The names that become rules fit in an image of 65,536 bytes, so this is plenty; and the
/// converter holds every name to every other.
pub const MOST_NAMES: u64 = 1 << 18;

/// A name, and its line counted from 1.
#[derive(Clone, Debug, PartialEq, Eq)]
pub struct Listed {
    pub line: usize,
    pub name: String,
}

/// What the lines say, whether it is a name or not. `#` begins a comment, and empty lines say nothing.
pub fn read(text: &str) -> Vec<Listed> {
    let listed = |(index, line): (usize, &str)| {
        let name = without_comment(line).trim().to_string();
        (!name.is_empty()).then_some(Listed { line: index + 1, name })
    };
    text.lines().enumerate().filter_map(listed).collect()
}

/// The list as the converter takes it. What is too long for a length byte is no name, and neither is the empty text that stands
/// for it here.
pub fn bytes(list: &[Listed]) -> Vec<u8> {
    let one = |listed: &Listed| match u8::try_from(listed.name.len()) {
        Ok(length) => [&[length], listed.name.as_bytes()].concat(),
        Err(_) => vec![0],
    };
    list.iter().flat_map(one).collect()
}

/// Every line for which a list is refused.
pub fn faults(list: &[Listed]) -> Vec<TextFault> {
    let mut first: HashMap<&str, usize> = HashMap::new();
    let mut faults = Vec::new();
    for Listed { line, name } in list {
        let short = named(name);
        let what = match (fault(Form::WellKnown, name.as_bytes()), first.get(name.as_str())) {
            (Some(fault), _) => {
                format!("{short} is no well-known name: at its byte {} wanted {}", fault.at, fault.wanted)
            }
            (None, Some(before)) => format!("{short} is in line {before} already"),
            (None, None) => {
                first.insert(name, *line);
                continue;
            }
        };
        faults.push(TextFault { line: *line, what });
    }
    faults
}
