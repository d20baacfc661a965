//! Which boxes stand in one row: the fixed part, and each field with the padding behind it.

use crate::head::{Outcome, Part, Reading};
use crate::slid::Change;

/// The most boxes of a row. A field of many values has more, and those in its middle are drawn as one.
const MOST_BOXES: usize = 40;

/// Boxes that are drawn around the deciding byte, and at the end of a row, whatever is left out.
const AROUND: usize = 2;

/// The deciding byte of a broken head and what was wanted there.
pub fn mark(reading: &Reading) -> Option<(usize, &str)> {
    match &reading.outcome {
        Outcome::Broken(fault) => Some((fault.at, fault.wanted.as_str())),
        _ => None,
    }
}

/// The boxes row by row.
pub fn rows(reading: &Reading) -> Vec<Vec<Part>> {
    let mut rows: Vec<Vec<Part>> = Vec::new();
    for part in &reading.parts {
        match rows.last_mut() {
            Some(row) if part.from != 16 && part.name != "code" => row.push(part.clone()),
            _ => rows.push(vec![part.clone()]),
        }
    }
    rows
}

/// A row in which what is too much is one box.
pub fn shortened(row: Vec<Part>, mark: Option<usize>) -> Vec<Part> {
    if row.len() <= MOST_BOXES {
        return row;
    }
    let marked = row.iter().position(|part| mark.is_some_and(|at| (part.from..part.to).contains(&at)));
    let stays = |at: usize| {
        at < MOST_BOXES / 2
            || at + AROUND >= row.len()
            || marked.is_some_and(|marked| at.abs_diff(marked) <= AROUND)
    };
    let mut short: Vec<Part> = Vec::new();
    let mut left_out = 0;
    for (at, part) in row.iter().enumerate() {
        if stays(at) {
            left_out = 0;
            short.push(part.clone());
            continue;
        }
        left_out += 1;
        if left_out > 1 {
            short.pop();
        }
        let from = short.last().map_or(part.from, |before| before.to);
        short.push(Part { from, to: part.to, name: format!("{left_out} boxes more"), value: String::new() });
    }
    short
}

/// How many boxes a byte of the broken row has slid: its place in the other row, or none where it was taken out.
pub fn slid_to(change: Change, place: usize) -> Option<usize> {
    match change {
        Change::PutIn { at, .. } if place >= at => Some(place + 1),
        Change::TakenOut { at, .. } if place == at => None,
        Change::TakenOut { at, .. } if place > at => Some(place - 1),
        _ => Some(place),
    }
}

/// The bytes of which both rows are drawn: the fixed part, or those around a change behind it. The head of the good row has
/// `length` bytes.
pub fn window(change: Change, length: usize) -> (usize, usize) {
    if change.at() < 16 {
        return (0, 16.min(length));
    }
    let from = (change.at() / 8 * 8).saturating_sub(8).max(16);
    (from, from.saturating_add(32).min(length.max(from)))
}
