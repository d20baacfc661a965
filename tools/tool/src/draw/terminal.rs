//! Heads as boxes of characters.

use super::lines::wrapped;
use super::{pair, rows};
use crate::cli::Style;
use crate::head::{Part, Reading};
use crate::slid::{self, Neighbour};
use std::collections::BTreeSet;

/// Columns before each row.
pub const MARGIN: usize = 2;

/// The most lines under a box for its value.
const MOST_LINES: usize = 3;

/// Bytes of a box that are drawn however little room there is, and letters of the value of a box of so few bytes.
const LEAST_BYTES: usize = 4;
const LEAST_LETTERS: usize = 18;

/// The boxes of a head with offset, bytes, name and value, the deciding byte marked with what was wanted there.
pub fn head(bytes: &[u8], reading: &Reading, style: Style) -> String {
    rows::rows(reading).into_iter().map(|row| draw_row(bytes, row, rows::mark(reading), style)).collect()
}

/// Both rows, one under the other, and what was done in a sentence.
pub fn slid(bytes: &[u8], reading: &Reading, neighbour: &Neighbour, style: Style) -> String {
    let mut text = pair::draw(bytes, reading, neighbour, style);
    for row in rows::rows(&neighbour.reading) {
        // The fixed part is in the pair already, and what lies before the change is as it was.
        if row.last().is_some_and(|part| part.to > neighbour.change.at().max(16)) {
            text += &draw_row(&neighbour.bytes, row, None, style);
        }
    }
    text + &slid::sentence(neighbour) + "\n"
}

/// A box and the columns between its borders.
struct Cell<'a> {
    part: &'a Part,
    inner: usize,
}

impl Cell<'_> {
    fn bytes(&self) -> usize {
        self.part.to - self.part.from
    }

    /// The columns that show all of it.
    fn natural(&self) -> usize {
        (3 * self.bytes() + 1).max(self.part.value.len() + 2).max(self.least())
    }

    /// The columns without which it is not legible.
    fn least(&self) -> usize {
        let bytes = self.bytes().min(LEAST_BYTES);
        let letters = if self.bytes() > bytes { 0 } else { self.part.value.len().min(LEAST_LETTERS) };
        (3 * bytes + 1).max(self.part.name.len() + 2).max(letters + 2)
    }
}

/// A row as one line of boxes, or as several where it is too wide.
fn draw_row(bytes: &[u8], row: Vec<Part>, mark: Option<(usize, &str)>, style: Style) -> String {
    let row = rows::shortened(row, mark.map(|(at, _)| at));
    let width = style.width.saturating_sub(MARGIN);
    let mut text = String::new();
    let mut line: Vec<Cell> = Vec::new();
    for part in &row {
        let cell = Cell { part, inner: 0 };
        let least: usize = line.iter().chain([&cell]).map(|cell| cell.least() + 1).sum();
        if least + 1 > width && !line.is_empty() {
            text += &draw_line(bytes, &mut line, mark, style);
            line.clear();
        }
        line.push(cell);
    }
    text + &draw_line(bytes, &mut line, mark, style)
}

/// Gives what room is left to the boxes that want most.
fn stretch(line: &mut [Cell], width: usize) {
    for cell in line.iter_mut() {
        cell.inner = cell.least();
    }
    let used: usize = line.iter().map(|cell| cell.inner + 1).sum();
    let mut left = width.saturating_sub(used + 1);
    let mut order: Vec<usize> = (0..line.len()).collect();
    order.sort_by_key(|&at| std::cmp::Reverse(line[at].natural()));
    for at in order {
        let more = (line[at].natural() - line[at].inner).min(left);
        line[at].inner += more;
        left -= more;
    }
}

fn draw_line(bytes: &[u8], line: &mut [Cell], mark: Option<(usize, &str)>, style: Style) -> String {
    stretch(line, style.width.saturating_sub(MARGIN));
    let border: String = line.iter().map(|cell| format!("+{}", "-".repeat(cell.inner))).collect();
    let border = format!("{}{border}+\n", " ".repeat(MARGIN));
    let under = |texts: Vec<String>| {
        let padded = line.iter().zip(texts).map(|(cell, text)| format!("  {text:<0$}", cell.inner - 1));
        format!("{}{}", " ".repeat(MARGIN), padded.collect::<String>()).trim_end().to_string() + "\n"
    };
    let offsets = under(line.iter().map(|cell| cell.part.from.to_string()).collect());
    let (hex, column) = hex_line(bytes, line, mark, style);
    let mut text = offsets + &border + &hex + &border;
    if let (Some(column), Some((_, wanted))) = (column, mark) {
        for line in mark_lines('^', column, wanted, style.width).iter().filter(|line| !line.is_empty()) {
            text += &(style.red(line) + "\n");
        }
    }
    let names = under(line.iter().map(|cell| cell.part.name.clone()).collect());
    text += &(style.faint(names.trim_end()) + "\n");
    for at in 0..MOST_LINES {
        let values: Vec<String> = line.iter().map(|cell| value_line(cell, at)).collect();
        if values.iter().any(|value| !value.is_empty()) {
            text += &under(values);
        }
    }
    text
}

/// One of the lines of a value that is wrapped in its box.
fn value_line(cell: &Cell, at: usize) -> String {
    let lines = wrapped(&cell.part.value, cell.inner.saturating_sub(2), MOST_LINES);
    lines.get(at).cloned().unwrap_or_default()
}

/// The bytes of all boxes, and the column of the deciding one where it is among them.
fn hex_line(
    bytes: &[u8],
    line: &[Cell],
    mark: Option<(usize, &str)>,
    style: Style,
) -> (String, Option<usize>) {
    let (mut text, mut start, mut column) = (" ".repeat(MARGIN), MARGIN, None);
    for cell in line {
        let part = cell.part;
        let marked = mark.map(|(at, _)| at).filter(|at| (part.from..part.to).contains(at));
        let kept =
            kept_bytes(cell.bytes(), cell.inner.saturating_sub(1) / 3, marked.map(|at| at - part.from));
        text.push('|');
        for (index, kept_byte) in kept.iter().enumerate() {
            let at = kept_byte.map(|byte| part.from + byte);
            let digits =
                at.and_then(|at| bytes.get(at)).map_or("..".to_string(), |byte| format!("{byte:02x}"));
            let is_marked = at.is_some() && at == marked;
            if is_marked {
                column = Some(start + 2 + 3 * index);
            }
            text += &format!(" {}", if is_marked { style.red(&digits) } else { digits });
        }
        text += &" ".repeat(cell.inner.saturating_sub(3 * kept.len()));
        start += cell.inner + 1;
    }
    (text + "|\n", column)
}

/// Which of a box's bytes are drawn where only so many fit: the deciding one and those around it, the ends, and then from
/// the front on. What is left out has a place of its own.
fn kept_bytes(count: usize, fit: usize, mark: Option<usize>) -> Vec<Option<usize>> {
    if count <= fit {
        return (0..count).map(Some).collect();
    }
    let near = |at: usize| [at.checked_add(1), at.checked_sub(1), at.checked_add(2), at.checked_sub(2)];
    let around = mark.into_iter().flat_map(near).flatten();
    let wished = mark.into_iter().chain([0, count - 1]).chain(around).chain(1..count);
    let mut kept = BTreeSet::new();
    for byte in wished.filter(|&byte| byte < count) {
        let is_new = kept.insert(byte);
        if with_gaps(&kept, count).len() > fit.max(1) {
            if is_new && kept.len() > 1 {
                kept.remove(&byte);
            }
            break;
        }
    }
    with_gaps(&kept, count)
}

fn with_gaps(kept: &BTreeSet<usize>, count: usize) -> Vec<Option<usize>> {
    let (mut row, mut next) = (Vec::new(), 0);
    for &byte in kept {
        if byte > next {
            row.push(None);
        }
        row.push(Some(byte));
        next = byte + 1;
    }
    if next < count {
        row.push(None);
    }
    row
}

/// A sign at a column and what was wanted, in one line where it fits, on either side.
pub fn mark_lines(sign: char, column: usize, wanted: &str, width: usize) -> [String; 2] {
    let wanted = format!("wanted {wanted}");
    let indent = " ".repeat(column);
    if column + 2 + wanted.len() <= width {
        return [format!("{indent}{sign} {wanted}"), String::new()];
    }
    if wanted.len() + MARGIN < column {
        return [format!("{}{wanted} {sign}", " ".repeat(column - wanted.len() - 1)), String::new()];
    }
    [format!("{indent}{sign}"), format!("{}{wanted}", " ".repeat(MARGIN))]
}
