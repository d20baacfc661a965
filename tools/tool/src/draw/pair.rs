//! Two rows of boxes, one under the other: the bytes as they came, and with one put in or taken out, so that one sees how
//! every byte slid.

use super::rows;
use super::terminal::{mark_lines, MARGIN};
use crate::cli::Style;
use crate::head::{Part, Reading};
use crate::slid::{Change, Neighbour};

/// Columns of a byte with one border.
const PITCH: usize = 5;

pub fn draw(bytes: &[u8], reading: &Reading, neighbour: &Neighbour, style: Style) -> String {
    let wide = 16 * PITCH + 1 + MARGIN <= style.width;
    let in_line = if wide { 16 } else { 8 };
    let (from, to) = rows::window(neighbour.change, neighbour.bytes.len());
    let mut text = String::new();
    let mut at = from;
    while at < to {
        let end = (at + in_line).min(to);
        let upper = Line { bytes, parts: &reading.parts, from: at, to: end.min(bytes.len()).max(at) };
        let lower = Line { bytes: &neighbour.bytes, parts: &neighbour.reading.parts, from: at, to: end };
        text += &upper.draw_upper(reading, neighbour.change, style);
        text += &slides(&upper, neighbour.change);
        text += &lower.draw_lower(neighbour.change, style);
        at = end;
    }
    text
}

/// The bytes of one line, and the boxes that they are in.
struct Line<'a> {
    bytes: &'a [u8],
    parts: &'a [Part],
    from: usize,
    to: usize,
}

impl Line<'_> {
    /// Where a byte's place begins.
    fn column(&self, at: usize) -> usize {
        MARGIN + (at - self.from) * PITCH
    }

    /// Whether a box begins at a byte. What no box holds, as behind a broken fixed part, has none.
    fn begins(&self, at: usize) -> bool {
        at == self.from || at == self.to || self.parts.iter().any(|part| part.from == at)
    }

    fn border(&self) -> String {
        let cell = |at| if self.begins(at) { "+----" } else { "-----" };
        let cells: String = (self.from..self.to).map(cell).collect();
        format!("{}{cells}+\n", " ".repeat(MARGIN))
    }

    /// `shown` says how the two digits of a byte stand in their four columns.
    fn hex(&self, shown: impl Fn(usize, u8) -> String) -> String {
        let mut text = " ".repeat(MARGIN);
        for at in self.from..self.to {
            text.push(if self.begins(at) { '|' } else { ' ' });
            text += &self.bytes.get(at).map_or("    ".to_string(), |&byte| shown(at, byte));
        }
        text + "|\n"
    }

    /// The names of the boxes, each at its box or a little behind where the one before is long.
    fn names(&self, style: Style) -> String {
        let mut text = String::new();
        for part in self.parts.iter().filter(|part| part.from < self.to && part.to > self.from) {
            let column = self.column(part.from.max(self.from)) + 1;
            let gap = column.max(text.len() + usize::from(!text.is_empty())) - text.len();
            text += &" ".repeat(gap);
            text += short_name(&part.name);
        }
        style.faint(&text) + "\n"
    }

    fn draw_upper(&self, reading: &Reading, change: Change, style: Style) -> String {
        let mark = rows::mark(reading).filter(|(at, _)| (self.from..self.to).contains(at));
        let mut text = String::new();
        if let Some((at, wanted)) = mark {
            let [sign, wanted] = mark_lines('v', self.column(at) + 2, wanted, style.width);
            for line in [wanted, sign].iter().filter(|line| !line.is_empty()) {
                text += &(style.red(line) + "\n");
            }
        }
        let offsets: String = (self.from..self.to).map(|at| format!("  {at:<3}")).collect();
        text += &format!("{}{}\n", " ".repeat(MARGIN), offsets.trim_end());
        let taken = |at| matches!(change, Change::TakenOut { at: place, .. } if place == at);
        let hex = self.hex(|at, byte| match mark {
            _ if taken(at) => style.red(&format!("({byte:02x})")),
            Some((place, _)) if place == at => format!(" {} ", style.red(&format!("{byte:02x}"))),
            _ => format!(" {byte:02x} "),
        });
        text + &self.names(style) + &self.border() + &hex + &self.border()
    }

    fn draw_lower(&self, change: Change, style: Style) -> String {
        let put = |at| matches!(change, Change::PutIn { at: place, .. } if place == at);
        let hex = self.hex(|at, byte| match put(at) {
            true => style.green(&format!("[{byte:02x}]")),
            false => format!(" {byte:02x} "),
        });
        self.border() + &hex + &self.border() + &self.names(style)
    }
}

/// Names that are longer than the box of one byte.
fn short_name(name: &str) -> &str {
    match name {
        "flags" => "flag",
        "version" => "ver",
        "signature length" => "len",
        name => name,
    }
}

/// From each byte of the upper row to where it stands in the lower.
fn slides(upper: &Line, change: Change) -> String {
    let mut lines = [String::new(), String::new()];
    for at in upper.from..upper.to {
        let middle = upper.column(at) + 2;
        let (stroke, columns) = match rows::slid_to(change, at) {
            None => ('x', [middle, middle]),
            Some(place) if place > at => ('\\', [middle + 2, middle + 4]),
            Some(place) if place < at => ('/', [middle - 1, middle.saturating_sub(3)]),
            Some(_) => ('|', [middle, middle]),
        };
        for (line, column) in lines.iter_mut().zip(columns) {
            let gap = column.saturating_sub(line.len());
            *line += &" ".repeat(gap);
            line.push(stroke);
        }
    }
    lines.map(|line| line + "\n").concat()
}
