//! Rows of boxes of an SVG picture: sixteen bytes in a line.

use super::canvas::{
    self, plain, Canvas, Look, Place, BYTE, FAINT, GREEN, LINE, NAME, OFFSET, RED, VALUE, WANTED,
};
use super::lines::wrapped;
use super::rows;
use crate::head::Part;
use crate::slid::Change;

pub const IN_LINE: usize = 16;
pub const CELL: usize = 56;
pub const LEFT: usize = 24;
pub const WIDTH: usize = 2 * LEFT + IN_LINE * CELL;

/// Height of a box, and of the room in which bytes slide from one row to the next.
const HIGH: usize = 58;
const SLIDE: usize = 40;

/// Height of a line of values, and the most of them under a box.
const VALUE_LINE: usize = 14;
const MOST_VALUES: usize = 2;

/// The most lines of one row. Of a longer text the middle is left out.
const MOST_LINES: usize = 5;

/// The bytes of one line, the boxes that they are in, and what is marked in them.
#[derive(Clone, Copy)]
pub struct Line<'a> {
    pub bytes: &'a [u8],
    pub parts: &'a [Part],
    pub from: usize,
    pub to: usize,
    pub mark: Option<(usize, &'a str)>,
    pub change: Option<Change>,
}

impl Line<'_> {
    fn x(&self, at: usize) -> usize {
        LEFT + (at - self.from) * CELL
    }

    /// The boxes that reach into the line, each with its first byte and end there.
    fn boxes(&self) -> impl Iterator<Item = (&Part, usize, usize)> {
        let (from, to) = (self.from, self.to);
        let inside = move |part: &&Part| part.from < to && part.to > from;
        self.parts.iter().filter(inside).map(move |part| (part, part.from.max(from), part.to.min(to)))
    }

    /// What was wanted, above the byte that decided.
    fn draw_wanted(&self, canvas: &mut Canvas) {
        let Some((at, wanted)) = self.mark.filter(|(at, _)| (self.from..self.to).contains(at)) else {
            return;
        };
        let middle = self.x(at) + CELL / 2;
        let is_right = at - self.from >= IN_LINE / 2;
        let (x, anchor) = if is_right { (middle - 10, "end") } else { (middle + 10, "start") };
        let font = canvas::Font { anchor, ..WANTED };
        canvas.text(x, canvas.y + 12, &format!("wanted {wanted}"), font);
        canvas.line((middle, canvas.y + 2), (middle, canvas.y + 19), RED, "wrong");
        canvas.y += 20;
    }

    /// Boxes with offset, byte and name.
    fn draw_boxes(&self, canvas: &mut Canvas) {
        let y = canvas.y;
        for (part, from, to) in self.boxes() {
            let place = Place { x: self.x(from), y, width: (to - from) * CELL, height: HIGH };
            canvas.rect(place, look(part));
            let letters = place.width / 6;
            let name = if part.name == "signature length" { "length" } else { &part.name };
            let name = wrapped(name, letters, 1).concat();
            canvas.text(place.x + place.width / 2, y + 51, &name, NAME);
            for at in from..to {
                self.draw_byte(canvas, part, at);
            }
        }
        canvas.y += HIGH;
    }

    fn draw_byte(&self, canvas: &mut Canvas, part: &Part, at: usize) {
        let Some(&byte) = self.bytes.get(at) else { return };
        let (x, y) = (self.x(at), canvas.y);
        let middle = x + CELL / 2;
        let inner = Place { x: x + 3, y: y + 20, width: CELL - 6, height: 20 };
        let is_marked = self.mark.is_some_and(|(place, _)| place == at);
        let fill = match self.change {
            Some(Change::PutIn { at: place, .. }) if place == at => {
                canvas.rect(inner, Look { fill: "#ffffff", stroke: GREEN, width: 2, is_dashed: true });
                GREEN
            }
            _ if is_marked => {
                canvas.rect(inner, Look { fill: "#f9dcd5", stroke: RED, width: 2, is_dashed: false });
                RED
            }
            _ => BYTE.fill,
        };
        canvas.text(middle, y + 14, &at.to_string(), OFFSET);
        let has_letter = holds_letters(part) && (33..127).contains(&byte);
        let letter = if has_letter { format!(" {}", char::from(byte)) } else { String::new() };
        canvas.text(middle, y + 35, &format!("{byte:02x}{letter}"), canvas::Font { fill, ..BYTE });
        if matches!(self.change, Some(Change::TakenOut { at: place, .. }) if place == at) {
            canvas.line((x + 6, y + 22), (x + CELL - 6, y + 40), RED, "");
            canvas.line((x + 6, y + 40), (x + CELL - 6, y + 22), RED, "");
        }
    }

    /// Values under the boxes that begin in this line.
    fn draw_values(&self, canvas: &mut Canvas) {
        let mut most = 0;
        for (part, from, to) in self.boxes().filter(|(part, from, _)| part.from == *from) {
            let width = (to - from) * CELL;
            // Letters are about 7 wide; in the box of one byte long words are smaller.
            let letters = if width > CELL { width / 7 } else { 11 };
            let size = if width > CELL || part.value.len() < 9 { VALUE.size } else { 9 };
            let lines = wrapped(&part.value, letters, MOST_VALUES);
            for (index, line) in lines.iter().enumerate() {
                let y = canvas.y + VALUE_LINE * (index + 1);
                canvas.text(self.x(from) + width / 2, y, line, canvas::Font { size, ..VALUE });
            }
            most = most.max(lines.len());
        }
        canvas.y += VALUE_LINE * most;
    }

    pub fn draw(&self, canvas: &mut Canvas) {
        self.draw_wanted(canvas);
        self.draw_boxes(canvas);
        self.draw_values(canvas);
        canvas.y += 8;
    }

    /// This line over another, and from each byte to where it slid.
    pub fn draw_over(&self, lower: &Line, change: Change, canvas: &mut Canvas) {
        self.draw_wanted(canvas);
        self.draw_boxes(canvas);
        for at in self.from..self.to {
            let Some(place) = rows::slid_to(change, at) else { continue };
            let middle = self.x(at) + CELL / 2;
            let end = if place < at { middle.saturating_sub(CELL) } else { middle + CELL * (place - at) };
            let to = (end.clamp(4, WIDTH - 4), canvas.y + SLIDE - 2);
            canvas.line((middle, canvas.y + 2), to, LINE, "slide");
        }
        canvas.y += SLIDE;
        lower.draw_boxes(canvas);
        lower.draw_values(canvas);
        canvas.y += 10;
    }
}

/// Padding and zeros are white, what could not be read is grey, the fixed part blue and fields green.
fn look(part: &Part) -> Look {
    match part.name.as_str() {
        "padding" => Look { is_dashed: true, ..plain("#ffffff") },
        "zero" => plain("#ffffff"),
        "rest" => plain("#e4e7eb"),
        _ if part.from < 16 => plain("#d6e8f7"),
        _ => plain("#dff0d8"),
    }
}

/// Whether the bytes of a box are letters, and no numbers that look like some.
fn holds_letters(part: &Part) -> bool {
    let names = ["order", "path", "interface", "member", "error name", "destination", "sender", "signature"];
    let more = ["string", "object path", "bytes", "rest"];
    names.iter().chain(&more).any(|name| part.name == *name) || part.name.starts_with("type '")
}

/// A row in its lines, without what is too much of it.
pub fn draw_row(row: &Line, canvas: &mut Canvas) {
    let count = (row.to - row.from).div_ceil(IN_LINE);
    let marked = row.mark.and_then(|(at, _)| at.checked_sub(row.from)).map(|at| at / IN_LINE);
    let stays = |index| count <= MOST_LINES || index < 2 || index + 1 == count || Some(index) == marked;
    let mut left_out: Option<usize> = None;
    for index in 0..count {
        let from = row.from + IN_LINE * index;
        if !stays(index) {
            left_out = left_out.or(Some(from));
            continue;
        }
        if let Some(first) = left_out.take() {
            let words = format!("bytes {first} to {} are not drawn", from - 1);
            canvas.text(LEFT, canvas.y + 12, &words, canvas::Font { fill: LINE, ..canvas::SENTENCE });
            canvas.y += 24;
        }
        Line { from, to: (from + IN_LINE).min(row.to), ..*row }.draw(canvas);
    }
}

/// Between two figures.
pub fn draw_rule(canvas: &mut Canvas) {
    canvas.line((LEFT, canvas.y), (WIDTH - LEFT, canvas.y), FAINT, "");
    canvas.y += 16;
}
