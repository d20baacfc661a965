//! Heads as an SVG picture.

use super::canvas::{self, Canvas, SENTENCE, TITLE};
use super::lines::wrapped;
use super::rows;
use super::svg_row::{self, Line, IN_LINE, LEFT, WIDTH};
use crate::head::{Part, Reading};
use crate::slid::{self, Change, Neighbour};

/// One message of a picture: its sentences, its boxes, and the row of its neighbour.
#[derive(Clone, Debug)]
pub struct Figure {
    pub lines: Vec<String>,
    pub bytes: Vec<u8>,
    pub reading: Reading,
    pub neighbour: Option<Neighbour>,
}

/// Letters of a sentence in a line, fewer where they are bold, and the most lines of one.
const LETTERS: usize = 125;
const BOLD_LETTERS: usize = 108;
const MOST_LINES: usize = 6;

/// A whole document with the figures one under the other.
pub fn picture(figures: &[Figure]) -> String {
    let mut canvas = Canvas::default();
    canvas.y = 12;
    for (index, figure) in figures.iter().enumerate() {
        if index > 0 {
            svg_row::draw_rule(&mut canvas);
        }
        draw_figure(figure, &mut canvas);
    }
    canvas.y += 8;
    canvas.document(WIDTH)
}

fn draw_figure(figure: &Figure, canvas: &mut Canvas) {
    for (index, line) in figure.lines.iter().enumerate() {
        draw_words(canvas, line, index == 0);
    }
    canvas.y += 6;
    let in_pair = figure.neighbour.is_some() && figure.reading.parts.iter().all(|part| part.from < 16);
    if !in_pair {
        draw_rows(canvas, &figure.bytes, &figure.reading, 0);
    }
    if let Some(neighbour) = &figure.neighbour {
        draw_pair(canvas, figure, neighbour);
        draw_words(canvas, &slid::sentence(neighbour), true);
        canvas.y += 6;
        draw_rows(canvas, &neighbour.bytes, &neighbour.reading, neighbour.change.at().max(IN_LINE));
    }
}

fn draw_words(canvas: &mut Canvas, words: &str, is_bold: bool) {
    let letters = if is_bold { BOLD_LETTERS } else { LETTERS };
    for line in wrapped(words, letters, MOST_LINES) {
        canvas.text(LEFT, canvas.y + 14, &line, canvas::Font { is_bold, ..SENTENCE });
        canvas.y += 18;
    }
}

/// The rows of a head that reach behind a byte, each with its title.
fn draw_rows(canvas: &mut Canvas, bytes: &[u8], reading: &Reading, behind: usize) {
    let mark = rows::mark(reading);
    for row in rows::rows(reading) {
        let (from, to) = (row.first().map_or(0, |part| part.from), row.last().map_or(0, |part| part.to));
        if to <= behind {
            continue;
        }
        canvas.text(LEFT, canvas.y + 12, &title(&row, from, to), TITLE);
        canvas.y += 18;
        let line = Line { bytes, parts: &row, from, to, mark, change: None };
        svg_row::draw_row(&line, canvas);
        canvas.y += 4;
    }
}

fn title(row: &[Part], from: usize, to: usize) -> String {
    let what = match row.first() {
        Some(part) if part.name == "code" && part.value == "0" => "a field with code 0".to_string(),
        Some(part) if part.name == "code" => format!("field: {}", part.value),
        _ if from == 0 => "the fixed part".to_string(),
        _ => "the rest".to_string(),
    };
    format!("{what}, bytes {from} to {}", to.saturating_sub(1))
}

/// The broken row over the good one, line by line.
fn draw_pair(canvas: &mut Canvas, figure: &Figure, neighbour: &Neighbour) {
    let change = neighbour.change;
    // A byte that is put in stands in the lower row only, and one that is taken out in the upper.
    let (struck, added) = match change {
        Change::PutIn { .. } => (None, Some(change)),
        Change::TakenOut { .. } => (Some(change), None),
    };
    let (mut at, end) = rows::window(change, neighbour.bytes.len());
    let mark = rows::mark(&figure.reading);
    canvas.text(LEFT, canvas.y + 12, "as it came, and where each byte would stand", TITLE);
    canvas.y += 18;
    while at < end {
        let to = (at + IN_LINE).min(end);
        let parts = &figure.reading.parts;
        let reaches = to.min(figure.bytes.len()).max(at);
        let upper = Line { bytes: &figure.bytes, parts, from: at, to: reaches, mark, change: struck };
        let parts = &neighbour.reading.parts;
        let lower = Line { bytes: &neighbour.bytes, parts, from: at, to, mark: None, change: added };
        upper.draw_over(&lower, change, canvas);
        at = to;
    }
}
