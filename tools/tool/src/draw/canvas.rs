//! Shapes and letters of an SVG picture, drawn from the top down.

/// Ink, lines and the colours of `docs/pictures`; red and green are for what is wrong and what was put in.
pub const INK: &str = "#1f2933";
pub const LINE: &str = "#8b98a5";
pub const FAINT: &str = "#c3cbd3";
pub const RED: &str = "#b3261e";
pub const GREEN: &str = "#1e7d32";

/// How letters look.
#[derive(Clone, Copy)]
pub struct Font {
    pub family: &'static str,
    pub size: usize,
    pub anchor: &'static str,
    pub is_bold: bool,
    pub fill: &'static str,
}

const fn font(family: &'static str, size: usize, anchor: &'static str) -> Font {
    Font { family, size, anchor, is_bold: false, fill: INK }
}

pub const SENTENCE: Font = font("sans-serif", 13, "start");
pub const TITLE: Font = Font { is_bold: true, ..font("sans-serif", 12, "start") };
pub const OFFSET: Font = Font { fill: LINE, ..font("sans-serif", 9, "middle") };
pub const BYTE: Font = font("monospace", 13, "middle");
pub const NAME: Font = font("sans-serif", 10, "middle");
pub const VALUE: Font = font("sans-serif", 11, "middle");
pub const WANTED: Font = Font { is_bold: true, fill: RED, ..font("sans-serif", 12, "start") };

/// A rectangle of some look.
#[derive(Clone, Copy)]
pub struct Look {
    pub fill: &'static str,
    pub stroke: &'static str,
    pub width: usize,
    pub is_dashed: bool,
}

pub const fn plain(fill: &'static str) -> Look {
    Look { fill, stroke: LINE, width: 1, is_dashed: false }
}

/// Where a shape lies.
#[derive(Clone, Copy)]
pub struct Place {
    pub x: usize,
    pub y: usize,
    pub width: usize,
    pub height: usize,
}

/// What is drawn so far, and how far down.
#[derive(Default)]
pub struct Canvas {
    shapes: String,
    pub y: usize,
}

impl Canvas {
    pub fn rect(&mut self, place: Place, look: Look) {
        let Place { x, y, width, height } = place;
        let Look { fill, stroke, width: thick, .. } = look;
        let dash = if look.is_dashed { " stroke-dasharray=\"4 3\"" } else { "" };
        self.shapes += &format!("<rect x=\"{x}\" y=\"{y}\" width=\"{width}\" height=\"{height}\" rx=\"3\" fill=\"{fill}\" stroke=\"{stroke}\" stroke-width=\"{thick}\"{dash}/>\n");
    }

    pub fn text(&mut self, x: usize, y: usize, words: &str, font: Font) {
        let Font { family, size, anchor, fill, .. } = font;
        let weight = if font.is_bold { "bold" } else { "normal" };
        let words = escaped(words);
        self.shapes += &format!("<text x=\"{x}\" y=\"{y}\" font-family=\"{family}\" font-size=\"{size}\" text-anchor=\"{anchor}\" font-weight=\"{weight}\" fill=\"{fill}\">{words}</text>\n");
    }

    /// A line, with a tip at its end where one is named.
    pub fn line(&mut self, from: (usize, usize), to: (usize, usize), stroke: &str, tip: &str) {
        let ((x1, y1), (x2, y2)) = (from, to);
        let end = if tip.is_empty() { String::new() } else { format!(" marker-end=\"url(#{tip})\"") };
        self.shapes += &format!("<path d=\"M{x1} {y1} L{x2} {y2}\" fill=\"none\" stroke=\"{stroke}\" stroke-width=\"1.2\"{end}/>\n");
    }

    /// The whole document.
    pub fn document(&self, width: usize) -> String {
        let height = self.y;
        let tips: String = [("slide", LINE), ("wrong", RED)]
            .iter()
            .map(|(name, colour)| format!("<marker id=\"{name}\" viewBox=\"0 0 8 8\" refX=\"7\" refY=\"4\" markerWidth=\"6\" markerHeight=\"6\" orient=\"auto\"><path d=\"M0 0 L8 4 L0 8 z\" fill=\"{colour}\"/></marker>"))
            .collect();
        format!("<svg xmlns=\"http://www.w3.org/2000/svg\" width=\"{width}\" height=\"{height}\" viewBox=\"0 0 {width} {height}\">\n<defs>{tips}</defs>\n<rect width=\"{width}\" height=\"{height}\" fill=\"white\"/>\n{}</svg>\n", self.shapes)
    }
}

/// Text that XML takes: what it gives a meaning is named, and what it does not allow is shown as unreadable.
fn escaped(words: &str) -> String {
    let mut text = String::with_capacity(words.len());
    for letter in words.chars() {
        match letter {
            '&' => text += "&amp;",
            '<' => text += "&lt;",
            '>' => text += "&gt;",
            '"' => text += "&quot;",
            '\u{fffe}' | '\u{ffff}' => text.push('\u{fffd}'),
            letter if letter.is_control() => text.push('\u{fffd}'),
            letter => text.push(letter),
        }
    }
    text
}
