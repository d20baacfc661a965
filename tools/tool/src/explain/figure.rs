//! A story as a figure of a picture.

use super::story::Story;
use super::words::{headline, sentences};
use crate::cli::Style;
use crate::draw::svg::Figure;
use crate::head::Outcome;

/// The figure of a call that has a head to draw: a whole one, or a broken one.
pub fn of(story: &Story) -> Option<Figure> {
    let message = story.message.as_ref()?;
    if matches!(message.reading.outcome, Outcome::Unfinished { .. }) || story.place.answer == 10 {
        return None;
    }
    let mut lines = vec![format!("#{}  {}", story.number, headline(story))];
    lines.extend(sentences(story, Style::PLAIN));
    let neighbour = message.neighbour();
    Some(Figure { lines, bytes: message.bytes.clone(), reading: message.reading.clone(), neighbour })
}
