//! Heads as pictures.

mod canvas;
mod lines;
mod pair;
mod rows;
pub mod svg;
mod svg_row;
pub mod terminal;
