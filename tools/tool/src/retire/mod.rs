//! Own rules for prefixes, and what `policy retire` makes of them. The proved converter makes the
//! new image; what is here says what became of each rule, and holds the result to the tool's own reading.

pub mod names;
pub mod old;
pub mod outcome;
pub mod plan;
pub mod refusal;
pub mod report;
pub mod text;
