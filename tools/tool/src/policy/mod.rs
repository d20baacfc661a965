//! What can be said of a policy before anything happens: which rules never decide, and what it answers to a question.

pub mod ask;
pub mod covering;
pub mod lint;
pub mod question;
pub mod turned;
