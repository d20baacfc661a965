//! What the command `aygeshunt` does. Every answer that it prints is the proved guard's own; what is added here is words
//! and pictures.

pub mod answers;
pub mod book;
pub mod cli;
pub mod commands;
pub mod compare;
pub mod converter;
pub mod draw;
pub mod explain;
pub mod guard;
pub mod head;
pub mod import;
pub mod json;
pub mod policy;
pub mod progress;
pub mod retire;
pub mod rules;
pub mod script_show;
pub mod slid;
