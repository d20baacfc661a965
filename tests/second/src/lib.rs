//! An independent second reading of the guard's written rules.
//!
//! The guard's state is kept in ordinary structs, so nothing here knows how the
//! guard proper lays out its memory. The modules follow the paper: what stands on
//! the wire, the name rules, the message head, the policy image, the rules of
//! precedence, the guard's seven calls, and batches of them.

pub mod answer;
pub mod batch;
pub mod batch_cases;
pub mod capture;
pub mod conversion_cases;
pub mod conversions;
pub mod convert;
pub mod coverage;
pub mod decider_cases;
pub mod generate;
pub mod guard;
pub mod header;
pub mod image;
pub mod image_write;
pub mod interface_cases;
pub mod message;
pub mod name_cases;
pub mod name_forms;
pub mod names;
pub mod policy;
pub mod reckoning;
pub mod replay;
pub mod signature;
pub mod stream;
pub mod tally;
pub mod tick_cases;
pub mod typed;
pub mod unknown_cases;
pub mod utf8;
pub mod value;
pub mod wait;
pub mod wait_cases;
pub mod wire;
pub mod wrap;
