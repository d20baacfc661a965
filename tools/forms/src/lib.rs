//! The readable forms of policies and captures: their texts, and the bytes that the guard is lent.
//!
//! Nothing here judges a message. The tool and the tests read and write with it; the second program has its own reading
//! of images, messages and captures.

pub mod capture;
pub mod hex;
pub mod image;
pub mod message;
pub mod names;
pub mod policy;
pub mod policy_text;
pub mod script;
