//! A hand-written rival reader, with a rival list of changes, and the texts to time it on.

#![forbid(unsafe_code)]

pub mod changes;
pub mod pieces;
pub mod prose;
pub mod real;
pub mod rival;
pub mod texts;
