//! Replay scripts: the lines, what they do, and what is written for each.

pub mod hex;
pub mod line;
pub mod replay;
pub mod session;
pub mod words;
