//! The store a second time, written from the documents alone, so that two
//! programs with nothing in common can be compared call by call.

pub mod bench;
pub mod carrier;
pub mod code;
pub mod cover;
pub mod field;
pub mod group;
pub mod linear;
pub mod make;
pub mod message;
pub mod random;
pub mod refusal;
pub mod script;
pub mod tag;
pub mod wire;
