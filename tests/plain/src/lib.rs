//! The version book of document 01 in plain Rust.

pub mod book;
pub mod calls;
pub mod coverage;
pub mod generate;
pub mod language;
pub mod random;
pub mod session;
pub mod written;
