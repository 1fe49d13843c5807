//! A second implementation of the rules in plain Rust, written independently of the proved one and compared with it.

#![forbid(unsafe_code)]
#![warn(missing_docs)]

pub mod chacha20;
pub mod client;
pub mod index;
pub mod levels;
pub mod refusal;
pub mod runs;
pub mod session;
pub mod store;
pub mod supply;
