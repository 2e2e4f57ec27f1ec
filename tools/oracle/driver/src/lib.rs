//! The Rust and the proved side, each behind plain functions over bytes, and what makes their inputs.
pub mod compare;
pub mod doors;
pub mod log;
pub mod make;
pub mod oracle;
pub mod rng;
pub mod say;
pub mod show;
pub mod shrink;
