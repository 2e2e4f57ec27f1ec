//! The derive's name alone.
pub use derive::Error;
