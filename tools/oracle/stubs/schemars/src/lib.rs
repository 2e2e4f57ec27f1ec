//! The derive's name alone: schemas stay behind.
pub use derive::JsonSchema;
