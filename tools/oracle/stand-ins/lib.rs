//! The crate's root, which is not among the papers: the modules that are, and what they name.
pub mod barcode;
pub mod gateway;
pub mod pv;
