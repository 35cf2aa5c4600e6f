//! A twin of the fabric reservation manager in plain Rust, written from docs/RULES.md, and what compares and times the two.
pub mod differ;
pub mod model;
pub mod product;
pub mod rng;
pub mod script;
pub mod scripts;
pub mod sheets;
pub mod systematic;
