//! The given Rust behind the file program of document 01: what it converts is the Rust's answer, what it refuses is decided here.
//!
//! Nothing in this crate converts a rule. It reads the rule text into the Rust's own tree, calls the Rust, measures what the Rust made
//! of it at each stage, and writes the Rust's result as text.
pub mod convert;
pub mod limits;
pub mod measure;
pub mod names;
pub mod program;
pub mod reader;
pub mod shapes;
pub mod writer;
