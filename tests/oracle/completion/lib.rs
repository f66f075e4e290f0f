//! Joins the given files of razor-fol to a crate. Ours, and as short as they allow; see tests/README.md.
pub mod syntax;
pub mod transform;
