//! Families of rules: enumerated, random, at the limits, damaged.
mod chance;
mod damage;
mod enumerate;
pub mod families;
mod limits;
mod make;
mod pairs;
mod random;

use oracle::writer;
use razor_fol::syntax::FOF;

/// A rule of an input: the label of its `rule` line, and the text of its tree, which may be damaged.
pub struct Rule {
    pub label: Vec<u8>,
    pub text: Vec<u8>,
}

impl Rule {
    pub fn new(label: &str, tree: &FOF) -> Self {
        Rule { label: label.into(), text: writer::tree(tree).into_bytes() }
    }
}
