//! The limits of document 01, and the refusals by their numbers there.

pub const WEIGHT: u128 = 1_024;
pub const DEPTH: usize = 64;
pub const ARGUMENTS: usize = 32;
pub const BLOCK: usize = 32;
pub const NAME: usize = 24;
pub const LINE: usize = 1_024;
pub const RAW_CLAUSES: u128 = 256;
pub const RAW_LITERALS: u128 = 2_048;
pub const OUT: usize = 65_536;

/// A refusal: its number, and the line, the stage or 0.
#[derive(Clone, Copy, PartialEq, Eq, Debug)]
pub struct Refusal {
    pub number: u8,
    pub place: usize,
}

pub const fn refusal(number: u8, place: usize) -> Refusal {
    Refusal { number, place }
}

pub fn malformed(line: usize) -> Refusal {
    refusal(2, line)
}

pub fn too_large(line: usize) -> Refusal {
    refusal(3, line)
}

pub const WRONG_SHAPE: Refusal = refusal(4, 0);
pub const RESERVED_NAME: Refusal = refusal(5, 0);

pub fn long_variable(stage: usize) -> Refusal {
    refusal(6, stage)
}

pub fn heavy_stage(stage: usize) -> Refusal {
    refusal(7, stage)
}

pub const MANY_CLAUSES: Refusal = refusal(8, 5);
pub const LONG_RESULT: Refusal = refusal(1, 0);
