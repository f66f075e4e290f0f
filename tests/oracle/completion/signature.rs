//! Signatures are left behind by the port and no conversion asks for one: these are only the names that the given files mention.
use super::{Const, Func, Pred};

#[derive(Debug)]
pub struct Error;

pub struct PredSig {
    pub symbol: Pred,
    pub arity: u8,
}

pub struct FuncSig {
    pub symbol: Func,
    pub arity: u8,
}

#[derive(Default)]
pub struct Sig;

impl Sig {
    pub fn new() -> Self {
        Self
    }

    pub fn merge(self, _: Self) -> Result<Self, Error> {
        Err(Error)
    }

    pub fn from_signatures(_: Vec<Self>) -> Result<Self, Error> {
        Err(Error)
    }

    pub fn add_constant(&mut self, _: Const) {}

    pub fn add_function(&mut self, _: FuncSig) -> Result<(), Error> {
        Err(Error)
    }

    pub fn add_predicate(&mut self, _: PredSig) -> Result<(), Error> {
        Err(Error)
    }
}
