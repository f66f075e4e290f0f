//! The transformations that were given, under the names by which they call each other.
mod cnf;
mod dnf;
mod nnf;
mod pnf;
mod simplify;
mod snf;

pub use cnf::{ToCNF, CNF};
pub use dnf::{ToDNF, DNF};
pub use nnf::{ToNNF, NNF};
pub use pnf::{ToPNF, PNF};
pub use snf::{ToSNF, SNF};
