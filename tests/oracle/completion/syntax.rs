//! Symbols: each kind a name of its own. Their order and equality are those of `String`, by derive; this file decides nothing else.
pub mod formula;
pub mod signature;
pub mod term;

pub use formula::{fof::FOF, Formula};
pub use signature::{Error, Sig};
pub use term::Term;

/// The name under which a signature lists equality.
pub const EQ_SYM: &str = "=";

macro_rules! symbol {
    ($kind:ident) => {
        #[derive(Clone, PartialEq, Eq, PartialOrd, Ord, Hash, Debug)]
        pub struct $kind(String);

        impl $kind {
            pub fn name(&self) -> &str {
                &self.0
            }
        }

        impl<S: Into<String>> From<S> for $kind {
            fn from(name: S) -> Self {
                Self(name.into())
            }
        }

        impl std::fmt::Display for $kind {
            fn fmt(&self, f: &mut std::fmt::Formatter<'_>) -> std::fmt::Result {
                f.write_str(&self.0)
            }
        }
    };
}

symbol!(Var);
symbol!(Const);
symbol!(Func);
symbol!(Pred);

impl Func {
    pub fn app(self, terms: Vec<term::Complex>) -> term::Complex {
        term::Complex::apply(self, terms)
    }
}
