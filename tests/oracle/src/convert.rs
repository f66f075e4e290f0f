//! The nine conversions: the Rust converts, and document 01's order of refusals is kept over the Rust's own stage results.
use crate::limits::{
    heavy_stage, long_variable, Refusal, ARGUMENTS, LONG_RESULT, MANY_CLAUSES, NAME, OUT, RAW_CLAUSES, RAW_LITERALS,
    RESERVED_NAME, WEIGHT, WRONG_SHAPE,
};
use crate::measure::{distributed, longest_variable, negation_weight, prenex_weight, raw, some_term, weight, Form};
use crate::names::is_reserved;
use crate::{shapes, writer};
use razor_fol::syntax::term::Complex;
use razor_fol::syntax::FOF;
use razor_fol::transform::{ToCNF, ToDNF, ToNNF, ToPNF, ToSNF, PNF, SNF};
use std::panic::{catch_unwind, AssertUnwindSafe};

pub const NAMES: [&str; 9] = ["simplify", "nnf", "pnf", "snf", "cnf", "dnf", "pnf-snf", "snf-cnf", "snf-dnf"];

// The Rust is not asked for more than this many clauses or literals: 14 pairs beside top already take it seconds.
const PATIENCE: u128 = 60_000;

const SIMPLIFIED: usize = 1;
const PRENEX: usize = 2;
const SKOLEM: usize = 3;
const NEGATION: usize = 4;

/// Why there is no text.
#[derive(Debug)]
pub enum Without {
    Refused(Refusal),
    /// Document 01 gives a result, but the Rust would multiply out a part that the result does not need.
    Slow,
    Panicked,
}

impl From<Refusal> for Without {
    fn from(refusal: Refusal) -> Self {
        Without::Refused(refusal)
    }
}

type Answer = Result<String, Without>;

/// What the named conversion makes of a rule.
pub fn convert(conversion: &str, rule: &FOF) -> Answer {
    catch_unwind(AssertUnwindSafe(|| text(conversion, rule))).unwrap_or(Err(Without::Panicked))
}

fn text(conversion: &str, rule: &FOF) -> Answer {
    let text = match conversion {
        "simplify" => writer::tree(&simplified(rule)?),
        "nnf" => {
            let counted = negation_weight(rule);
            negation_fits(counted)?;
            let form = FOF::from(rule.nnf());
            counted_rightly(counted, &form);
            fits(&form, NEGATION)?;
            writer::tree(&form)
        }
        "pnf" => writer::tree(&(&prenex(rule)?).into()),
        "snf" => writer::tree(&(&skolem_of_rule(rule)?).into()),
        "cnf" => clauses(&skolem_of_rule(rule)?, Form::Conjunctive, || writer::listing(&rule.cnf().into_clauses()))?,
        "dnf" => clauses(&skolem_of_rule(rule)?, Form::Disjunctive, || writer::listing(&rule.dnf().into_clauses()))?,
        "pnf-snf" => {
            let prenex = shapes::prenex(rule).ok_or(WRONG_SHAPE)?;
            without_reserved(rule)?;
            writer::tree(&(&skolem(&prenex)?).into())
        }
        "snf-cnf" => {
            let given = shapes::skolem(rule).ok_or(WRONG_SHAPE)?;
            clauses(&given, Form::Conjunctive, || writer::listing(&given.cnf().into_clauses()))?
        }
        "snf-dnf" => {
            let given = shapes::skolem(rule).ok_or(WRONG_SHAPE)?;
            clauses(&given, Form::Disjunctive, || writer::listing(&given.dnf().into_clauses()))?
        }
        _ => panic!("the name of a conversion was looked up before"),
    };
    if text.len() > OUT {
        return Err(LONG_RESULT.into());
    }
    Ok(text)
}

// A wrong count would be a fault of ours, not of the Rust: then there is no output at all.
fn counted_rightly(counted: u128, tree: &FOF) {
    if weight(tree) != counted {
        eprintln!("oracle: a weight of {} was counted as {counted}", weight(tree));
        std::process::exit(3);
    }
}

fn without_reserved(rule: &FOF) -> Result<(), Refusal> {
    let reserved = some_term(rule, &|term| match term {
        Complex::Var(_) => false,
        Complex::Const(constant) => is_reserved(constant.name()),
        Complex::App { function, .. } => is_reserved(function.name()),
    });
    if reserved {
        Err(RESERVED_NAME)
    } else {
        Ok(())
    }
}

// Refusals 7 and 6 on the result of a stage.
fn fits(result: &FOF, stage: usize) -> Result<(), Refusal> {
    let many = |term: &Complex| matches!(term, Complex::App { terms, .. } if terms.len() > ARGUMENTS);
    if weight(result) > WEIGHT || some_term(result, &many) {
        return Err(heavy_stage(stage));
    }
    if longest_variable(result) > NAME {
        return Err(long_variable(stage));
    }
    Ok(())
}

fn simplified(rule: &FOF) -> Result<FOF, Refusal> {
    let result = rule.simplify();
    fits(&result, SIMPLIFIED)?;
    Ok(result)
}

// A chain of iffs doubles at each link: its weight is counted before the Rust is asked.
fn prenex(rule: &FOF) -> Result<PNF, Refusal> {
    let counted = prenex_weight(&simplified(rule)?);
    if counted > WEIGHT {
        return Err(heavy_stage(PRENEX));
    }
    let result = rule.pnf();
    let tree = FOF::from(&result);
    counted_rightly(counted, &tree);
    fits(&tree, PRENEX)?;
    Ok(result)
}

fn skolem(prenex: &PNF) -> Result<SNF, Refusal> {
    let result = prenex.snf();
    fits(&FOF::from(&result), SKOLEM)?;
    Ok(result)
}

fn skolem_of_rule(rule: &FOF) -> Result<SNF, Refusal> {
    without_reserved(rule)?;
    skolem(&prenex(rule)?)?;
    // The Rust's own way from the rule, not ours through its stages.
    Ok(rule.snf())
}

fn negation_fits(counted: u128) -> Result<(), Refusal> {
    if counted > WEIGHT {
        Err(heavy_stage(NEGATION))
    } else {
        Ok(())
    }
}

// Stages 4 and 5 of a Skolem form; `listing` asks the Rust for its clauses.
fn clauses(skolem: &SNF, form: Form, listing: impl Fn() -> String) -> Answer {
    let tree = FOF::from(skolem);
    let counted = negation_weight(shapes::matrix(&tree));
    negation_fits(counted)?;
    let negation = FOF::from(tree.nnf());
    let matrix = shapes::matrix(&negation);
    counted_rightly(counted, matrix);
    fits(matrix, NEGATION)?;
    let raw = raw(matrix, form);
    if raw.clauses > RAW_CLAUSES || raw.literals > RAW_LITERALS {
        return Err(MANY_CLAUSES.into());
    }
    let work = distributed(matrix, form);
    if work.clauses > PATIENCE || work.literals > PATIENCE {
        return Err(Without::Slow);
    }
    Ok(listing())
}
