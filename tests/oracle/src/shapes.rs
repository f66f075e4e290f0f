//! Prenex and Skolem trees as the Rust's own prenex and Skolem values, built directly and without any conversion.
use razor_fol::syntax::formula::qff::QFF;
use razor_fol::syntax::formula::{And, Exists, Forall, Iff, Implies, Not, Or};
use razor_fol::syntax::FOF;
use razor_fol::transform::{PNF, SNF};

/// The prenex value of a tree: blocks, then a matrix without a block. None for any other tree.
pub fn prenex(formula: &FOF) -> Option<PNF> {
    match formula {
        FOF::Exists(this) => Some(Exists { variables: this.variables.clone(), formula: prenex(&this.formula)? }.into()),
        FOF::Forall(this) => Some(Forall { variables: this.variables.clone(), formula: prenex(&this.formula)? }.into()),
        _ => quantifier_free(formula).map(PNF::QFF),
    }
}

/// The Skolem value of a tree: forall blocks, then a matrix without a block. None for any other tree.
pub fn skolem(formula: &FOF) -> Option<SNF> {
    match formula {
        FOF::Forall(this) => Some(Forall { variables: this.variables.clone(), formula: skolem(&this.formula)? }.into()),
        _ => quantifier_free(formula).map(SNF::QFF),
    }
}

/// What stands behind the blocks of a tree.
pub fn matrix(formula: &FOF) -> &FOF {
    match formula {
        FOF::Exists(this) => matrix(&this.formula),
        FOF::Forall(this) => matrix(&this.formula),
        _ => formula,
    }
}

fn quantifier_free(formula: &FOF) -> Option<QFF> {
    let part = quantifier_free;
    Some(match formula {
        FOF::Top => QFF::Top,
        FOF::Bottom => QFF::Bottom,
        FOF::Atom(this) => this.clone().into(),
        FOF::Equals(this) => this.clone().into(),
        FOF::Not(this) => Not { formula: part(&this.formula)? }.into(),
        FOF::And(this) => And { left: part(&this.left)?, right: part(&this.right)? }.into(),
        FOF::Or(this) => Or { left: part(&this.left)?, right: part(&this.right)? }.into(),
        FOF::Implies(this) => Implies { premise: part(&this.premise)?, consequence: part(&this.consequence)? }.into(),
        FOF::Iff(this) => Iff { left: part(&this.left)?, right: part(&this.right)? }.into(),
        FOF::Exists(_) | FOF::Forall(_) => return None,
    })
}
