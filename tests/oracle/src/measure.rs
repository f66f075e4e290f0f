//! What document 01 counts: weights, names, arguments, raw clauses. Sizes that may explode are counted without making the tree.
use razor_fol::syntax::formula::Formula;
use razor_fol::syntax::term::Complex;
use razor_fol::syntax::{Var, FOF};

/// A node of a formula as far as counting goes.
enum Shape<'a> {
    Leaf(Vec<&'a Complex>),
    Not(&'a FOF),
    And(&'a FOF, &'a FOF),
    Or(&'a FOF, &'a FOF),
    Implies(&'a FOF, &'a FOF),
    Iff(&'a FOF, &'a FOF),
    Block(&'a [Var], &'a FOF),
}

fn shape(formula: &FOF) -> Shape<'_> {
    match formula {
        FOF::Top | FOF::Bottom => Shape::Leaf(Vec::new()),
        FOF::Atom(atom) => Shape::Leaf(atom.terms.iter().collect()),
        FOF::Equals(equation) => Shape::Leaf(vec![&equation.left, &equation.right]),
        FOF::Not(this) => Shape::Not(&this.formula),
        FOF::And(this) => Shape::And(&this.left, &this.right),
        FOF::Or(this) => Shape::Or(&this.left, &this.right),
        FOF::Implies(this) => Shape::Implies(&this.premise, &this.consequence),
        FOF::Iff(this) => Shape::Iff(&this.left, &this.right),
        FOF::Exists(this) => Shape::Block(&this.variables, &this.formula),
        FOF::Forall(this) => Shape::Block(&this.variables, &this.formula),
    }
}

fn parts(formula: &FOF) -> Vec<&FOF> {
    match shape(formula) {
        Shape::Leaf(_) => Vec::new(),
        Shape::Not(part) | Shape::Block(_, part) => vec![part],
        Shape::And(left, right) | Shape::Or(left, right) | Shape::Implies(left, right) | Shape::Iff(left, right) => {
            vec![left, right]
        }
    }
}

fn sum(numbers: impl IntoIterator<Item = u128>) -> u128 {
    numbers.into_iter().fold(0, u128::saturating_add)
}

fn product(left: u128, right: u128) -> u128 {
    left.saturating_mul(right)
}

fn term_weight(term: &Complex) -> u128 {
    match term {
        Complex::App { terms, .. } => 1 + sum(terms.iter().map(term_weight)),
        _ => 1,
    }
}

fn leaf_weight(terms: &[&Complex]) -> u128 {
    1 + sum(terms.iter().map(|term| term_weight(term)))
}

fn block_weight(variables: &[Var]) -> u128 {
    1 + variables.len() as u128
}

/// One for each node, one more for each variable in a block.
pub fn weight(formula: &FOF) -> u128 {
    let own = match shape(formula) {
        Shape::Leaf(terms) => leaf_weight(&terms),
        Shape::Block(variables, _) => block_weight(variables),
        _ => 1,
    };
    own + sum(parts(formula).into_iter().map(weight))
}

/// The weight of the prenex form of a simplified formula: names do not change it, an iff stands for both its directions.
pub fn prenex_weight(simplified: &FOF) -> u128 {
    let of_parts = sum(parts(simplified).into_iter().map(prenex_weight));
    match shape(simplified) {
        Shape::Leaf(terms) => leaf_weight(&terms),
        Shape::Iff(..) => sum([3, of_parts, of_parts]),
        Shape::Block(variables, _) => sum([block_weight(variables), of_parts]),
        _ => sum([1, of_parts]),
    }
}

/// The weight of the negation form of a formula.
pub fn negation_weight(formula: &FOF) -> u128 {
    signed_weights(formula).0
}

// The weights of the negation forms of a formula and of its negation.
fn signed_weights(formula: &FOF) -> (u128, u128) {
    match shape(formula) {
        Shape::Leaf(terms) => {
            let own = leaf_weight(&terms);
            let is_constant = matches!(formula, FOF::Top | FOF::Bottom);
            (own, if is_constant { own } else { own + 1 })
        }
        Shape::Not(part) => {
            let (plain, negated) = signed_weights(part);
            (negated, plain)
        }
        Shape::Block(variables, body) => {
            let (plain, negated) = signed_weights(body);
            let own = block_weight(variables);
            (sum([own, plain]), sum([own, negated]))
        }
        Shape::And(left, right) | Shape::Or(left, right) => {
            let (left, right) = (signed_weights(left), signed_weights(right));
            (sum([1, left.0, right.0]), sum([1, left.1, right.1]))
        }
        Shape::Implies(premise, consequence) => {
            let (premise, consequence) = (signed_weights(premise), signed_weights(consequence));
            (sum([1, premise.1, consequence.0]), sum([1, premise.0, consequence.1]))
        }
        Shape::Iff(left, right) => {
            let (left, right) = (signed_weights(left), signed_weights(right));
            let both = sum([3, left.0, left.1, right.0, right.1]);
            (both, both)
        }
    }
}

/// Whether some term of a formula is as asked, parts of terms included.
pub fn some_term(formula: &FOF, asked: &impl Fn(&Complex) -> bool) -> bool {
    fn within(term: &Complex, asked: &impl Fn(&Complex) -> bool) -> bool {
        let inside = matches!(term, Complex::App { terms, .. } if terms.iter().any(|part| within(part, asked)));
        inside || asked(term)
    }
    let here = matches!(shape(formula), Shape::Leaf(terms) if terms.iter().any(|term| within(term, asked)));
    here || parts(formula).into_iter().any(|part| some_term(part, asked))
}

/// The length of the longest variable of a formula, in a block or in a term.
pub fn longest_variable(formula: &FOF) -> usize {
    let own = match shape(formula) {
        Shape::Block(variables, _) => variables.iter().collect(),
        Shape::Leaf(_) => formula.free_vars(),
        _ => Vec::new(),
    };
    let own = own.into_iter().map(|variable| variable.name().len()).max().unwrap_or(0);
    parts(formula).into_iter().map(longest_variable).fold(own, usize::max)
}

#[derive(Clone, Copy, PartialEq)]
pub enum Form {
    Conjunctive,
    Disjunctive,
}

/// Clauses and literals of a form before equal ones merge.
#[derive(Clone, Copy)]
pub struct Raw {
    pub clauses: u128,
    pub literals: u128,
}

const NOTHING: Raw = Raw { clauses: 0, literals: 0 };
const EMPTY_CLAUSE: Raw = Raw { clauses: 1, literals: 0 };
const ONE_LITERAL: Raw = Raw { clauses: 1, literals: 1 };

fn joined(left: Raw, right: Raw) -> Raw {
    Raw { clauses: sum([left.clauses, right.clauses]), literals: sum([left.literals, right.literals]) }
}

fn multiplied(left: Raw, right: Raw) -> Raw {
    Raw {
        clauses: product(left.clauses, right.clauses),
        literals: sum([product(left.literals, right.clauses), product(right.literals, left.clauses)]),
    }
}

/// Document 01's raw counts of a matrix in negation form.
pub fn raw(matrix: &FOF, form: Form) -> Raw {
    counted(matrix, form, &|formula| match (formula, form) {
        (FOF::Top, Form::Conjunctive) | (FOF::Bottom, Form::Disjunctive) => NOTHING,
        (FOF::Top | FOF::Bottom, _) => EMPTY_CLAUSE,
        _ => ONE_LITERAL,
    })
}

/// What the Rust multiplies out: it distributes top and bottom like literals and drops them only afterwards.
pub fn distributed(matrix: &FOF, form: Form) -> Raw {
    counted(matrix, form, &|_| ONE_LITERAL)
}

fn counted(matrix: &FOF, form: Form, leaf: &impl Fn(&FOF) -> Raw) -> Raw {
    let both = |left, right| (counted(left, form, leaf), counted(right, form, leaf));
    match (shape(matrix), form) {
        (Shape::And(left, right), Form::Conjunctive) | (Shape::Or(left, right), Form::Disjunctive) => {
            let (left, right) = both(left, right);
            joined(left, right)
        }
        (Shape::Or(left, right), _) | (Shape::And(left, right), _) => {
            let (left, right) = both(left, right);
            multiplied(left, right)
        }
        _ => leaf(matrix),
    }
}
