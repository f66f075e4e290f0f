//! The Rust's trees and clause sets as text.
use razor_fol::syntax::formula::clause::{Clause, Literal};
use razor_fol::syntax::formula::{Atom, Atomic, Equals};
use razor_fol::syntax::term::Complex;
use razor_fol::syntax::{Var, FOF};
use std::collections::BTreeSet;

/// The rule text of a tree.
pub fn tree(formula: &FOF) -> String {
    let mut out = String::new();
    write_formula(formula, &mut out);
    out
}

/// The listing of a clause set, in the set's own order.
pub fn listing(clauses: &BTreeSet<Clause<Complex>>) -> String {
    let mut out = String::new();
    line(&mut out, &["clauses", &clauses.len().to_string()]);
    for clause in clauses {
        line(&mut out, &["clause", &clause.len().to_string()]);
        for literal in clause.iter() {
            let (sign, atom) = match literal {
                Literal::Pos(atom) => ("pos", atom),
                Literal::Neg(atom) => ("neg", atom),
            };
            line(&mut out, &[sign]);
            match atom {
                Atomic::Atom(atom) => write_atom(atom, &mut out),
                Atomic::Equals(equation) => write_equation(equation, &mut out),
            }
        }
    }
    out
}

/// A line: its fields parted by tabs, with its LF.
pub fn line(out: &mut String, fields: &[&str]) {
    out.push_str(&fields.join("\t"));
    out.push('\n');
}

fn write_formula(formula: &FOF, out: &mut String) {
    match formula {
        FOF::Top => line(out, &["top"]),
        FOF::Bottom => line(out, &["bot"]),
        FOF::Atom(atom) => write_atom(atom, out),
        FOF::Equals(equation) => write_equation(equation, out),
        FOF::Not(this) => write_parts("not", &[&this.formula], out),
        FOF::And(this) => write_parts("and", &[&this.left, &this.right], out),
        FOF::Or(this) => write_parts("or", &[&this.left, &this.right], out),
        FOF::Implies(this) => write_parts("imp", &[&this.premise, &this.consequence], out),
        FOF::Iff(this) => write_parts("iff", &[&this.left, &this.right], out),
        FOF::Exists(this) => write_block("ex", &this.variables, &this.formula, out),
        FOF::Forall(this) => write_block("all", &this.variables, &this.formula, out),
    }
}

fn write_parts(word: &str, parts: &[&FOF], out: &mut String) {
    line(out, &[word]);
    for part in parts {
        write_formula(part, out);
    }
}

fn write_block(word: &str, variables: &[Var], body: &FOF, out: &mut String) {
    let mut fields = vec![word];
    fields.extend(variables.iter().map(Var::name));
    line(out, &fields);
    write_formula(body, out);
}

fn write_atom(atom: &Atom<Complex>, out: &mut String) {
    write_application("pred", atom.predicate.name(), &atom.terms, out);
}

fn write_equation(equation: &Equals<Complex>, out: &mut String) {
    line(out, &["eq"]);
    write_term(&equation.left, out);
    write_term(&equation.right, out);
}

fn write_application(word: &str, name: &str, terms: &[Complex], out: &mut String) {
    line(out, &[word, name, &terms.len().to_string()]);
    for term in terms {
        write_term(term, out);
    }
}

fn write_term(term: &Complex, out: &mut String) {
    match term {
        Complex::Var(variable) => line(out, &["var", variable.name()]),
        Complex::Const(constant) => line(out, &["con", constant.name()]),
        Complex::App { function, terms } => write_application("fun", function.name(), terms, out),
    }
}
