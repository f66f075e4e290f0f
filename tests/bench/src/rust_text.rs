//! Rule text to the Rust's trees and back, as quickly as a plain Rust program does it: no limit is looked at, and a text that is no rule
//! panics. The oracle's own reader and writer are made for checking, and are several times slower.
use razor_fol::syntax::formula::clause::{Clause, Literal};
use razor_fol::syntax::formula::{Atom, Atomic, Equals};
use razor_fol::syntax::term::Complex;
use razor_fol::syntax::{Const, Func, Var, FOF};
use std::collections::BTreeSet;
use std::fmt::Write;
use std::str::Lines;

const LEGAL: &str = "a rule that is timed is legal";

pub fn read(text: &[u8]) -> FOF {
    formula(&mut std::str::from_utf8(text).expect(LEGAL).lines())
}

fn fields<'a>(rest: &mut Lines<'a>) -> (&'a str, &'a str) {
    let line = rest.next().expect(LEGAL);
    line.split_once('\t').unwrap_or((line, ""))
}

fn formula(rest: &mut Lines<'_>) -> FOF {
    let (word, more) = fields(rest);
    match word {
        "top" => FOF::Top,
        "bot" => FOF::Bottom,
        "not" => FOF::not(formula(rest)),
        "and" => joined(FOF::and, rest),
        "or" => joined(FOF::or, rest),
        "imp" => joined(FOF::implies, rest),
        "iff" => joined(FOF::iff, rest),
        "all" => FOF::forall(block(more), formula(rest)),
        "ex" => FOF::exists(block(more), formula(rest)),
        "eq" => {
            let left = term(rest);
            Equals { left, right: term(rest) }.into()
        }
        "pred" => {
            let (name, terms) = application(more, rest);
            Atom { predicate: name.into(), terms }.into()
        }
        _ => panic!("{LEGAL}"),
    }
}

fn joined(join: fn(FOF, FOF) -> FOF, rest: &mut Lines<'_>) -> FOF {
    let left = formula(rest);
    join(left, formula(rest))
}

fn block(names: &str) -> Vec<Var> {
    names.split('\t').map(|name| Var::from(name.to_string())).collect()
}

fn application(more: &str, rest: &mut Lines<'_>) -> (String, Vec<Complex>) {
    let (name, count) = more.split_once('\t').expect(LEGAL);
    let count: usize = count.parse().expect(LEGAL);
    (name.to_string(), (0..count).map(|_| term(rest)).collect())
}

fn term(rest: &mut Lines<'_>) -> Complex {
    let (word, more) = fields(rest);
    match word {
        "var" => Var::from(more.to_string()).into(),
        "con" => Const::from(more.to_string()).into(),
        "fun" => {
            let (name, terms) = application(more, rest);
            Func::from(name).app(terms)
        }
        _ => panic!("{LEGAL}"),
    }
}

pub fn tree(formula: &FOF) -> String {
    let mut out = String::new();
    write_formula(formula, &mut out);
    out
}

pub fn listing(clauses: &BTreeSet<Clause<Complex>>) -> String {
    let mut out = String::new();
    writeln!(out, "clauses\t{}", clauses.len()).expect(LEGAL);
    for clause in clauses {
        writeln!(out, "clause\t{}", clause.len()).expect(LEGAL);
        for literal in clause.iter() {
            let (sign, atom) = match literal {
                Literal::Pos(atom) => ("pos\n", atom),
                Literal::Neg(atom) => ("neg\n", atom),
            };
            out.push_str(sign);
            match atom {
                Atomic::Atom(atom) => write_application("pred\t", atom.predicate.name(), &atom.terms, &mut out),
                Atomic::Equals(equation) => write_equation(equation, &mut out),
            }
        }
    }
    out
}

fn write_formula(formula: &FOF, out: &mut String) {
    match formula {
        FOF::Top => out.push_str("top\n"),
        FOF::Bottom => out.push_str("bot\n"),
        FOF::Atom(atom) => write_application("pred\t", atom.predicate.name(), &atom.terms, out),
        FOF::Equals(equation) => write_equation(equation, out),
        FOF::Not(this) => write_parts("not\n", [&this.formula], out),
        FOF::And(this) => write_parts("and\n", [&this.left, &this.right], out),
        FOF::Or(this) => write_parts("or\n", [&this.left, &this.right], out),
        FOF::Implies(this) => write_parts("imp\n", [&this.premise, &this.consequence], out),
        FOF::Iff(this) => write_parts("iff\n", [&this.left, &this.right], out),
        FOF::Exists(this) => write_block("ex", &this.variables, &this.formula, out),
        FOF::Forall(this) => write_block("all", &this.variables, &this.formula, out),
    }
}

fn write_parts<const N: usize>(word: &str, parts: [&FOF; N], out: &mut String) {
    out.push_str(word);
    for part in parts {
        write_formula(part, out);
    }
}

fn write_block(word: &str, variables: &[Var], body: &FOF, out: &mut String) {
    out.push_str(word);
    for variable in variables {
        out.push('\t');
        out.push_str(variable.name());
    }
    out.push('\n');
    write_formula(body, out);
}

fn write_equation(equation: &Equals<Complex>, out: &mut String) {
    out.push_str("eq\n");
    write_term(&equation.left, out);
    write_term(&equation.right, out);
}

fn write_application(word: &str, name: &str, terms: &[Complex], out: &mut String) {
    out.push_str(word);
    out.push_str(name);
    writeln!(out, "\t{}", terms.len()).expect(LEGAL);
    for term in terms {
        write_term(term, out);
    }
}

fn write_named(word: &str, name: &str, out: &mut String) {
    out.push_str(word);
    out.push_str(name);
    out.push('\n');
}

fn write_term(term: &Complex, out: &mut String) {
    match term {
        Complex::Var(variable) => write_named("var\t", variable.name(), out),
        Complex::Const(constant) => write_named("con\t", constant.name(), out),
        Complex::App { function, terms } => write_application("fun\t", function.name(), terms, out),
    }
}
