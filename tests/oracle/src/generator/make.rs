//! Trees in few words.
use razor_fol::syntax::formula::{Atom, Equals};
use razor_fol::syntax::term::Complex;
use razor_fol::syntax::{Const, Func, Var, FOF};

pub fn var(name: &str) -> Complex {
    Var::from(name).into()
}

pub fn con(name: &str) -> Complex {
    Const::from(name).into()
}

pub fn fun(name: &str, terms: Vec<Complex>) -> Complex {
    Func::from(name).app(terms)
}

pub fn pred(name: &str, terms: Vec<Complex>) -> FOF {
    Atom { predicate: name.into(), terms }.into()
}

/// A predicate on variables.
pub fn on(name: &str, variables: &[&str]) -> FOF {
    pred(name, variables.iter().map(|variable| var(variable)).collect())
}

pub fn eq(left: Complex, right: Complex) -> FOF {
    Equals { left, right }.into()
}

pub fn not(part: FOF) -> FOF {
    FOF::not(part)
}

fn variables(names: &[&str]) -> Vec<Var> {
    names.iter().map(|name| Var::from(*name)).collect()
}

pub fn all(names: &[&str], body: FOF) -> FOF {
    FOF::forall(variables(names), body)
}

pub fn ex(names: &[&str], body: FOF) -> FOF {
    FOF::exists(variables(names), body)
}

pub type Join = fn(FOF, FOF) -> FOF;

/// Parts joined in pairs, so that many of them stay shallow.
pub fn balanced(join: Join, parts: Vec<FOF>) -> FOF {
    let mut level = parts;
    while level.len() > 1 {
        let mut joined = Vec::new();
        let mut rest = level.into_iter();
        while let Some(left) = rest.next() {
            joined.push(match rest.next() {
                Some(right) => join(left, right),
                None => left,
            });
        }
        level = joined;
    }
    level.pop().expect("there are parts to join")
}

/// a joined to (b joined to (c ...)).
pub fn to_the_right(join: Join, parts: Vec<FOF>) -> FOF {
    parts.into_iter().rev().reduce(|rest, part| join(part, rest)).expect("there are parts to join")
}

/// `stem` with a number for each of `count`.
pub fn numbered(stem: &str, count: usize) -> Vec<String> {
    (1..=count).map(|number| format!("{stem}{number}")).collect()
}

/// Names as the block makers take them.
pub fn borrowed(names: &[String]) -> Vec<&str> {
    names.iter().map(String::as_str).collect()
}

/// Predicates without arguments, all different.
pub fn propositions(stem: &str, count: usize) -> Vec<FOF> {
    numbered(stem, count).iter().map(|name| pred(name, Vec::new())).collect()
}
