//! Rule text into the Rust's tree, with document 01's refusals 2 and 3 and their lines.
use crate::limits::{malformed, too_large, Refusal, ARGUMENTS, BLOCK, DEPTH, LINE, WEIGHT};
use crate::names::{is_plain, is_symbol, is_variable};
use razor_fol::syntax::formula::{Atom, Equals};
use razor_fol::syntax::term::Complex;
use razor_fol::syntax::{Const, Func, Var, FOF};

#[derive(Clone, Copy, PartialEq)]
enum Sort {
    Formula,
    Term,
}

enum Node {
    Constant(FOF),
    Negation,
    Binary(fn(FOF, FOF) -> FOF),
    Block(fn(Vec<Var>, FOF) -> FOF, Vec<Var>),
    Equation,
    Predicate(String, usize),
    Function(String, usize),
    Leaf(Complex),
}

impl Node {
    fn sort(&self) -> Sort {
        match self {
            Node::Function(..) | Node::Leaf(_) => Sort::Term,
            _ => Sort::Formula,
        }
    }

    // How many parts follow, and of which sort.
    fn parts(&self) -> (usize, Sort) {
        match self {
            Node::Constant(_) | Node::Leaf(_) => (0, Sort::Term),
            Node::Negation | Node::Block(..) => (1, Sort::Formula),
            Node::Binary(_) => (2, Sort::Formula),
            Node::Equation => (2, Sort::Term),
            Node::Predicate(_, count) | Node::Function(_, count) => (*count, Sort::Term),
        }
    }

    fn weight(&self) -> u128 {
        match self {
            Node::Block(_, variables) => 1 + variables.len() as u128,
            _ => 1,
        }
    }
}

/// A line with its LF taken off; `ended` says whether it had one.
pub struct Line<'a> {
    pub bytes: &'a [u8],
    pub ended: bool,
}

/// The lines of a text. A text without a byte has none.
pub fn lines(text: &[u8]) -> Vec<Line<'_>> {
    text.split_inclusive(|&byte| byte == b'\n')
        .map(|line| match line.strip_suffix(b"\n") {
            Some(bytes) => Line { bytes, ended: true },
            None => Line { bytes: line, ended: false },
        })
        .collect()
}

/// The rule that a text writes, or the earliest refusal.
pub fn read(text: &[Line<'_>]) -> Result<FOF, Refusal> {
    let nodes = nodes(text)?;
    let mut rest = nodes.into_iter();
    Ok(formula(&mut rest))
}

// The nodes of a complete tree within the limits, parent first.
fn nodes(text: &[Line<'_>]) -> Result<Vec<Node>, Refusal> {
    let mut nodes = Vec::new();
    let mut weight = 0;
    let mut open = vec![(Sort::Formula, 1)];
    for (index, line) in text.iter().enumerate() {
        let place = index + 1;
        let (sort, depth) = open.pop().ok_or(malformed(place))?;
        let node = node(line).filter(|node| node.sort() == sort).ok_or(malformed(place))?;
        weight += node.weight();
        if weight > WEIGHT || depth > DEPTH {
            return Err(too_large(place));
        }
        let (count, part) = node.parts();
        open.extend(std::iter::repeat((part, depth + 1)).take(count));
        nodes.push(node);
    }
    if open.is_empty() {
        Ok(nodes)
    } else {
        Err(malformed(text.len() + 1))
    }
}

// What a single line says, if it is a good line.
fn node(line: &Line<'_>) -> Option<Node> {
    if !line.ended || line.bytes.len() > LINE {
        return None;
    }
    let fields: Vec<&[u8]> = line.bytes.split(|&byte| byte == b'\t').collect();
    match fields[..] {
        [b"top"] => Some(Node::Constant(FOF::Top)),
        [b"bot"] => Some(Node::Constant(FOF::Bottom)),
        [b"not"] => Some(Node::Negation),
        [b"and"] => Some(Node::Binary(FOF::and)),
        [b"or"] => Some(Node::Binary(FOF::or)),
        [b"imp"] => Some(Node::Binary(FOF::implies)),
        [b"iff"] => Some(Node::Binary(FOF::iff)),
        [b"eq"] => Some(Node::Equation),
        [b"all", ref variables @ ..] => Some(Node::Block(FOF::forall, block(variables)?)),
        [b"ex", ref variables @ ..] => Some(Node::Block(FOF::exists, block(variables)?)),
        [b"pred", name, count] if is_plain(name) => Some(Node::Predicate(text(name), argument_count(count)?)),
        [b"fun", name, count] if is_symbol(name) => Some(Node::Function(text(name), argument_count(count)?)),
        [b"var", name] if is_variable(name) => Some(Node::Leaf(Var::from(text(name)).into())),
        [b"con", name] if is_symbol(name) => Some(Node::Leaf(Const::from(text(name)).into())),
        _ => None,
    }
}

fn block(names: &[&[u8]]) -> Option<Vec<Var>> {
    let fits = (1..=BLOCK).contains(&names.len()) && names.iter().all(|name| is_variable(name));
    fits.then(|| names.iter().map(|name| Var::from(text(name))).collect())
}

fn argument_count(digits: &[u8]) -> Option<usize> {
    (0..=ARGUMENTS).find(|count| count.to_string().as_bytes() == digits)
}

// Names are ASCII once they are found to be names.
fn text(name: &[u8]) -> String {
    String::from_utf8_lossy(name).into_owned()
}

const COUNTED: &str = "the nodes were counted: a complete tree of the right sorts";

fn formula(rest: &mut impl Iterator<Item = Node>) -> FOF {
    match rest.next().expect(COUNTED) {
        Node::Constant(constant) => constant,
        Node::Negation => FOF::not(formula(rest)),
        Node::Binary(join) => {
            let left = formula(rest);
            join(left, formula(rest))
        }
        Node::Block(bind, variables) => bind(variables, formula(rest)),
        Node::Equation => {
            let left = term(rest);
            Equals { left, right: term(rest) }.into()
        }
        Node::Predicate(name, count) => Atom { predicate: name.into(), terms: terms(rest, count) }.into(),
        Node::Function(..) | Node::Leaf(_) => panic!("{COUNTED}"),
    }
}

fn term(rest: &mut impl Iterator<Item = Node>) -> Complex {
    match rest.next().expect(COUNTED) {
        Node::Leaf(leaf) => leaf,
        Node::Function(name, count) => Func::from(name).app(terms(rest, count)),
        _ => panic!("{COUNTED}"),
    }
}

fn terms(rest: &mut impl Iterator<Item = Node>, count: usize) -> Vec<Complex> {
    (0..count).map(|_| term(rest)).collect()
}
