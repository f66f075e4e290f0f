//! Random rules of any weight up to a little past the limit.
use super::chance::Chance;
use super::make::{con, eq, fun, not, pred, var};
use oracle::names::is_reserved;
use razor_fol::syntax::term::Complex;
use razor_fol::syntax::{Var, FOF};

const VARIABLES: [&str; 10] = ["x", "y", "x`", "z", "x``", "y`", "x0", "_", "P", "c"];
const LONG_VARIABLES: [&str; 3] = ["v23456789012345678901234", "v2345678901234567890123", "v234567890123456789012``"];
const PREDICATES: [&str; 6] = ["P", "Q", "R", "p", "P0", "x"];
const CONSTANTS: [&str; 5] = ["c", "d", "c0", "x", "C"];
const RESERVED_CONSTANTS: [&str; 4] = ["c#0", "c#10", "c#2", "c#"];
const FUNCTIONS: [&str; 4] = ["f", "g", "c", "F"];
const RESERVED_FUNCTIONS: [&str; 3] = ["f#0", "f##", "f#10"];

/// Where a random rule may have blocks.
#[derive(Clone, Copy, PartialEq)]
pub enum Shape {
    Any,
    Prenex,
    Skolem,
}

/// How a rule's names and connectives are chosen: settled once for a rule, so that rules differ in kind and not only in detail.
struct Taste {
    variables: usize,
    long_names: bool,
    reserved_names: bool,
    blocks: bool,
    // Top and bottom: with them, simplify leaves little of a heavy rule.
    constants: bool,
    // How often, in five, a binary node is the more frequent one of and, or.
    evenness: usize,
    more_and: bool,
}

pub struct Random {
    chance: Chance,
    shape: Shape,
    reserved: bool,
}

impl Random {
    /// `reserved` says that names with `#` are ordinary input for the conversion.
    pub fn new(seed: u64, shape: Shape, reserved: bool) -> Self {
        Random { chance: Chance::new(seed), shape, reserved }
    }

    pub fn rule(&mut self, heaviest: usize) -> FOF {
        let weight = self.chance.spread(3, heaviest);
        let taste = self.taste();
        let mut writer = Writer { chance: &mut self.chance, taste };
        if writer.taste.blocks {
            return writer.formula(weight, 60);
        }
        let quantifiers: &[fn(Vec<Var>, FOF) -> FOF] = match self.shape {
            Shape::Skolem => &[FOF::forall],
            _ => &[FOF::forall, FOF::exists],
        };
        writer.prefixed(quantifiers, weight)
    }

    fn taste(&mut self) -> Taste {
        let odd_one = self.chance.once_in(25);
        Taste {
            variables: 1 + self.chance.below(VARIABLES.len()),
            long_names: self.chance.once_in(12),
            reserved_names: if self.reserved { self.chance.once_in(2) } else { odd_one },
            blocks: self.shape == Shape::Any || self.chance.once_in(25),
            constants: self.chance.once_in(3),
            evenness: self.chance.below(6),
            more_and: self.chance.once_in(2),
        }
    }
}

struct Writer<'a> {
    chance: &'a mut Chance,
    taste: Taste,
}

impl Writer<'_> {
    fn variable(&mut self) -> &'static str {
        if self.taste.long_names && self.chance.once_in(3) {
            return self.chance.choose(&LONG_VARIABLES);
        }
        let known = self.taste.variables;
        self.chance.choose(&VARIABLES[..known])
    }

    // One of the ordinary names, or now and then of those with `#`.
    fn symbol(&mut self, ordinary: &[&'static str], reserved: &[&'static str]) -> &'static str {
        let from = if self.taste.reserved_names && self.chance.once_in(2) { reserved } else { ordinary };
        let name = self.chance.choose(from);
        debug_assert!(self.taste.reserved_names || !is_reserved(name));
        name
    }

    fn block(&mut self) -> Vec<Var> {
        let long = if self.chance.once_in(40) { 32 } else { 3 };
        let length = 1 + self.chance.below(long);
        (0..length).map(|_| Var::from(self.variable())).collect()
    }

    fn prefixed(&mut self, quantifiers: &[fn(Vec<Var>, FOF) -> FOF], weight: usize) -> FOF {
        let length = self.chance.below(2 + weight.min(40) / 4);
        self.taste.blocks = false;
        let mut tree = self.formula(weight.saturating_sub(3 * length).max(2), 60 - length);
        for _ in 0..length {
            let quantifier = self.chance.choose(quantifiers);
            let variables = self.block();
            tree = quantifier(variables, tree);
        }
        tree
    }

    // A formula of about this weight that is not deeper than `depth`.
    fn formula(&mut self, weight: usize, depth: usize) -> FOF {
        if weight < 4 || depth < 4 {
            return self.atom(weight, depth);
        }
        let kinds = if self.taste.blocks { 10 } else { 7 };
        match self.chance.below(kinds) {
            0 => not(self.formula(weight - 1, depth - 1)),
            1..=6 => self.binary(weight, depth),
            _ => {
                let variables = self.block();
                let rest = weight.saturating_sub(1 + variables.len()).max(2);
                let body = self.formula(rest, depth - 1);
                if self.chance.once_in(2) {
                    FOF::forall(variables, body)
                } else {
                    FOF::exists(variables, body)
                }
            }
        }
    }

    fn binary(&mut self, weight: usize, depth: usize) -> FOF {
        let left_weight = 1 + self.chance.below(weight - 2);
        let left = self.formula(left_weight, depth - 1);
        let right = self.formula(weight - 1 - left_weight, depth - 1);
        let kind = self.chance.below(12);
        match kind {
            0 => left.iff(right),
            1 | 2 => left.implies(right),
            _ => {
                let frequent = self.chance.below(5) >= self.taste.evenness;
                if frequent == self.taste.more_and {
                    left.and(right)
                } else {
                    left.or(right)
                }
            }
        }
    }

    fn atom(&mut self, weight: usize, depth: usize) -> FOF {
        match self.chance.below(14) {
            0 if self.taste.constants => FOF::Top,
            1 if self.taste.constants => FOF::Bottom,
            2 | 3 if depth > 1 => eq(self.term(weight / 2, depth - 1), self.term(weight / 2, depth - 1)),
            _ => {
                let name = self.chance.choose(&PREDICATES);
                pred(name, self.terms(weight, depth))
            }
        }
    }

    fn terms(&mut self, weight: usize, depth: usize) -> Vec<Complex> {
        let many = if self.chance.once_in(60) { 32 } else { 3 };
        let count = if depth > 1 { self.chance.below(many + 1) } else { 0 };
        (0..count).map(|_| self.term(weight / 3, depth - 1)).collect()
    }

    fn term(&mut self, weight: usize, depth: usize) -> Complex {
        match self.chance.below(if weight > 0 && depth > 1 { 9 } else { 6 }) {
            0..=4 => var(self.variable()),
            5 => con(self.symbol(&CONSTANTS, &RESERVED_CONSTANTS)),
            _ => {
                let name = self.symbol(&FUNCTIONS, &RESERVED_FUNCTIONS);
                fun(name, self.terms(weight - 1, depth))
            }
        }
    }
}
