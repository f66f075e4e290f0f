//! Small rules counted through: the n-th of all trees over a few leaves, blocks and connectives, without making the others.
use super::make::{all, con, eq, ex, fun, not, on, pred, var, Join};
use razor_fol::syntax::FOF;

type Wrap = Box<dyn Fn(FOF) -> FOF>;

/// All trees of 1 to `sizes` inner nodes and leaves; a leaf, whatever its terms, counts one.
pub struct Trees {
    leaves: Vec<FOF>,
    wraps: Vec<Wrap>,
    joins: Vec<Join>,
    counts: Vec<u64>,
}

impl Trees {
    fn new(leaves: Vec<FOF>, wraps: Vec<Wrap>, joins: Vec<Join>, sizes: usize) -> Self {
        let mut trees = Trees { leaves, wraps, joins, counts: Vec::new() };
        for size in 1..=sizes {
            let count = trees.count_of(size);
            trees.counts.push(count);
        }
        trees
    }

    fn known(&self, size: usize) -> u64 {
        self.counts[size - 1]
    }

    fn count_of(&self, size: usize) -> u64 {
        if size == 1 {
            return self.leaves.len() as u64;
        }
        let wrapped = self.wraps.len() as u64 * self.known(size - 1);
        let pairs: u64 = (1..size - 1).map(|left| self.known(left) * self.known(size - 1 - left)).sum();
        wrapped + self.joins.len() as u64 * pairs
    }

    pub fn total(&self) -> u64 {
        self.counts.iter().sum()
    }

    pub fn nth(&self, mut index: u64) -> FOF {
        let mut size = 1;
        while index >= self.known(size) {
            index -= self.known(size);
            size += 1;
        }
        self.of_size(size, index)
    }

    fn of_size(&self, size: usize, mut index: u64) -> FOF {
        if size == 1 {
            return self.leaves[index as usize].clone();
        }
        let inner = self.known(size - 1);
        let wrapped = self.wraps.len() as u64 * inner;
        if index < wrapped {
            let wrap = &self.wraps[(index / inner) as usize];
            return wrap(self.of_size(size - 1, index % inner));
        }
        index -= wrapped;
        for left in 1..size - 1 {
            let right = size - 1 - left;
            let pairs = self.known(left) * self.known(right);
            let here = self.joins.len() as u64 * pairs;
            if index < here {
                let (join, pair) = (self.joins[(index / pairs) as usize], index % pairs);
                let (first, second) = (pair / self.known(right), pair % self.known(right));
                return join(self.of_size(left, first), self.of_size(right, second));
            }
            index -= here;
        }
        unreachable!("an index below the count of its size")
    }
}

/// All prefixes of 0 to `blocks` blocks before each of a few matrices.
pub struct Prefixed {
    blocks: Vec<Wrap>,
    longest: u32,
    matrices: Vec<FOF>,
}

impl Prefixed {
    fn of_length(&self, length: u32) -> u64 {
        (self.blocks.len() as u64).pow(length) * self.matrices.len() as u64
    }

    pub fn total(&self) -> u64 {
        (0..=self.longest).map(|length| self.of_length(length)).sum()
    }

    pub fn nth(&self, mut index: u64) -> FOF {
        let mut length = 0;
        while index >= self.of_length(length) {
            index -= self.of_length(length);
            length += 1;
        }
        let matrices = self.matrices.len() as u64;
        let mut tree = self.matrices[(index % matrices) as usize].clone();
        index /= matrices;
        for _ in 0..length {
            let blocks = self.blocks.len() as u64;
            tree = self.blocks[(index % blocks) as usize](tree);
            index /= blocks;
        }
        tree
    }
}

type Block = fn(&[&str], FOF) -> FOF;

// Each quantifier with each list of variables.
fn blocks(quantifiers: &[Block], lists: &[&'static [&'static str]]) -> Vec<Wrap> {
    let pairs = quantifiers.iter().flat_map(|&quantifier| lists.iter().map(move |&list| (quantifier, list)));
    pairs.map(|(quantifier, list)| Box::new(move |body| quantifier(list, body)) as Wrap).collect()
}

fn with_not(mut blocks: Vec<Wrap>) -> Vec<Wrap> {
    blocks.push(Box::new(not));
    blocks
}

/// Two names that collide as soon as one takes a backtick; few enough to count all trees of six nodes.
pub fn colliding() -> Trees {
    let leaves = vec![on("P", &["x"]), on("P", &["x`"]), FOF::Bottom];
    let blocks = blocks(&[all, ex], &[&["x"], &["x`"], &["x", "x`"]]);
    Trees::new(leaves, with_not(blocks), vec![FOF::and, FOF::implies, FOF::iff], 6)
}

/// Shadowed, repeated and vacuous block variables, constants, equations, terms in terms, one name with two numbers of arguments.
pub fn varied() -> Trees {
    let leaves = vec![
        FOF::Top,
        FOF::Bottom,
        on("P", &["x"]),
        on("P", &["x`", "y"]),
        on("P", &["y", "x"]),
        pred("P", vec![fun("f", vec![var("y"), fun("f", vec![var("x")])])]),
        eq(var("x"), con("x")),
        eq(fun("f", vec![]), var("x`")),
        pred("Q", vec![]),
    ];
    let blocks = blocks(
        &[all, ex],
        &[&["x"], &["y"], &["x`"], &["x", "y"], &["y", "x"], &["x", "x"], &["x", "x`"], &["y", "x", "y"]],
    );
    Trees::new(leaves, with_not(blocks), vec![FOF::and, FOF::or, FOF::implies, FOF::iff], 5)
}

/// No block: for the clause forms. The leaves differ in each thing that the order of literals looks at. `ten` and `two` are constants.
pub fn unquantified(ten: &str, two: &str) -> Trees {
    let leaves = vec![
        FOF::Top,
        FOF::Bottom,
        pred("A", vec![]),
        on("A", &["x"]),
        on("A", &["x", "y"]),
        pred("A", vec![con(ten)]),
        pred("A", vec![con(two)]),
        pred("A", vec![fun("c", vec![var("x0")])]),
        on("A", &["x`"]),
        on("B", &["x"]),
        eq(var("x"), con("c")),
        eq(con("c"), var("x")),
    ];
    let joins: Vec<Join> = vec![FOF::and, FOF::or, FOF::implies, FOF::iff];
    Trees::new(leaves, vec![Box::new(not)], joins, 7)
}

const LISTS: [&[&str]; 7] = [&["x"], &["y"], &["z"], &["x", "y"], &["y", "x"], &["x", "x"], &["y", "x", "y"]];

fn matrices() -> Vec<FOF> {
    vec![
        on("P", &["x", "y", "z"]),
        on("P", &["z", "y", "x", "w"]),
        FOF::iff(on("P", &["y"]), not(eq(fun("f", vec![var("x")]), var("w")))),
        pred("P", vec![fun("f", vec![var("x"), var("x")]), con("x")]),
        FOF::Top,
    ]
}

/// Prefixes that bind, rebind and repeat three names.
pub fn prenex() -> Prefixed {
    Prefixed { blocks: blocks(&[all, ex], &LISTS), longest: 4, matrices: matrices() }
}

/// The same with forall blocks only.
pub fn skolem() -> Prefixed {
    Prefixed { blocks: blocks(&[all], &LISTS), longest: 3, matrices: matrices() }
}
