//! Ours and the Rust beside each other, in one run: a table of medians and ratios. Each row is timed in turns, ours, the Rust from text
//! to text, the Rust from tree to tree, so that what else the machine does hits all three. Before a row is timed both texts are
//! held to be the same.
mod clock;
mod rows;
#[path = "../../../bindings/rust/tests/rules/mod.rs"]
mod rules;
mod rust_text;

use clock::of_this_thread;
use oracle::shapes;
use razor_fol::syntax::FOF;
use razor_fol::transform::{ToCNF, ToDNF, ToNNF, ToPNF, ToSNF, PNF, SNF};
use rows::{rows, Row};
use std::hint::black_box;
use std::time::Duration;
use wasileko::{convert_into, Conversion, WORK};

const ROUNDS: usize = 15;
const LEAST: Duration = Duration::from_millis(2);
const OUT: usize = 1 << 20;

// What the Rust starts from: a rule, or the value of its own that a rule in that form is.
enum Start {
    Rule(FOF),
    Prenex(PNF),
    Skolem(SNF),
}

const FORM: &str = "a rule that is timed has the form that its conversion starts from";

fn start(conversion: Conversion, text: &[u8]) -> Start {
    let rule = rust_text::read(text);
    match conversion {
        Conversion::PnfSnf => Start::Prenex(shapes::prenex(&rule).expect(FORM)),
        Conversion::SnfCnf | Conversion::SnfDnf => Start::Skolem(shapes::skolem(&rule).expect(FORM)),
        _ => Start::Rule(rule),
    }
}

// The Rust's conversion of its own tree; `show` says what is done with the result.
fn converted<T>(conversion: Conversion, start: &Start, show: impl Fn(Form) -> T) -> T {
    show(match (conversion, start) {
        (Conversion::Simplify, Start::Rule(rule)) => Form::Tree(rule.simplify()),
        (Conversion::Nnf, Start::Rule(rule)) => Form::Negation(rule.nnf()),
        (Conversion::Pnf, Start::Rule(rule)) => Form::Prenex(rule.pnf()),
        (Conversion::Snf, Start::Rule(rule)) => Form::Skolem(rule.snf()),
        (Conversion::Cnf, Start::Rule(rule)) => Form::Conjunctive(rule.cnf()),
        (Conversion::Dnf, Start::Rule(rule)) => Form::Disjunctive(rule.dnf()),
        (Conversion::PnfSnf, Start::Prenex(form)) => Form::Skolem(form.snf()),
        (Conversion::SnfCnf, Start::Skolem(form)) => Form::Conjunctive(form.cnf()),
        (Conversion::SnfDnf, Start::Skolem(form)) => Form::Disjunctive(form.dnf()),
        _ => unreachable!(),
    })
}

enum Form {
    Tree(FOF),
    Negation(razor_fol::transform::NNF),
    Prenex(PNF),
    Skolem(SNF),
    Conjunctive(razor_fol::transform::CNF),
    Disjunctive(razor_fol::transform::DNF),
}

fn written(form: Form) -> String {
    match form {
        Form::Tree(form) => rust_text::tree(&form),
        Form::Negation(form) => rust_text::tree(&form.into()),
        Form::Prenex(form) => rust_text::tree(&(&form).into()),
        Form::Skolem(form) => rust_text::tree(&(&form).into()),
        Form::Conjunctive(form) => rust_text::listing(&form.into_clauses()),
        Form::Disjunctive(form) => rust_text::listing(&form.into_clauses()),
    }
}

// How often a task is done so that a measurement lasts a while.
fn times(task: &mut dyn FnMut()) -> u32 {
    let mut times = 1;
    loop {
        if once(times, task) >= LEAST || times >= 1 << 20 {
            return times;
        }
        times *= 2;
    }
}

fn once(times: u32, task: &mut dyn FnMut()) -> Duration {
    let begun = of_this_thread();
    for _ in 0..times {
        task();
    }
    of_this_thread() - begun
}

// The medians of some tasks that are timed in turns, in microseconds a task.
fn medians<const N: usize>(mut tasks: [&mut dyn FnMut(); N]) -> [f64; N] {
    let times: Vec<u32> = tasks.iter_mut().map(|task| times(*task)).collect();
    let mut taken = vec![Vec::new(); N];
    for _ in 0..ROUNDS {
        for (at, task) in tasks.iter_mut().enumerate() {
            taken[at].push(once(times[at], *task).as_secs_f64() * 1e6 / f64::from(times[at]));
        }
    }
    std::array::from_fn(|at| {
        taken[at].sort_by(f64::total_cmp);
        taken[at][ROUNDS / 2]
    })
}

fn same_answers(conversion: Conversion, row: &Row, out: &mut [u8], work: &mut [u8]) {
    for rule in &row.rules {
        let length = convert_into(conversion, rule, out, work).unwrap_or_else(|refusal| panic!("{}, {}: {refusal}", conversion.name(), row.what));
        let rust = converted(conversion, &start(conversion, rule), written);
        assert!(out[..length] == *rust.as_bytes(), "{}, {}: the texts differ", conversion.name(), row.what);
    }
}

fn timed(conversion: Conversion, row: &Row) -> [f64; 3] {
    let (mut out, mut work) = (vec![0; OUT], vec![0; WORK]);
    same_answers(conversion, row, &mut out, &mut work);
    let starts: Vec<Start> = row.rules.iter().map(|rule| start(conversion, rule)).collect();
    let mut ours = || {
        for rule in &row.rules {
            black_box(convert_into(conversion, black_box(rule), &mut out, &mut work)).ok();
        }
    };
    let mut text_to_text = || {
        for rule in &row.rules {
            black_box(converted(conversion, &start(conversion, black_box(rule)), written));
        }
    };
    let mut tree_to_tree = || {
        for start in &starts {
            converted(conversion, black_box(start), |form| drop(black_box(form)));
        }
    };
    medians([&mut ours, &mut text_to_text, &mut tree_to_tree])
}

// Microseconds, or milliseconds where there are many.
fn shown(microseconds: f64) -> String {
    match microseconds {
        few if few < 1e3 => format!("{few:.1} µs"),
        many => format!("{:.2} ms", many / 1e3),
    }
}

fn main() {
    let asked: Vec<String> = std::env::args().skip(1).collect();
    println!("| conversion | of | ours | the Rust, text to text | ratio | the Rust, tree to tree | ratio |");
    println!("|---|---|---:|---:|---:|---:|---:|");
    for conversion in Conversion::ALL {
        if !asked.is_empty() && !asked.iter().any(|name| name == conversion.name()) {
            continue;
        }
        for row in rows(conversion) {
            let [ours, text, tree] = timed(conversion, &row);
            let (to_text, to_tree) = (ours / text, ours / tree);
            println!(
                "| `{}` | {} | {} | {} | {to_text:.3} | {} | {to_tree:.3} |",
                conversion.name(),
                row.what,
                shown(ours),
                shown(text),
                shown(tree)
            );
        }
    }
}
