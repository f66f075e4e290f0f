//! The stack that a call needs: the worst legal rules in a thread of its own.
mod rules;

use rules::*;
use std::env;
use std::process::{Command, Stdio};
use std::thread;
use wasileko::{convert_into, Conversion, WORK};

// KiB.
const ENOUGH: usize = 512;
const GIVEN: &str = "WASILEKO_STACK";
const ASKED: &str = "WASILEKO_CONVERSION";

// Rules of the greatest depth in each kind of node, and of the greatest weight. Not every conversion accepts each of them.
fn worst_rules() -> Vec<Vec<u8>> {
    let px = "pred P 1 / var x";
    let wide = numbered("x", 32);
    let wide_block = format!("all {}", wide.join(" "));
    let deep_term = |depth: usize| format!("pred P 1 / {}", under("fun f 1", depth, "var x"));
    let quantified = ["ex x / pred P 1 / var x", "all y / pred Q 1 / var y", "ex z / pred R 1 / var z", "pred S 1 / var x"].map(String::from);
    let mut rules = vec![
        under("not", 63, "pred P 0"),
        deep_term(62),
        balanced("and", &vec![deep_term(50); 16]),
        under("all x", 62, px),
        under("ex x", 62, px),
        under("all x / ex y", 31, px),
        under(&wide_block, 29, &atom("P", &wide)),
        under("not / ex x", 31, px),
        balanced("and", &vec![atom("P", &wide); 30]),
        iff_chain(8),
        iff_chain(60),
        to_the_right("iff", &quantified),
        in_turn(),
        heavy(),
        heavy_negated(),
        colliding("ex"),
        colliding("all"),
        side_by_side("ex"),
        nested("ex", 58, 6),
        nested("all", 15, 32),
        before_existential(32),
        pairs("or", "and", 8),
        pairs("and", "or", 8),
        balanced("and", &atoms(256)),
        balanced("or", &atoms(512)),
    ];
    for join in ["and", "or", "imp", "iff"] {
        rules.push(to_the_right(join, &vec![px.to_string(); 62]));
        rules.push(to_the_left(join, &vec![px.to_string(); 62]));
    }
    rules.iter().map(|rule| lines(rule)).collect()
}

fn convert_all(conversions: Vec<Conversion>, stack: usize) {
    let (mut out, mut work) = (vec![0; 1 << 20], vec![0; WORK]);
    let rules = worst_rules();
    let run = move || {
        for conversion in conversions {
            for rule in &rules {
                let answer = convert_into(conversion, rule, &mut out, &mut work);
                assert!(answer.map_or_else(|refusal| refusal.number > 3, |_| true), "a legal rule");
            }
        }
    };
    thread::Builder::new().stack_size(stack * 1024).spawn(run).unwrap().join().unwrap();
}

#[test]
fn a_small_stack_is_enough() {
    convert_all(Conversion::ALL.to_vec(), ENOUGH);
}

// Run by the search below in a process of its own, which ends badly where the stack is too small.
#[test]
#[ignore]
fn in_the_given_stack() {
    let asked = env::var(ASKED).unwrap();
    let conversions = Conversion::ALL.into_iter().filter(|conversion| conversion.name() == asked).collect();
    convert_all(conversions, env::var(GIVEN).unwrap().parse().unwrap());
}

/// `cargo test --release --test stack -- --ignored --nocapture least_stacks` prints the least stack of each conversion, in KiB.
#[test]
#[ignore]
fn least_stacks() {
    let is_enough = |conversion: Conversion, stack: usize| {
        let mut child = Command::new(env::current_exe().unwrap());
        child.args(["--ignored", "--exact", "in_the_given_stack"]).env(GIVEN, stack.to_string()).env(ASKED, conversion.name());
        child.stdout(Stdio::null()).stderr(Stdio::null()).status().unwrap().success()
    };
    for conversion in Conversion::ALL {
        let (mut too_small, mut enough) = (0, 8192);
        while enough - too_small > 4 {
            let middle = (too_small + enough) / 2;
            if is_enough(conversion, middle) {
                enough = middle;
            } else {
                too_small = middle;
            }
        }
        println!("{:9} {enough:5} KiB", conversion.name());
    }
}
