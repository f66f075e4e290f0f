//! generate: rules for comparing, as a complete input of the file program. The same arguments give the same bytes.
mod generator;

use generator::{families, Rule};
use oracle::convert::NAMES;
use std::io::Write;
use std::process::exit;

const USAGE: &str = "usage: generate FAMILY CONVERSION SEED COUNT";

fn fail(message: &str) -> ! {
    eprintln!("generate: {message}\n{USAGE}");
    eprintln!("  FAMILY      {}", families::NAMES.join(" "));
    eprintln!("  CONVERSION  {}", NAMES.join(" "));
    eprintln!("  SEED COUNT  numbers; a family with fewer rules than COUNT gives all it has, in order");
    exit(2)
}

fn number(word: &str, what: &str) -> u64 {
    word.parse().unwrap_or_else(|_| fail(&format!("{what} must be a number, not '{word}'")))
}

fn input(conversion: &str, rules: &[Rule]) -> Vec<u8> {
    let mut out = format!("do\t{conversion}\n").into_bytes();
    for rule in rules {
        out.extend_from_slice(b"rule\t");
        out.extend_from_slice(&rule.label);
        out.push(b'\n');
        out.extend_from_slice(&rule.text);
    }
    out
}

fn main() {
    let arguments: Vec<String> = std::env::args().skip(1).collect();
    let [family, conversion, seed, count] = &arguments[..] else {
        fail("four arguments are needed");
    };
    let Some(conversion) = NAMES.into_iter().find(|name| name == conversion) else {
        fail(&format!("no conversion '{conversion}'"));
    };
    let (seed, count) = (number(seed, "SEED"), number(count, "COUNT"));
    let Some(rules) = families::rules(family, conversion, seed, count) else {
        fail(&format!("no family '{family}'"));
    };
    if let Err(error) = std::io::stdout().write_all(&input(conversion, &rules)) {
        fail(&format!("cannot write the rules: {error}"));
    }
}
