//! oracle: standard input to standard output, as document 01's file program, with the given Rust's answers.
//!
//! In place of a result it prints `panic` where the Rust panics, and `slow` where document 01 gives a result but the Rust
//! would not come to an end in reasonable time. Nothing is printed before all of the input is answered.
use oracle::program;
use std::io::{Read, Write};
use std::process::exit;

// The Rust recurses once for each node on a path, in trees that it makes itself.
const STACK: usize = 2 << 30;

const USAGE: &str = "usage: oracle < INPUT > OUTPUT (no arguments; the first line of the input names the conversion)";

fn fail(message: &str) -> ! {
    eprintln!("oracle: {message}");
    exit(2)
}

fn main() {
    if std::env::args().len() > 1 {
        fail(USAGE);
    }
    let mut input = Vec::new();
    if let Err(error) = std::io::stdin().read_to_end(&mut input) {
        fail(&format!("cannot read the input: {error}"));
    }
    std::panic::set_hook(Box::new(|_| {}));
    let work = std::thread::Builder::new().stack_size(STACK).spawn(move || program::output(&input));
    let output = match work.map(|thread| thread.join()) {
        Ok(Ok(output)) => output,
        Ok(Err(_)) => fail("stopped by a fault of its own"),
        Err(error) => fail(&format!("no thread with {STACK} bytes of stack: {error}")),
    };
    if let Err(error) = std::io::stdout().write_all(output.as_bytes()) {
        fail(&format!("cannot write the output: {error}"));
    }
}
