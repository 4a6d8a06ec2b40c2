//! The hub program written a second time, from document 01, and what crates/hub is held to by it.
//!
//!     target/tests/hub_model stdin
//!     target/tests/hub_model stdout
//!     target/tests/hub_model stand-in
//!     target/tests/hub_model run PROGRAM [SEED]
//!
//! The first two write the input of the gate and what the program must print for it. The third is the program, as
//! the model has it, on standard input. The fourth compares the program, target/bin/hub, with the model, from the
//! repository's folder. It prints its seed, and the same seed makes the same inputs. The exit status is 0 where there
//! is no difference, 1 where there is one, and 2 where an argument is wrong.

#![allow(non_snake_case)] // the paper's names

mod compare;
mod inputs;
mod limits;
mod lines;
mod model;
mod orders;
mod parts;
mod pipes;
mod script;
#[path = "../shared/mod.rs"]
mod shared;

use compare::Bench;
use shared::random::Random;
use shared::seed::{seed, wrong};
use std::io::{stdin, stdout, Write};
use std::process::exit;
use std::time::Instant;

type Part = (&'static str, fn(&mut Bench) -> Result<String, String>);

const PARTS: [Part; 7] = [
    ("random inputs", parts::random_inputs),
    ("pieces", parts::pieces),
    ("orders of sets", orders::orders_of_sets),
    ("counts of lines", parts::counts),
    ("memory", limits::memory),
    ("noise", parts::any_bytes),
    ("refused output", limits::refused_output),
];

/// A part ends at its first difference. The next begins all the same, and from the seed.
fn run(program: &str, word: Option<&str>) -> ! {
    let seed = seed("hub_model", word);
    let mut failed = 0;
    for (name, part) in PARTS {
        let mut bench = Bench {
            program: program.into(),
            random: Random(seed),
            part: name,
        };
        let start = Instant::now();
        let done = part(&mut bench);
        failed += done.is_err() as usize;
        let said = done.unwrap_or_else(|why| format!("FAILED: {why}"));
        println!(
            "hub_model: {name}: {said}; {:.1} s",
            start.elapsed().as_secs_f64()
        );
    }
    println!("hub_model: {} parts, {failed} failed", PARTS.len());
    exit((failed != 0) as i32)
}

fn main() {
    let args: Vec<String> = std::env::args().skip(1).collect();
    let args: Vec<&str> = args.iter().map(|a| a.as_str()).collect();
    let written = match args[..] {
        ["stdin"] => stdout().write_all(&script::script().0),
        ["stdout"] => stdout().write_all(&script::script().1),
        ["stand-in"] => model::write_for(model::Lines(stdin().lock()), &mut stdout()),
        ["run", program] => run(program, None),
        ["run", program, word] => run(program, Some(word)),
        _ => wrong("usage: hub_model stdin | stdout | stand-in | run PROGRAM [SEED]"),
    };
    written.unwrap_or_else(|e| wrong(&format!("hub_model: {e}")));
}
