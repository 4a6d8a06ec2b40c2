//! The key ledger written a second time, from document 01, F-2, F-3 and F-4, and what crates/ledger_script is held to
//! by it.
//!
//!     target/tests/ledger_model stdin
//!     target/tests/ledger_model stdout
//!     target/tests/ledger_model run PROGRAM [SEED]
//!
//! The first two write the script of the gate and what it must print. The third runs the script, a long run of
//! heartbeats, 10,000 random lists of calls and 2,000 on several ledgers of one key through the program,
//! target/bin/ledger_script, and compares each line: the answer, each field of the ledger and the output. In the
//! program's own lines it looks for a nonce that was accepted on two consoles of one key, or that begins with another
//! number than its console's; it holds each accepted sealing by name of data that the program kept to cba_seal, and
//! each total in a list of calls from a fresh ledger to the sum of the charges. It prints its seed, and the same seed
//! makes the same run. The exit status is 0 where there is no difference and no such nonce, 1 where there is one, and 2
//! where an argument is wrong.

#![allow(non_snake_case)] // the paper's names

mod calls;
mod compared;
mod consoles;
mod headings;
mod ledgers;
#[path = "../library/mod.rs"]
mod library;
mod lists;
mod long_run;
mod model;
mod model_calls;
mod nonces;
mod numbers;
mod plain;
mod records;
mod script;
mod script_borders;
mod script_carryings;
mod script_consoles;
mod script_headings;
mod script_heartbeats;
mod script_keepings;
mod script_order;
mod script_sums;
mod seen;
mod seen_headings;
mod seen_heartbeats;
#[path = "../shared/mod.rs"]
mod shared;
mod show;
mod steps;
mod totals;

use compared::Compared;
use consoles::Nonces;
use lists::{list, one_key, List};
use long_run::long_run;
use records::Record;
use script::script;
use seen::Seen;
use shared::programs::act;
use shared::random::Random;
use shared::seed::seed;
use show::show;
use std::process::exit;
use std::time::Instant;

const LISTS: usize = 10_000;
const ONE_KEY: usize = 2_000; // lists on ledgers of one key

fn run(program: &str, word: Option<&str>) -> ! {
    let mut random = Random(seed("ledger_model", word));
    let start = Instant::now();
    let of_script = Compared::new(program, &[script().into()]);
    let of_long_run = Compared::new(program, &[long_run().into()]);
    let (mut seen, mut seen_one_key) = (Seen::default(), Seen::default());
    let mut lists: Vec<List> = (0..LISTS).map(|_| list(&mut random, &mut seen)).collect();
    lists.extend((0..ONE_KEY).map(|_| one_key(&mut random, &mut seen_one_key)));
    let of_lists = Compared::new(program, &lists);
    let nonces = Nonces::read(&lists, LISTS, &of_lists.found);

    show(&seen);
    nonces.show(ONE_KEY);
    of_script.show("the script");
    of_long_run.show("the long run");
    of_lists.show(&format!("{LISTS} and {ONE_KEY} lists"));
    println!("ledger_model: {:.1} s", start.elapsed().as_secs_f64());
    let all = [&of_script, &of_long_run, &of_lists];
    if all.iter().any(|part| part.wrong()) || nonces.wrong() {
        exit(1);
    }
    seen.all();
    nonces.many();
    of_script.plain.many(100);
    of_lists.plain.many(10_000);
    of_lists.totals.many();
    exit(0)
}

fn main() {
    let records = || script().records.iter().flat_map(Record::bytes).collect();
    act("ledger_model", records, || script().lines, run)
}
