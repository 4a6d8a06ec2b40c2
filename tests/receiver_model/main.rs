//! The receiver written a second time, from F-7 and document 01, and what crates/receiver_script is held to by it.
//!
//!     target/tests/receiver_model stdin
//!     target/tests/receiver_model stdout
//!     target/tests/receiver_model run PROGRAM [SEED]
//!
//! The first two write the script of the gate and what it must print. The third runs the script, the longest pieces
//! and 10,000 random lists of openings through the program, target/bin/receiver_script, and compares each line: the
//! answer, each field of the receiver and the output. In the program's own lines it looks for a counter that a made
//! receiver accepted twice, took for a repeat with no reason, or did not take for one; and it holds each opening
//! answered neither 12 nor 15, and each plain opening, to cba_open. It prints its seed, and the same seed makes the
//! same run. The exit status is 0 where there is no difference and no such counter, 1 where there is one, and 2 where
//! an argument is wrong.

#![allow(non_snake_case)] // the paper's names

mod compared;
mod faults;
mod history;
#[path = "../library/mod.rs"]
mod library;
mod lists;
mod long_pieces;
mod model;
mod numbers;
mod openings;
mod pieces;
mod plain;
mod radio;
mod receivers;
mod records;
mod script;
mod script_false;
mod script_hand_made;
mod script_late;
mod script_lengths;
mod script_offsets;
mod script_order;
mod script_prefixes;
mod script_runs;
mod script_shifts;
mod seen;
mod seen_window;
#[path = "../shared/mod.rs"]
mod shared;
mod show;
mod steps;
mod values;

use compared::Compared;
use lists::{list, List};
use long_pieces::long_pieces;
use records::Record;
use script::script;
use seen::Seen;
use shared::programs::act;
use shared::random::Random;
use shared::seed::seed;
use show::show;
use std::process::exit;
use std::time::Instant;

const LISTS: usize = 10_000;

fn run(program: &str, word: Option<&str>) -> ! {
    let mut random = Random(seed("receiver_model", word));
    let start = Instant::now();
    let of_script = Compared::new(program, &[script().into()]);
    let of_long_pieces = Compared::new(program, &[long_pieces().into()]);
    let mut seen = Seen::default();
    let lists: Vec<List> = (0..LISTS).map(|_| list(&mut random, &mut seen)).collect();
    let of_lists = Compared::new(program, &lists);

    show(&seen);
    of_script.show("the script");
    of_long_pieces.show("the longest pieces");
    of_lists.show(&format!("{LISTS} lists"));
    println!("receiver_model: {:.1} s", start.elapsed().as_secs_f64());
    let all = [&of_script, &of_long_pieces, &of_lists];
    if all.iter().any(|part| part.wrong()) {
        exit(1);
    }
    seen.all();
    of_lists.plain.many(10);
    of_lists.history.many(5_000);
    of_script.history.many(100);
    exit(0)
}

fn main() {
    let records = || script().records.iter().flat_map(Record::bytes).collect();
    act("receiver_model", records, || script().lines, run)
}
