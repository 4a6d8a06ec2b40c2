//! Holds cmac_make and cmac_check to their table of answers, to CMAC written a second time, and to libgcrypt's CMAC.
//!
//!     target/tests/mark_differential [SEED]
//!
//! A run prints its seed, and the same seed makes the same run. The exit status is 0 where there is no difference, 1
//! where there is one, and 2 where SEED is no number. A run that ends by a signal was where it may not be: after the
//! end of an input, in an input that is refused for its length, or at NULL.

#![allow(non_snake_case)] // the papers' names

mod faults;
mod gcrypt;
mod lengths;
#[path = "../library/mod.rs"]
mod library;
mod seen;
#[path = "../shared/mod.rs"]
mod shared;
mod test;
mod wrong_marks;

use lengths::BAD_MARKS;
use shared::seed::{seed, wrong};
use std::process::exit;
use std::time::Instant;
use test::Test;

const PROGRAM: &str = "mark_differential";

const PARTS: [fn(&mut Test); 17] = [
    lengths::logs,
    lengths::marks,
    lengths::outputs,
    wrong_marks::flipped_marks,
    wrong_marks::flipped_inputs,
    wrong_marks::wrong_bytes,
    wrong_marks::cut_or_extended,
    wrong_marks::other_blocks,
    wrong_marks::other_keys,
    wrong_marks::random_marks,
    lengths::keys,
    lengths::long_logs,
    |test| faults::choices(test, true),
    lengths::huge_marks,
    lengths::huge_keys,
    lengths::huge_logs,
    |test| faults::choices(test, false),
];

fn main() {
    let args: Vec<String> = std::env::args().skip(1).collect();
    let word = match &args[..] {
        [] => None,
        [word] => Some(word.as_str()),
        _ => wrong(&format!("usage: {PROGRAM} [SEED]")),
    };
    let mut test = Test::new(seed(PROGRAM, word));
    let start = Instant::now();
    for part in PARTS {
        part(&mut test);
        // What is wrong here may read what is not there in the next part.
        if test.differences != 0 {
            break;
        }
    }
    test.seen.show(PROGRAM);
    println!(
        "{PROGRAM}: {} differences; {:.1} s",
        test.differences,
        start.elapsed().as_secs_f64()
    );
    if test.differences != 0 {
        exit(1);
    }
    test.seen.all(&BAD_MARKS);
}
