//! A second implementation of CBA v1-1 and of CMAC, from the papers alone, to compare with.
//!
//!   rustc --edition 2021 -O -o /tmp/reference tests/reference/main.rs
//!   /tmp/reference self-test [SEED]
//!   /tmp/reference hub FILE_IN FILE_OUT
//!   /tmp/reference ta SEED COUNT
//!   /tmp/reference ta-records SEED COUNT
//!   /tmp/reference ta-tags SEED COUNT
//!   /tmp/reference toy
//!   /tmp/reference aes-traces
//!   /tmp/reference seal SEED COUNT
//!   /tmp/reference seal FILE
//!   /tmp/reference open FILE
//!
//! It is for comparing only: slow, and its running time tells its secrets.

// The papers' names.
#![allow(non_snake_case)]

/// Ends a function with what went wrong. It stands before the modules, which use it.
macro_rules! ensure {
    ($condition:expr, $($why:tt)+) => {
        if !$condition {
            return Err(format!($($why)+));
        }
    };
}

mod by_rule;
mod ciphers;
mod cmac;
mod equivalent;
mod form;
mod hub;
mod mode;
#[path = "../shared/random.rs"]
mod random;
mod self_test;
mod toy;
mod values;
mod vectors;

use by_rule::{by_lines, open_line, seal_line};
use equivalent::print_traces;
use hub::hub;
use self_test::self_test;
use toy::print_toy;
use vectors::{print_seal, print_ta, Ta};

const USAGE: &str = "\
usage: reference self-test [SEED]
       reference hub FILE_IN FILE_OUT   compare with vectors
       reference ta SEED COUNT          print lines: set key data T_A
       reference ta-records SEED COUNT  write the same for crates/cba_vectors: set, lengths, key, data
       reference ta-tags SEED COUNT     print the tags T_A of these records, a line each
       reference toy                    print lines over a toy cipher: tau b nonce data message ciphertext
       reference aes-traces             print the states of AES's EqInvCipher on FIPS 197's appendix C
       reference seal SEED COUNT        print lines: set key nonce data message ciphertext
       reference seal FILE              seal by lines: set data-length message-length
       reference open FILE              open by lines: set data-length message-length change";

fn main() {
    let args: Vec<String> = std::env::args().skip(1).collect();
    let args: Vec<&str> = args.iter().map(|a| a.as_str()).collect();
    let number = |a: &str| {
        a.parse::<u64>()
            .map_err(|_| format!("not a number: {a}\n{USAGE}"))
    };
    let done = match args[..] {
        ["self-test"] => self_test(1),
        ["self-test", seed] => number(seed).and_then(self_test),
        ["hub", file_in, file_out] => hub(file_in, file_out),
        ["ta", seed, count] => number(seed).and_then(|s| print_ta(Ta::Lines, s, number(count)?)),
        ["ta-records", seed, count] => {
            number(seed).and_then(|s| print_ta(Ta::Records, s, number(count)?))
        }
        ["ta-tags", seed, count] => {
            number(seed).and_then(|s| print_ta(Ta::Tags, s, number(count)?))
        }
        ["toy"] => print_toy(),
        ["aes-traces"] => print_traces(),
        ["seal", file] => by_lines(file, seal_line),
        ["open", file] => by_lines(file, open_line),
        ["seal", seed, count] => number(seed).and_then(|s| print_seal(s, number(count)?)),
        _ => Err(USAGE.to_string()),
    };
    if let Err(why) = done {
        eprintln!("{why}");
        std::process::exit(1);
    }
}
