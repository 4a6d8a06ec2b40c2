//! Fuzzes the hub program: each input is the standard input of one run of target/bin/hub, which must write what the
//! model (tests/hub_model/model.rs) writes. libFuzzer calls this, from the repository's folder; tests/fuzz/run builds it.

#![no_main]
#![allow(non_snake_case)] // the paper's names
#![allow(dead_code)] // of what the tests share

#[path = "../../hub_model/compare.rs"]
mod compare;
#[path = "../../hub_model/lines.rs"]
mod lines;
#[path = "../../hub_model/model.rs"]
mod model;
mod mutate;
#[path = "../../hub_model/pipes.rs"]
mod pipes;
#[path = "../../shared/mod.rs"]
mod shared;

use compare::Bench;
use shared::random::Random;
use std::slice::{from_raw_parts, from_raw_parts_mut};

extern "C" {
    /// libFuzzer's own change of some bytes; gives how many there are then.
    fn LLVMFuzzerMutate(place: *mut u8, len: usize, most: usize) -> usize;
}

/// What libFuzzer calls, with `len` bytes at `place`. It keeps the input of a run that ends in a panic.
#[no_mangle]
pub unsafe extern "C" fn LLVMFuzzerTestOneInput(place: *const u8, len: usize) -> i32 {
    let input = match len {
        0 => &[], // its place may be null
        _ => from_raw_parts(place, len),
    };
    let bench = Bench {
        program: "target/bin/hub".into(),
        random: Random(0), // of which nothing is asked
        part: "fuzz",
    };
    if let Err(why) = bench.same(input) {
        panic!("{why}");
    }
    0
}

/// What libFuzzer calls for a new input, made of one with `len` bytes at `place`, where there is room for `most`: half
/// of the time the change is of bytes, and half of the time of lines, since few changes of bytes make a line that opens.
#[no_mangle]
pub unsafe extern "C" fn LLVMFuzzerCustomMutator(
    place: *mut u8,
    len: usize,
    most: usize,
    seed: u32,
) -> usize {
    let mut random = Random(seed.into());
    if len == 0 || random.one_in(2) {
        return LLVMFuzzerMutate(place, len, most);
    }
    let changed = mutate::lines_changed(&mut random, from_raw_parts(place, len));
    let len = changed.len().min(most);
    from_raw_parts_mut(place, len).copy_from_slice(&changed[..len]);
    len
}
