//! This repository's library, by the Rust crate's calls.

use crate::candidates::Inputs;

#[path = "../bindings/rust/src/call.rs"]
mod call;

pub fn seal(inputs: &Inputs, text: &[u8], out: &mut [u8]) -> bool {
    call::seal(inputs.set.number, strings(inputs, text), out) == 0
}

pub fn open(inputs: &Inputs, text: &[u8], out: &mut [u8]) -> bool {
    call::open(inputs.set.number, strings(inputs, text), out) == 0
}

pub fn mark(inputs: &Inputs, log: &[u8], out: &mut [u8]) -> bool {
    call::make_mark(&inputs.key, log, out.len(), out) == 0
}

pub fn check_mark(inputs: &Inputs, log: &[u8], mark: &[u8]) -> bool {
    call::check_mark(&inputs.key, log, mark) == 0
}

fn strings<'a>(inputs: &'a Inputs, text: &'a [u8]) -> [&'a [u8]; 4] {
    [&inputs.key, &inputs.nonce, &inputs.data, text]
}
