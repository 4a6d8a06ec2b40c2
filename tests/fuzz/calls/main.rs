//! Fuzzes the library's calls: each input is a sealing and an opening (see recipe.rs), or the making and the checking
//! of a mark (see recipe_marks.rs), and must give the answer, the result and the output that the reference gives.
//! libFuzzer calls this; tests/fuzz/run builds it.

#![no_main]
#![allow(non_snake_case)] // the papers' names
#![allow(dead_code)] // of what the tests share

mod fence;
#[path = "../../library/mod.rs"]
mod library;
mod marks;
#[path = "../recipe.rs"]
mod recipe;
#[path = "../recipe_marks.rs"]
mod recipe_marks;
mod run;
#[path = "../../shared/mod.rs"]
mod shared;

use recipe::Call;
use run::{run, Expected};
use shared::mode::bytes::to_hex;

const SHORT: usize = 80; // bytes of a text below which each length counts; from there on its form does
const TEXTS: usize = 3 * 10 * (SHORT + 3); // sealed, opened or false; the set; the text
const DATA: usize = 3 * 48; // the form, and the length of short data
const ALL: usize = TEXTS + DATA + marks::COUNTERS;

/// The library has no counters of its own, and the reference's do not tell of a set together with a length. So these are
/// kept, which libFuzzer takes as coverage too.
#[link_section = "__libfuzzer_extra_counters"]
#[used]
static mut SEEN: [u8; ALL] = [0; ALL];

fn seen(i: usize) {
    unsafe { SEEN[i] = 1 };
}

/// What libFuzzer calls, with `len` bytes at `place`.
#[no_mangle]
pub unsafe extern "C" fn LLVMFuzzerTestOneInput(place: *const u8, len: usize) -> i32 {
    let input = match len {
        0 => &[], // its place may be null
        _ => std::slice::from_raw_parts(place, len),
    };
    if let Some(calls) = recipe_marks::calls(input) {
        for call in calls {
            marks::check(&call);
            let counters = marks::counted(&call).into_iter().flatten();
            counters.for_each(|i| seen(TEXTS + DATA + i));
        }
        return 0;
    }
    for call in recipe::calls(input) {
        check(&call);
        count(&call);
    }
    0
}

/// Makes the call. libFuzzer keeps the input of a run that ends in a panic.
fn check(call: &Call) {
    let inputs = [0, 1, 2, 3].map(|i| &call.inputs[i][..]);
    let expected = Expected {
        out: call.out,
        answer: call.answer,
        result: &call.result,
    };
    let left = run(inputs, expected, |given, out| unsafe {
        call.act.call(call.set, given, out)
    });
    if let Err(why) = left {
        let (name, set) = (call.act.name, call.set);
        let [key, nonce, data, text] = inputs.map(to_hex);
        panic!(
            "{name}: set {set}\n  key {key}\n  nonce {nonce}\n  data {data}\n  text {text}\n  {why}"
        );
    }
}

fn count(call: &Call) {
    let Some(form) = call.form() else { return };
    let opens = (call.act.name == "cba_open") as usize;
    let what = opens + (call.answer == 8) as usize;
    let [data, text] = [2, 3].map(|i| call.inputs[i].len());
    let text = if text < SHORT { text } else { SHORT + form };
    seen((what * 10 + call.set as usize - 1) * (SHORT + 3) + text);
    if data < 48 {
        seen(TEXTS + form * 48 + data);
    }
}
