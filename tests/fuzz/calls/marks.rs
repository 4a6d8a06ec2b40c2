//! cmac_make and cmac_check, as an input of the fuzzer says.

use crate::recipe_marks::Call;
use crate::run::{run, Expected};
use crate::shared::marks::{Act, KEYS};
use crate::shared::mode::bytes::to_hex;

const SHORT: usize = 50; // bytes of a log below which each length counts
const LOGS: usize = 3 * 3 * (SHORT + 1); // made, checked or false; the key; the log
pub const COUNTERS: usize = LOGS + 3 * 17; // and the mark

/// Makes the call. libFuzzer keeps the input of a run that ends in a panic.
pub fn check(call: &Call) {
    let inputs = [0, 1, 2].map(|i| &call.inputs[i][..]);
    let expected = Expected {
        out: call.out,
        answer: call.answer,
        result: &call.result,
    };
    let left = run(inputs, expected, |[key, log, mark], out| unsafe {
        call.act.call([key, log, (mark.0, call.mark)], out)
    });
    if let Err(why) = left {
        let (name, len) = (call.act.name(), call.mark);
        let [key, log, mark] = inputs.map(to_hex);
        panic!("{name}: key {key}\n  log {log}\n  mark of {len} bytes {mark}\n  {why}");
    }
}

/// The counters that a call moves: none where a length refuses it.
pub fn counted(call: &Call) -> Option<[usize; 2]> {
    if !matches!(call.answer, 0 | 8) {
        return None;
    }
    let what = (call.act == Act::Check) as usize + (call.answer == 8) as usize;
    let [key, log, _] = [0, 1, 2].map(|i| call.inputs[i].len());
    let key = KEYS.iter().position(|&n| n == key)?;
    let log = (what * 3 + key) * (SHORT + 1) + log.min(SHORT);
    Some([log, LOGS + what * 17 + call.mark])
}
