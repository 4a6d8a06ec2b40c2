//! A call with every input and the output up to a fence.

use crate::fence::Fenced;
use crate::shared::mode::bytes::to_hex;
use std::array::from_fn;
use std::cell::RefCell;

const BEFORE: u8 = 0xa5; // every byte of an output, before the call
const GUARD: usize = 64; // bytes before the output, which a call must leave

thread_local! {
    static ROOMS: RefCell<[Fenced; 5]> = RefCell::new(from_fn(|_| Fenced::new()));
}

/// What a call must give, the bytes that are written among it.
pub struct Expected<'a> {
    pub out: usize,
    pub answer: u32,
    pub result: &'a [u8],
}

/// Makes the call, and says what it does that it must not.
pub fn run<const INPUTS: usize>(
    inputs: [&[u8]; INPUTS],
    expected: Expected,
    call: impl FnOnce([(*const u8, usize); INPUTS], (*mut u8, usize)) -> u32,
) -> Result<(), String> {
    ROOMS.with(|rooms| {
        let [output, rooms @ ..] = &mut *rooms.borrow_mut();
        let given = from_fn(|i| (rooms[i].put(inputs[i]) as *const u8, inputs[i].len()));
        output.last(GUARD + expected.out).fill(BEFORE);
        let place = output.last(expected.out).as_mut_ptr();
        let answer = call(given, (place, expected.out));

        let mut bytes = vec![BEFORE; GUARD + expected.out];
        bytes[GUARD..][..expected.result.len()].copy_from_slice(expected.result);
        let kept = (0..INPUTS).all(|i| rooms[i].is(inputs[i]));
        if answer == expected.answer && kept && output.is(&bytes) {
            return Ok(());
        }
        let out = to_hex(output.last(GUARD + expected.out));
        Err(format!(
            "out, after {GUARD} bytes that are not its own: {out}\n  expected {}\n  \
            answer {answer}, expected {}; inputs kept: {kept}",
            to_hex(&bytes),
            expected.answer
        ))
    })
}
