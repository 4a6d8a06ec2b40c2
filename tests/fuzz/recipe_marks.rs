//! How an input of the fuzzer is read that stands for marks: as the making of one, and as the checking of what it gives
//! or of something near it. What is not there is 0.
//!
//!     byte 0       228 to 239; its remainder by 3 tells the right length of the key
//!     byte 1       the length of the key, 0 for the right one
//!     byte 2       the length of the mark
//!     bytes 3, 4   nothing
//!     bytes 5, 6   the length of the log
//!     bytes 7..10  the change before the checking: its kind and its place
//!     byte 10      the room in the output
//!     byte 11      nothing
//!     the rest     the bytes of key, log and mark, over and over

use crate::recipe::{flip, length, near, output, Filler, HEAD};
use crate::shared::marks::{code, Act, CODE, KEYS, MOST_LOG};
use std::ops::RangeInclusive;

const FIRST: RangeInclusive<u8> = 228..=239;

/// A call, and what it must give.
pub struct Call {
    pub act: Act,
    /// Key, log and mark; of a making the mark has only a length.
    pub inputs: [Vec<u8>; 3],
    pub mark: usize,
    pub out: usize,
    pub answer: u32,
    /// The bytes that are written.
    pub result: Vec<u8>,
}

impl Call {
    fn new(act: Act, inputs: [Vec<u8>; 3], mark: usize, out: usize) -> Call {
        let [key, log, given] = &inputs;
        let faults = act.faults([key.len(), log.len(), mark], out, false);
        let (answer, result) = match faults.first() {
            Some(&refusal) => (refusal, vec![]),
            None => match (act, code(key, log)) {
                (Act::Make, code) => (0, code[..mark].to_vec()),
                (_, code) if code.starts_with(given) => (0, vec![]),
                _ => (8, vec![]),
            },
        };
        Call {
            act,
            inputs,
            mark,
            out,
            answer,
            result,
        }
    }
}

/// The making and the checking, where the input stands for marks.
pub fn calls(input: &[u8]) -> Option<[Call; 2]> {
    let (head, rest) = input.split_at(input.len().min(HEAD));
    let byte = |i: usize| head.get(i).copied().unwrap_or(0);
    if !FIRST.contains(&byte(0)) {
        return None;
    }
    let mut filler = Filler { bytes: rest, at: 0 };
    let key = filler.take(length(byte(1), KEYS[byte(0) as usize % 3]));
    let log = filler.take(near(byte(5), byte(6)));
    let mark = mark_length(byte(2));
    let given = given(&key, &log, mark, &mut filler);
    let out = output(mark, byte(10));
    let making = Call::new(Act::Make, [key.clone(), log.clone(), vec![]], mark, out);

    let mut inputs = [key, log, given];
    let place = u16::from_be_bytes([byte(8), byte(9)]) as usize;
    change(&mut inputs, byte(7), place, &mut filler);
    let mark = inputs[2].len();
    Some([making, Call::new(Act::Check, inputs, mark, 0)])
}

/// Most are a mark's; the last are to one who looks at 8 bits.
fn mark_length(byte: u8) -> usize {
    match byte {
        0..=31 => byte as usize,
        32..=239 => 4 + byte as usize % 13,
        _ => 16 + byte as usize,
    }
}

/// The code, and bytes after it, as far as the mark's length; any bytes where there is no code.
fn given(key: &[u8], log: &[u8], mark: usize, filler: &mut Filler) -> Vec<u8> {
    let mut bytes = match KEYS.contains(&key.len()) && log.len() <= MOST_LOG {
        true => code(key, log),
        false => filler.take(CODE),
    };
    bytes.extend(filler.take(mark.max(CODE) - CODE));
    bytes.truncate(mark);
    bytes
}

/// A bit of one of the three inputs flipped, a mark cut or extended, a mark of another kind, or a log cut.
fn change(inputs: &mut [Vec<u8>; 3], kind: u8, place: usize, filler: &mut Filler) {
    let [_, log, mark] = inputs;
    match kind % 8 {
        0 => (),
        4 => mark.truncate(place % (mark.len() + 1)),
        5 => mark.extend(filler.take(place % 256)),
        6 => *mark = filler.take(place % 32),
        7 => log.truncate(place % (log.len() + 1)),
        input => flip(&mut inputs[3 - input as usize], place),
    }
}
