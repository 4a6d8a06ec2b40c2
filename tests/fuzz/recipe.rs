//! How an input of the fuzzer is read: as a sealing, and as the opening of what it gives or of something near it. Every
//! input can be read, and what is not there is 0. One that begins with 228 to 239 is read as marks (recipe_marks.rs).
//!
//!     byte 0       the set
//!     bytes 1, 2   the lengths of key and nonce, 0 for the right one
//!     bytes 3, 4   the length of the data
//!     bytes 5, 6   the length of the message
//!     bytes 7..10  the change before the opening: its kind and its place
//!     bytes 10, 11 the room in the output of the sealing and of the opening
//!     the rest     the bytes of key, nonce, data and message, over and over

use crate::shared::expected::{form, set, Act, MOST_DATA, MOST_TEXT, NONCE, OPEN, SEAL};
use crate::shared::inputs::BAD_SETS;

pub const HEAD: usize = 12;

/// A call, and what it must give.
pub struct Call {
    pub act: Act,
    pub set: u32,
    /// Key, nonce, data and text.
    pub inputs: [Vec<u8>; 4],
    pub out: usize,
    pub answer: u32,
    /// The bytes that are written.
    pub result: Vec<u8>,
}

impl Call {
    fn new(act: Act, number: u32, inputs: [Vec<u8>; 4], room: u8) -> Call {
        let lengths = [0, 1, 2, 3].map(|i| inputs[i].len());
        let need = match act.refusal(number, lengths, usize::MAX) {
            0 => (act.result_len)(set(number).expect("a set"), lengths[3]),
            _ => lengths[3], // whatever the room, it is refused
        };
        let out = output(need, room);
        let (answer, result) = match act.refusal(number, lengths, out) {
            0 => (act.expected)(number, [0, 1, 2, 3].map(|i| &inputs[i][..])),
            refusal => (refusal, vec![]),
        };
        Call {
            act,
            set: number,
            inputs,
            out,
            answer,
            result,
        }
    }

    /// The form of the message, where one is sealed, opened or refused as false.
    pub fn form(&self) -> Option<usize> {
        let s = set(self.set).filter(|_| matches!(self.answer, 0 | 8))?;
        let text = self.inputs[3].len();
        Some(form(s, text.min((self.act.result_len)(s, text))))
    }
}

/// The sealing and the opening.
pub fn calls(input: &[u8]) -> [Call; 2] {
    let (head, rest) = input.split_at(input.len().min(HEAD));
    let byte = |i: usize| head.get(i).copied().unwrap_or(0);
    let mut filler = Filler { bytes: rest, at: 0 };
    let number = set_number(byte(0));
    let lengths = [
        length(byte(1), set(number).map_or(16, |s| s.key)),
        length(byte(2), NONCE),
        near(byte(3), byte(4)),
        near(byte(5), byte(6)),
    ];
    let inputs = lengths.map(|n| filler.take(n));
    let sealing = Call::new(SEAL, number, inputs, byte(10));

    let mut opening = (number, sealing.inputs.clone());
    if sealing.answer == 0 {
        opening.1[3] = sealing.result.clone();
    }
    let place = u16::from_be_bytes([byte(8), byte(9)]) as usize;
    change(&mut opening, byte(7), place, &mut filler);
    let opening = Call::new(OPEN, opening.0, opening.1, byte(11));
    [sealing, opening]
}

/// Most are a set's.
fn set_number(byte: u8) -> u32 {
    match byte {
        0..=239 => byte as u32 % 12,
        _ => BAD_SETS[byte as usize % BAD_SETS.len()],
    }
}

pub fn length(byte: u8, right: usize) -> usize {
    match byte {
        0 => right,
        255 => 0,
        n => n as usize,
    }
}

/// The length of an output for a result of so many bytes: as long or longer, or shorter.
pub fn output(need: usize, room: u8) -> usize {
    match room {
        0..=127 => need + room as usize,
        _ => need.saturating_sub(room as usize - 127),
    }
}

/// A length below 1,024, as long ones take the reference a long time, or one about a limit.
pub fn near(about: u8, n: u8) -> usize {
    n as usize
        + match about {
            254.. => MOST_TEXT - 128,
            252.. => MOST_DATA - 128,
            _ => 256 * (about as usize % 4),
        }
}

/// A bit of one of the four inputs flipped, a text cut or extended, a text of another kind, or another set.
fn change(call: &mut (u32, [Vec<u8>; 4]), kind: u8, place: usize, filler: &mut Filler) {
    let (number, inputs) = call;
    match kind % 9 {
        0 => (),
        input @ 1..=4 => flip(&mut inputs[4 - input as usize], place),
        5 => inputs[3].truncate(place % (inputs[3].len() + 1)),
        6 => inputs[3].extend(filler.take(place % 256)),
        7 => inputs[3] = filler.take(place % 1024),
        _ => *number = place as u32 % 12,
    }
}

/// A bit flipped, where there is one.
pub fn flip(input: &mut [u8], place: usize) {
    let bit = place % (8 * input.len()).max(1);
    input
        .iter_mut()
        .skip(bit / 8)
        .take(1)
        .for_each(|byte| *byte ^= 0x80 >> (bit % 8));
}

/// The rest of an input, over and over; zeros where there is none.
pub struct Filler<'a> {
    pub bytes: &'a [u8],
    pub at: usize,
}

impl Filler<'_> {
    pub fn take(&mut self, count: usize) -> Vec<u8> {
        let start = self.at;
        self.at += count;
        let byte = |i| self.bytes.get(i % self.bytes.len().max(1)).copied();
        (start..self.at).map(|i| byte(i).unwrap_or(0)).collect()
    }
}
