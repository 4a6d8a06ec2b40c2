//! A call that must give an answer, write a mark and change nothing else.

use crate::gcrypt;
use crate::library::room::{whole, Input, Room, ROOM};
use crate::seen::Seen;
use crate::shared::marks::{code, Act, KEYS};
use crate::shared::mode::bytes::to_hex;
use crate::shared::random::Random;
use std::array::from_fn;
use std::ptr::{null, null_mut};

const SHOWN: usize = 5; // differences that are printed
const GUARD: usize = 64; // bytes before each input and after out; before out at most 15 fewer

/// Counts the calls, and the differences, of which it prints the first.
pub struct Test {
    pub random: Random,
    rooms: [Room; 3],
    pub seen: Seen,
    pub differences: usize,
}

/// An input in its place, with the bytes about it.
struct Put {
    bytes: Vec<u8>,
    start: *const u8,
}

impl Put {
    fn kept(&self) -> bool {
        self.bytes == unsafe { std::slice::from_raw_parts(self.start, self.bytes.len()) }
    }
}

impl Test {
    pub fn new(seed: u64) -> Test {
        Test {
            random: Random(seed),
            rooms: from_fn(|_| Room::new()),
            seen: Seen::default(),
            differences: 0,
        }
    }

    pub fn make(&mut self, key: &[u8], log: &[u8], mark: usize, out: usize) {
        let mark = of_length(mark);
        self.call(Act::Make, [whole(key), whole(log), mark], out);
    }

    pub fn check(&mut self, key: &[u8], log: &[u8], mark: &[u8]) {
        self.call(Act::Check, [key, log, mark].map(whole), 0);
    }

    /// Calls with key, log and mark, which must give the first answer that applies, write the mark over the first
    /// bytes of out where one is made, and change no other byte. Returns each refusal that applies.
    pub fn call(&mut self, act: Act, inputs: [Input; 3], out: usize) -> Vec<u32> {
        let (faults, mark) = self.expected(act, inputs, out);
        let head = GUARD - self.random.below(16);
        let before = self.random.bytes(head + out.min(ROOM) + GUARD);
        let mut after = before.clone();
        let puts: [Put; 3] = from_fn(|i| self.put(i, inputs[i]));

        // What has no bytes may be NULL.
        let nulls = self.random.below(2) == 0;
        let [key, log, mark_len] = inputs.map(|input| input.len);
        if nulls {
            self.seen.nulls(act, [key, log, mark_len, out]);
        }
        let given = from_fn(|i| match inputs[i].len {
            0 if nulls => (null(), 0),
            len => (unsafe { puts[i].start.add(GUARD) }, len),
        });
        let place = match out {
            0 if nulls => null_mut(),
            _ => after[head..].as_mut_ptr(),
        };
        let found = unsafe { act.call(given, (place, out)) };

        self.seen.call(act, [key, log, mark_len], &faults);
        let mut expected = before;
        expected[head..][..mark.len()].copy_from_slice(&mark);
        let kept = puts.iter().all(Put::kept);
        let answer = faults.first().copied().unwrap_or(0);
        if found != answer || after != expected || !kept {
            let wrong = (0..after.len()).find(|&i| after[i] != expected[i]);
            let wrong = wrong.map(|i| i as isize - head as isize);
            self.differ(&format!(
                "{}\n  answer {found}, expected {answer}; wrong byte of out: {wrong:?}; inputs kept: {kept}",
                shown(act, inputs, out)
            ));
        }
        faults
    }

    /// Each refusal that applies, and the bytes that are written. Where a length is wrong, whether the mark is false
    /// is read of what is there: so it is for one who looks at no length.
    fn expected(&mut self, act: Act, inputs: [Input; 3], out: usize) -> (Vec<u32>, Vec<u8>) {
        let [key, log, mark] = inputs;
        let faults = |is_false| act.faults(inputs.map(|input| input.len), out, is_false);
        if act == Act::Check {
            let code = self.code(&as_key(key.bytes), log.bytes);
            return (faults(!code.starts_with(mark.bytes)), vec![]);
        }
        let faults = faults(false);
        let mut written = vec![];
        if faults.is_empty() {
            written = self.code(key.bytes, log.bytes);
            written.truncate(mark.len);
        }
        (faults, written)
    }

    /// The code by the second implementation, and by libgcrypt.
    pub fn code(&mut self, key: &[u8], log: &[u8]) -> Vec<u8> {
        let (code, other) = (code(key, log), gcrypt::code(key, log));
        self.seen.codes += 1;
        if code != other {
            let [key, code, other] = [key, &code, &other].map(to_hex);
            let of = format!("key {key}, a log of {} bytes", log.len());
            self.differ(&format!("{of}: {code}, by libgcrypt {other}"));
        }
        code
    }

    /// At the fence, or at any alignment.
    fn put(&mut self, i: usize, input: Input) -> Put {
        let gap = self.random.below(2) * self.random.below(16);
        let gap = if input.bytes.len() < input.len {
            0
        } else {
            gap
        };
        let [before, after] = [GUARD, gap].map(|n| self.random.bytes(n));
        let bytes = [&before[..], input.bytes, &after].concat();
        let start = self.rooms[i].put(&bytes, 0);
        Put { bytes, start }
    }

    fn differ(&mut self, what: &str) {
        self.differences += 1;
        if self.differences <= SHOWN {
            eprintln!("{what}");
        }
    }
}

/// An input of which nothing is there.
pub fn of_length(len: usize) -> Input<'static> {
    Input { bytes: &[], len }
}

/// The same with a bit flipped.
pub fn flipped(bytes: &[u8], bit: usize) -> Vec<u8> {
    let mut bytes = bytes.to_vec();
    bytes[bit / 8] ^= 0x80 >> (bit % 8);
    bytes
}

/// The key that one takes these bytes for who cuts them, or adds zeros.
pub fn as_key(bytes: &[u8]) -> Vec<u8> {
    let fits = KEYS.into_iter().find(|&n| n >= bytes.len());
    let mut key = bytes.to_vec();
    key.resize(fits.unwrap_or(32), 0);
    key
}

fn shown(act: Act, inputs: [Input; 3], out: usize) -> String {
    let [key, log, mark] = inputs.map(|input| to_hex(&input.bytes[..input.bytes.len().min(40)]));
    let lengths = inputs.map(|input| input.len);
    format!(
        "{}: bytes of key, log and mark {lengths:?}, of out {out}\n  key {key}, log {log}, mark {mark}",
        act.name()
    )
}
