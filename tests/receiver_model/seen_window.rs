//! What the random lists tried of the window.

use super::model::Receiver;
use super::numbers::counter;
use super::openings::Opening;
use std::collections::BTreeSet;

const MANY: usize = 10;

#[derive(Default)]
pub struct Window {
    pub first: usize,          // accepted where nothing was before
    pub with_marks: usize,     // of these, on a hand-made receiver that has marks all the same
    pub rises: [usize; 6], // accepted above the highest: by 1, up to 62, by 63, by 64, by more, by 2^32 or more
    pub late: [usize; 5], // accepted below or at it: by 0, where it has no mark, by 1, up to 61, by 62, by 63
    pub repeats: [usize; 4], // answered 15: the highest, others among the 64, 64 below, and more
    pub ends: [usize; 2], // accepted: 0 and 2^64 - 1
    pub below_0: usize,   // accepted on a receiver that has marks below 0
    pub after_false: usize, // accepted after a false piece under the same counter
    pub false_above: usize, // false ones more than 64 above the highest
    false_ones: BTreeSet<u64>, // of the receiver there
}

impl Window {
    /// Another receiver is there.
    pub fn another(&mut self) {
        self.false_ones.clear();
    }

    /// An opening on the receiver as it stands before, and the answer.
    pub fn opening(&mut self, receiver: &Receiver, call: &Opening, answer: u32) {
        let Some(n) = counter(&call.nonce) else {
            return;
        };
        let above = n as i128 - receiver.highest as i128;
        match answer {
            0 => self.accepted(receiver, n, above),
            8 => {
                self.false_ones.insert(n);
                self.false_above += (receiver.begun && above > 64) as usize;
            }
            15 => {
                let place = match above {
                    0 => 0,
                    -63..=-1 => 1,
                    -64 => 2,
                    _ => 3,
                };
                self.repeats[place] += 1;
            }
            _ => {}
        }
    }

    fn accepted(&mut self, receiver: &Receiver, n: u64, above: i128) {
        self.after_false += self.false_ones.remove(&n) as usize;
        self.ends[0] += (n == 0) as usize;
        self.ends[1] += (n == u64::MAX) as usize;
        if !receiver.begun {
            self.first += 1;
            self.with_marks += !receiver.accepted.is_empty() as usize;
            return;
        }
        self.below_0 += receiver.accepted.first().is_some_and(|&least| least < 0) as usize;
        let count = match above {
            0 => &mut self.late[0],
            -1 => &mut self.late[1],
            -61..=-2 => &mut self.late[2],
            -62 => &mut self.late[3],
            ..=-63 => &mut self.late[4],
            1 => &mut self.rises[0],
            2..=62 => &mut self.rises[1],
            63 => &mut self.rises[2],
            64 => &mut self.rises[3],
            65..=0xffff_ffff => &mut self.rises[4],
            _ => &mut self.rises[5],
        };
        *count += 1;
    }

    pub fn all(&self) {
        let some = [
            self.first,
            self.with_marks,
            self.below_0,
            self.after_false,
            self.false_above,
        ];
        let counts = [&self.rises[..], &self.late, &self.repeats, &self.ends].concat();
        for n in [&some[..], &counts].concat() {
            assert!(n >= MANY, "few of a case of the window: {n}");
        }
    }
}
