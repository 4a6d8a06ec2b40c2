//! Random nonces.

use super::model::Ledger;
use super::numbers::{nonce, number, start, MOST_LOW};
use crate::shared::expected::NONCE;
use crate::shared::random::Random;

const LOW: usize = NONCE - 2; // the bytes after the console number

impl Random {
    /// The ten bytes after the console number, near the last ones, of which about half are above them.
    fn near(&mut self, last: &[u8]) -> Vec<u8> {
        let n = number(last);
        let few = 1 + self.below(3) as u128;
        let at = self.below(LOW);
        let mut other = last.to_vec();
        match self.below(8) {
            0 => {}
            1 => other = low(n.saturating_sub(few)),
            2 => other = low(MOST_LOW.min(n + few)),
            3 => other = self.bytes(LOW),
            4 => other[at] = self.number() as u8,
            // One byte goes one way and all after it go the other.
            5 => {
                other[at] = other[at].saturating_add(1);
                other[at + 1..].fill(0);
            }
            6 => {
                other[at] = other[at].saturating_sub(1);
                other[at + 1..].fill(0xff);
            }
            // Above to who reads it from its end.
            _ => {
                other.reverse();
                other = low(MOST_LOW.min(number(&other) + few));
                other.reverse();
            }
        }
        other
    }

    /// A nonce that begins with the console number, or with another: often that of the last nonce, and at times the
    /// console number stands at its end.
    fn begun_nonce(&mut self, ledger: &Ledger, elsewhere: bool) -> Vec<u8> {
        let mut low = self.near(&ledger.last[2..]);
        let of_last = start(&ledger.last).expect("two bytes");
        let begins = match elsewhere {
            true if of_last != ledger.console && self.one_in(2) => of_last,
            true => self.other_console(ledger.console),
            false => ledger.console,
        };
        if elsewhere && self.one_in(8) {
            low[LOW - 2..].copy_from_slice(&ledger.console.to_be_bytes());
        }
        [&begins.to_be_bytes(), &low[..]].concat()
    }

    /// One that is above the last, or one that is not, where there is such a one and it is found soon.
    pub fn nonce(&mut self, ledger: &Ledger, stale: bool, elsewhere: bool) -> Vec<u8> {
        let mut found = self.begun_nonce(ledger, elsewhere);
        for _ in 0..20 {
            if (number(&found) <= number(&ledger.last)) == stale {
                break;
            }
            found = self.begun_nonce(ledger, elsewhere);
        }
        found
    }
}

/// The ten bytes that are this number.
fn low(number: u128) -> Vec<u8> {
    nonce(number).split_off(2)
}
