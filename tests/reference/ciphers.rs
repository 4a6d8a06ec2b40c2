//! Block ciphers for the tests of the mode.

use crate::mode::aes::Aes;
use crate::mode::cba::{Bits, Blockcipher};
use crate::random::Random;
use crate::values::{bits_number, number_bits};
use std::borrow::Borrow;
use std::cell::Cell;

/// AES with its calls counted.
pub struct Counted(pub Aes, pub Cell<usize>);

impl Blockcipher for Counted {
    fn E(&self, X: impl Borrow<Bits>) -> Bits {
        self.1.set(self.1.get() + 1);
        self.0.E(X)
    }
    fn D(&self, X: impl Borrow<Bits>) -> Bits {
        self.1.set(self.1.get() + 1);
        self.0.D(X)
    }
}

/// A random permutation of the 16-bit blocks, for `Cba::small`.
pub struct Table {
    e: Vec<u16>,
    d: Vec<u16>,
}

impl Table {
    pub fn new(random: &mut Random) -> Table {
        let mut e: Vec<u16> = (0..=0xffff).collect();
        for i in (1..e.len()).rev() {
            e.swap(i, random.below(i + 1));
        }
        let mut d = vec![0; e.len()];
        for (x, &y) in e.iter().enumerate() {
            d[y as usize] = x as u16;
        }
        Table { e, d }
    }
}

impl Blockcipher for Table {
    fn E(&self, X: impl Borrow<Bits>) -> Bits {
        number_bits(self.e[bits_number(X.borrow()) as usize] as u64, 16)
    }
    fn D(&self, X: impl Borrow<Bits>) -> Bits {
        number_bits(self.d[bits_number(X.borrow()) as usize] as u64, 16)
    }
}
