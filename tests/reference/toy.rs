//! Rows over a toy cipher.

use crate::mode::bytes::{to_bits, to_bytes, to_hex};
use crate::mode::cba::{Bits, Blockcipher, Cba};
use crate::random::Random;
use std::borrow::Borrow;

/// A block cipher that is quick to compute by hand: byte 5 i + 3 goes to place i
/// and is mapped by 7 x + 13 i + 1; 183 is 1/7 modulo 256.
struct Toy;

impl Blockcipher for Toy {
    fn E(&self, X: impl Borrow<Bits>) -> Bits {
        let x = to_bytes(X.borrow());
        let y: Vec<u8> = (0..16)
            .map(|i| (x[(5 * i + 3) % 16] as usize * 7 + 13 * i + 1) as u8)
            .collect();
        to_bits(&y)
    }
    fn D(&self, X: impl Borrow<Bits>) -> Bits {
        let y = to_bytes(X.borrow());
        let mut x = [0u8; 16];
        for i in 0..16 {
            x[(5 * i + 3) % 16] = ((y[i] as usize + 4096 - (13 * i + 1)) * 183) as u8;
        }
        to_bits(&x)
    }
}

/// The rows of crates/cba_mode/proofs/Reference.antt: tau, b and the lengths of data
/// and message, so that each form and each border is there.
pub fn print_toy() -> Result<(), String> {
    let rows = [
        (64, 16, 0, 0),
        (64, 16, 3, 5),
        (64, 16, 16, 8),
        (64, 16, 17, 9),
        (64, 16, 33, 32),
        (64, 16, 5, 33),
        (32, 16, 16, 25),
        (32, 32, 40, 48),
        (64, 48, 20, 16),
        (64, 48, 0, 1),
        (96, 16, 1, 56),
        (96, 48, 31, 36),
        (96, 48, 7, 37),
    ];
    let mut random = Random(1);
    for (tau, b, a, m) in rows {
        let p = Cba::new(tau, b);
        let (N, A, M) = (random.bytes(12), random.bytes(a), random.bytes(m));
        let (n, d) = (to_bits(&N), to_bits(&A));
        let C = p.ENC(&Toy, &n, &d, &to_bits(&M)).ok_or("not sealed")?;
        ensure!(
            p.DEC(&Toy, &n, &d, &C) == Some(to_bits(&M)),
            "a toy sealing does not open"
        );
        let values = [&N, &A, &M, &to_bytes(&C)].map(|v| to_hex(v)).join(" ");
        println!("{tau} {b} {values}");
    }
    Ok(())
}
