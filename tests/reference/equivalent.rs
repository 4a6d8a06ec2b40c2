//! The equivalent inverse cipher (FIPS 197, section 5.3.5, figure 15), with the state
//! after each step. Document 003 has the same figure in its section 3.7.5.

use crate::mode::aes::{
    add_round_key, inv_mix_columns, inv_shift_rows, sub_bytes, Aes, Block, INV_SBOX,
};
use crate::mode::bytes::to_hex;
use std::ops::Range;

/// Changes the state; AddRoundKey alone uses the round key.
pub type Step = fn(&mut Block, &Block);

pub const INV_SUB_BYTES: Step = |s, _| sub_bytes(s, &INV_SBOX);
pub const INV_SHIFT_ROWS: Step = |s, _| *s = inv_shift_rows(s);
pub const INV_MIX_COLUMNS: Step = |s, _| inv_mix_columns(s);
pub const ADD_ROUND_KEY: Step = add_round_key;

/// What the figure says.
pub struct Figure {
    /// Which round keys InvMixColumns modifies, of 0 to Nr.
    pub mixed: fn(usize) -> Range<usize>,
    /// The steps of the rounds Nr-1 to 1.
    pub round: &'static [Step],
    /// The steps after the loop, with round key 0.
    pub last: &'static [Step],
}

/// Figure 15.
pub const EQ_INV_CIPHER: Figure = Figure {
    mixed: |nr| 1..nr,
    round: &[
        INV_SUB_BYTES,
        INV_SHIFT_ROWS,
        INV_MIX_COLUMNS,
        ADD_ROUND_KEY,
    ],
    last: &[INV_SUB_BYTES, INV_SHIFT_ROWS, ADD_ROUND_KEY],
};

impl Figure {
    /// The modified schedule.
    fn dw(&self, aes: &Aes) -> Vec<Block> {
        let mut dw = aes.round_keys.clone();
        for round in (self.mixed)(dw.len() - 1) {
            inv_mix_columns(&mut dw[round]);
        }
        dw
    }

    /// The state after each step; figure 15 has 4 Nr of them.
    pub fn states(&self, aes: &Aes, block: &Block) -> Vec<Block> {
        let (dw, mut s) = (self.dw(aes), *block);
        let mut states = vec![];
        let mut run = |steps: &[Step], round: usize| {
            for step in steps {
                step(&mut s, &dw[round]);
                states.push(s);
            }
        };
        let nr = dw.len() - 1;
        run(&[ADD_ROUND_KEY], nr);
        for round in (1..nr).rev() {
            run(self.round, round);
        }
        run(self.last, 0);
        states
    }
}

/// Appendix C: the bytes of the key, which is 00 01 02 ..., and the ciphertext.
pub const APPENDIX_C: [(u8, u128); 3] = [
    (16, 0x69c4e0d86a7b0430d8cdb78070b4c55a),
    (24, 0xdda97ca4864cdfe06eaf70a0ec0d7191),
    (32, 0x8ea2b7ca516745bfeafc49904b496089),
];

/// The states on an example of appendix C.
pub fn on_example(figure: &Figure, (key, cipher): (u8, u128)) -> Vec<Block> {
    let key: Vec<u8> = (0..key).collect();
    figure.states(&Aes::new(&key), &cipher.to_be_bytes())
}

/// The end of crates/aes_vectors/stdout, with appendix C's labels.
pub fn print_traces() -> Result<(), String> {
    for (example, number) in APPENDIX_C.into_iter().zip(1..) {
        println!("C.{number} EqInvCipher {:032x}", example.1);
        let states = on_example(&EQ_INV_CIPHER, example);
        for (i, state) in states.iter().enumerate() {
            let label = if i + 1 == states.len() {
                "ioutput"
            } else {
                ["istart", "is_box", "is_row", "im_col"][i % 4]
            };
            println!("{} {label} {}", i / 4 + 1, to_hex(state));
        }
    }
    Ok(())
}
