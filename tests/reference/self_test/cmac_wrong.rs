//! Wrong readings of document 003, each of which the standards' examples refuse.

use super::cmac_examples::{EXAMPLES, LENGTHS};
use crate::cmac::{padded, pre_processing, times_u, Constant, BLOCK, CMAC, T};
use crate::mode::aes::Aes;
use crate::mode::cba::{cat, i_8, zero, Bits, Blockcipher, MSB};
use crate::random::Random;

/// What one who misreads sections 4.1 and 4.2 takes for the code.
type Reading = fn(&Aes, &Bits) -> Bits;

const WRONG: [(&str, Reading); 9] = [
    ("the subkeys exchanged", |K, M| {
        let [_, L_u, L_u2] = pre_processing(K);
        T(K, &L_u2, &L_u, M)
    }),
    ("the constant 1b of 64-bit blocks", |K, M| {
        let Constant = cat![zero(BLOCK - 8), i_8(0x1b)];
        let L_u = times_u(&K.E(zero(BLOCK)), &Constant);
        T(K, &L_u, &times_u(&L_u, &Constant), M)
    }),
    ("no constant", |K, M| {
        let L = K.E(zero(BLOCK));
        T(K, &(&L << 1), &(&L << 2), M)
    }),
    ("L and L.u for L.u and L.u^2", |K, M| {
        let [L, L_u, _] = pre_processing(K);
        T(K, &L, &L_u, M)
    }),
    ("L.u^3 for L.u^2", |K, M| {
        let [_, L_u, L_u2] = pre_processing(K);
        T(K, &L_u, &times_u(&L_u2, &Constant()), M)
    }),
    ("the last block forgotten", |K, M| {
        let before = M.len().saturating_sub(1) / BLOCK * BLOCK;
        CMAC(K, MSB(before, M))
    }),
    ("the empty message under L.u", |K, M| match M.len() {
        0 => K.E(padded(M) ^ &pre_processing(K)[1]),
        _ => CMAC(K, M),
    }),
    ("a full block padded too", |K, M| {
        let [_, _, L_u2] = pre_processing(K);
        let full = M.len() - M.len() % BLOCK;
        let last = padded(&Bits(M.0[full..].to_vec()));
        T(K, &L_u2, &L_u2, &cat![MSB(full, M), last])
    }),
    ("padding without the 1", |K, M| {
        let [_, L_u, L_u2] = pre_processing(K);
        let short = M.len().div_ceil(BLOCK).max(1) * BLOCK - M.len();
        let last = if short == 0 { &L_u } else { &L_u2 };
        T(K, last, last, &cat![M, zero(short)])
    }),
];

/// Each is refused by a code or more; says by how many.
pub fn wrong_readings(_: &mut Random) -> Result<String, String> {
    let mut said = vec![];
    for (what, reading) in WRONG {
        let mut refusing = 0;
        for example in EXAMPLES {
            let K = example.K()?;
            let rows = example.rows()?.into_iter();
            refusing += rows.filter(|(M, code)| reading(&K, M) != *code).count();
        }
        ensure!(refusing > 0, "{what}: no code refuses it");
        said.push(format!("{what} ({refusing})"));
    }
    let codes = EXAMPLES.len() * LENGTHS.len();
    Ok(format!(
        "{} refused, each by so many of {codes} codes: {}",
        WRONG.len(),
        said.join(", ")
    ))
}
