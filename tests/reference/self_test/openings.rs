//! How many strings open, counted by trying them.

use crate::ciphers::Table;
use crate::form::{by_form, form};
use crate::mode::aes::Aes;
use crate::mode::cba::{cat, zero, Bits, Blockcipher, Cba};
use crate::random::Random;
use crate::values::number_bits;
use std::collections::BTreeSet;

/// How many of the ciphertexts that start with `head` and end in any string of
/// `free` bits open. What opens must be sealed to the same ciphertext again.
fn count_openings(
    p: &Cba,
    K: &impl Blockcipher,
    N: &Bits,
    A: &Bits,
    head: &Bits,
    free: usize,
) -> Result<u64, String> {
    let mut open = 0;
    for x in 0..1 << free {
        let C = cat![head, number_bits(x, free)];
        if let Some(M) = p.DEC(K, N, A, &C) {
            ensure!(p.ENC(K, N, A, &M) == Some(C), "{p:?}: ENC(DEC(C)) is not C");
            open += 1;
        }
    }
    Ok(open)
}

/// Of the 2^c ciphertexts of c bits exactly 2^(c - tau) open: one for each
/// message. With blocks of 128 bits only the short form and the separate form
/// with m = 1 have ciphertexts this short.
pub fn openings(random: &mut Random) -> Result<String, String> {
    let (mut strings, mut lengths) = ([0; 3], 0);
    for tau in 2..=8 {
        for b in [48, 47, 46, 45, 0] {
            let p = Cba::new(tau, b);
            let K = Aes::new(&random.bytes(16));
            // One long run for every tag-length, with another l each.
            let longest = if b == [48, 47, 46, 45, 0][tau % 5] {
                16
            } else {
                12
            };
            for c in 0..=longest {
                let (N, A) = (random.bits(p.nu), random.below(40));
                let open = count_openings(&p, &K, &N, &random.bits(A), &zero(0), c)?;
                let want = if c < tau { 0 } else { 1 << (c - tau) };
                ensure!(open == want, "{p:?}, {c} bits: {open} open, not {want}");
                if c >= tau {
                    strings[form(&p, c - tau)] += 1 << c;
                }
                lengths += 1;
            }
        }
    }
    Ok(format!(
        "{lengths} lengths, strings tried: {}",
        by_form(strings)
    ))
}

/// The same with blocks of 16 bits, where the joined form is short enough too.
/// Of longer ciphertexts the last 16 bits are tried, after a random start:
/// 2^(16 - tau) of them open. In the short and the separate form the tag is
/// among these bits and one tag is right. In the joined form they are C'_m; as
/// it takes every value so do M_{m-1} and E_K(M_{m-1} xor Delta), and the last
/// tau bits that make T' = T are given.
pub fn small_openings(random: &mut Random) -> Result<String, String> {
    let (mut strings, mut lengths) = ([0; 3], 0);
    for tau in 0..=8 {
        for l in BTreeSet::from([0, tau.min(1), tau / 2, tau]) {
            let p = Cba::small(tau, l);
            let K = Table::new(random);
            let mut c: BTreeSet<usize> = (0..=10).collect();
            // The joined form with |M_m| = 1, if that is few strings.
            let joined = l + p.n + 1 + tau;
            if tau <= 2 && joined <= 20 {
                c.extend([17, joined]);
            }
            for c in c {
                let A = random.below(40);
                let open = count_openings(&p, &K, &zero(0), &random.bits(A), &zero(0), c)?;
                let want = if c < tau { 0 } else { 1 << (c - tau) };
                ensure!(open == want, "{p:?}, {c} bits: {open} open, not {want}");
                if c >= tau {
                    strings[form(&p, c - tau)] += 1 << c;
                }
                lengths += 1;
            }
        }
    }
    let whole = format!("{lengths} lengths, strings tried: {}", by_form(strings));

    let (mut strings, mut lengths) = ([0; 3], 0);
    for tau in [0, 1, 2, 5, 8, 13, 16] {
        for l in BTreeSet::from([0, tau / 2, tau.min(14)]) {
            let p = Cba::small(tau, l);
            let K = Table::new(random);
            let m = if l == 0 { 2 } else { 3 };
            // |M_m| on both sides of the border between joined and separate.
            for last in [p.n - tau, p.n - tau + 1] {
                let message = l + (m - 1) * p.n + last;
                let head = random.bits(message + tau - p.n);
                let A = random.below(40);
                let open = count_openings(&p, &K, &zero(0), &random.bits(A), &head, p.n)?;
                let want = 1 << (p.n - tau);
                ensure!(
                    open == want,
                    "{p:?}, message of {message} bits: {open} open, not {want}"
                );
                strings[form(&p, message)] += 1 << p.n;
                lengths += 1;
            }
        }
    }
    Ok(format!(
        "{whole}; {lengths} lengths by their ends, strings tried: {}",
        by_form(strings)
    ))
}
