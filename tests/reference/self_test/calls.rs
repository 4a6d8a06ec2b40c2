//! The hash of the data, and how often the block cipher is called.

use crate::ciphers::Counted;
use crate::mode::aes::Aes;
use crate::mode::cba::{cat, one, zero, Bits, Cba, SETS};
use crate::random::Random;
use std::cell::Cell;

/// H of no data is the zero string (appendix A), and data that end in what pad
/// would add are other data.
pub fn data(random: &mut Random) -> Result<String, String> {
    let mut pairs = 0;
    for (k, tau, b) in SETS {
        let (p, K) = (Cba::new(tau, b), Aes::new(&random.bytes(k / 8)));
        ensure!(p.H(&K, &zero(0)) == zero(tau), "H of no data is not zero");
        for blocks in 1..=3 {
            for short in 1..=128 {
                let A = random.bits(128 * blocks - short);
                let padded = cat![&A, one(1), zero(short - 1)];
                ensure!(
                    p.H(&K, &A) != p.H(&K, &padded),
                    "{p:?}: H of {} bits is H of them padded",
                    A.len()
                );
                pairs += 1;
            }
        }
    }
    Ok(format!(
        "H of no data zero, H of {pairs} strings not that of the string padded"
    ))
}

/// Section 5: on average ceil(|A|/n) + ceil(|M|/n) + 1 + (tau - l)/n calls, over
/// n lengths of messages that follow one another and are long enough for m >= 2.
/// The call for L, which is one for each key, is not among them.
pub fn calls(random: &mut Random) -> Result<String, String> {
    let mut sums = 0;
    for (k, tau, b) in SETS {
        let p = Cba::new(tau, b);
        let K = Counted(Aes::new(&random.bytes(k / 8)), Cell::new(0));
        let N = random.bits(p.nu);
        for a in [0, 1, 127, 128, 129, 255, 256, 257] {
            let A = random.bits(a);
            let (mut enc, mut dec) = (0, 0);
            for message in 2 * p.n + 1..=3 * p.n {
                K.1.set(0);
                let C = p
                    .ENC(&K, &N, &A, &random.bits(message))
                    .ok_or("ENC refused")?;
                enc += K.1.replace(0) - 1;
                p.DEC(&K, &N, &A, &C).ok_or("DEC refused")?;
                dec += K.1.get() - 1;
            }
            let want = p.n * (a.div_ceil(p.n) + 3 + 1) + tau - p.l;
            ensure!(
                enc == want,
                "tau {tau} b {b}, data of {a} bits: ENC {enc}, not {want}"
            );
            ensure!(
                dec == want,
                "tau {tau} b {b}, data of {a} bits: DEC {dec}, not {want}"
            );
            sums += 2;
        }
    }
    Ok(format!("{sums} averages as in section 5"))
}
