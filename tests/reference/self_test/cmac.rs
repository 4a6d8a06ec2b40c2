//! CMAC held to the standards' examples, and on strings of bits.

use super::cmac_examples::EXAMPLES;
use crate::cmac::{padded, pre_processing, times_u, Constant, BLOCK, CMAC};
use crate::mode::aes::Aes;
use crate::mode::bytes::{to_bits, to_bytes, to_hex};
use crate::mode::cba::{cat, Bits, MSB};
use crate::random::Random;

/// Every value of the standards' examples.
pub fn vectors(_: &mut Random) -> Result<String, String> {
    let mut values = 0;
    for example in EXAMPLES {
        let (name, K) = (example.name, example.K()?);
        for (what, (found, want)) in ["CIPH(0)", "K1", "K2"]
            .iter()
            .zip(pre_processing(&K).iter().zip(example.before))
        {
            let found = to_hex(&to_bytes(found));
            ensure!(found == want, "{name}, {what}: {found}, not {want}");
            values += 1;
        }
        for (M, code) in example.rows()? {
            let found = to_hex(&to_bytes(&CMAC(&K, &M)));
            let same = found == to_hex(&to_bytes(&code));
            ensure!(same, "{name}, {} bits: {found}", M.len());
            values += 1;
        }
    }
    Ok(format!("{values} values of RFC 4493 and SP 800-38B"))
}

/// A.u, on numbers of 128 bits instead of strings; and messages of every number of
/// bits up to three blocks: a message that ends in what is padded is another message.
pub fn strings(random: &mut Random) -> Result<String, String> {
    let products = 1000;
    for _ in 0..products {
        let A = random.bits(BLOCK);
        let number = to_bytes(&A).iter().fold(0u128, |x, &b| x << 8 | b as u128);
        let over = if number >> 127 == 1 { 0b1000_0111 } else { 0 };
        let want = to_bits(&(number << 1 ^ over).to_be_bytes());
        ensure!(times_u(&A, &Constant()) == want, "{number:x} times u");
    }
    let lengths = 3 * BLOCK;
    for length in 0..lengths {
        let (K, M) = (Aes::new(&random.bytes(16)), random.bits(length));
        let full = length - length % BLOCK;
        let last = padded(&Bits(M.0[full..].to_vec()));
        let other = cat![MSB(full, &M), last];
        ensure!(
            CMAC(&K, &M) != CMAC(&K, &other),
            "{length} bits: the code of the message padded"
        );
    }
    Ok(format!(
        "{products} products, {lengths} codes not those of the message padded"
    ))
}
