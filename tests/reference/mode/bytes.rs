//! Strings of bits as bytes, bytes as hex, and AES on strings of bits.

use super::aes::Aes;
use super::cba::{Bits, Blockcipher};
use std::borrow::Borrow;

pub fn to_bits(bytes: &[u8]) -> Bits {
    Bits(
        bytes
            .iter()
            .flat_map(|x| (0..8).rev().map(move |j| x >> j & 1 == 1))
            .collect(),
    )
}

pub fn to_bytes(bits: &Bits) -> Vec<u8> {
    assert!(bits.len() % 8 == 0, "not whole bytes");
    bits.0
        .chunks_exact(8)
        .map(|c| c.iter().fold(0, |x, &bit| x << 1 | bit as u8))
        .collect()
}

/// Lower-case hex, `-` for nothing.
pub fn to_hex(bytes: &[u8]) -> String {
    if bytes.is_empty() {
        "-".into()
    } else {
        bytes.iter().map(|x| format!("{x:02x}")).collect()
    }
}

pub fn from_hex(hex: &str) -> Result<Vec<u8>, String> {
    if hex == "-" {
        return Ok(vec![]);
    }
    let good = !hex.is_empty()
        && hex.len() % 2 == 0
        && hex.bytes().all(|c| matches!(c, b'0'..=b'9' | b'a'..=b'f'));
    if !good {
        return Err(format!("not lower-case hex: {hex:?}"));
    }
    let byte = |i: usize| u8::from_str_radix(&hex[i..i + 2], 16).unwrap();
    Ok((0..hex.len()).step_by(2).map(byte).collect())
}

impl Blockcipher for Aes {
    fn E(&self, X: impl Borrow<Bits>) -> Bits {
        to_bits(&self.encrypt(&to_bytes(X.borrow()).try_into().expect("16 bytes")))
    }
    fn D(&self, X: impl Borrow<Bits>) -> Bits {
        to_bits(&self.decrypt(&to_bytes(X.borrow()).try_into().expect("16 bytes")))
    }
}
