//! CMAC: the one-key CBC code of document 003 (S. R. Ranpise, "Implementation of
//! improved CBC MAC for arbitrary length messages", Roorkee, June 2008), sections
//! 4.1 and 4.2 statement by statement, on strings of any number of bits, under that
//! document's names. RFC 4493 and NIST SP 800-38B call L.u K1, and L.u^2 K2.

use super::mode::cba::{blocks, cat, i_8, one, zero, Bits, Blockcipher, MSB};
use std::borrow::Borrow;

/// n: the bits of a block.
pub const BLOCK: usize = 128;

/// The n-bit constant for n = 128: 0x87 in its last byte, and zeros.
pub fn Constant() -> Bits {
    cat![zero(BLOCK - 8), i_8(0x87)]
}

/// A.u: A << 1, xor the constant where the most significant bit of A is 1.
pub fn times_u(A: &Bits, Constant: &Bits) -> Bits {
    if MSB(1, A) == zero(1) {
        A << 1
    } else {
        (A << 1) ^ Constant
    }
}

/// Section 4.1, pre-processing: L, L.u and L.u^2.
pub fn pre_processing(K: &impl Blockcipher) -> [Bits; 3] {
    let L = K.E(zero(BLOCK));
    let L_u = times_u(&L, &Constant());
    let L_u2 = times_u(&L_u, &Constant());
    [L, L_u, L_u2]
}

/// M 1 0^(n-1-|M|), for a last block that has fewer than n bits.
pub fn padded(M: &Bits) -> Bits {
    cat![M, one(1), zero(BLOCK - 1 - M.len())]
}

/// Section 4.2, tag-generation, up to T, with any L.u and L.u^2.
pub fn T(K: &impl Blockcipher, L_u: &Bits, L_u2: &Bits, M: &Bits) -> Bits {
    let n = BLOCK;
    // M[1], ..., M[m] <- M where |M[i]| = n for 1 <= i <= m-1; |M[m]| = 0 only if M is empty
    let m = M.len().div_ceil(n).max(1);
    let M = blocks(n, m, M);
    let mut Y = zero(n);
    // for i = 1 to m-1 do
    for i in 1..m {
        Y = K.E(&M[i] ^ Y);
    }
    let X = if M[m].len() == n {
        &M[m] ^ Y ^ L_u
    } else {
        padded(&M[m]) ^ Y ^ L_u2
    };
    K.E(X)
}

/// The code of M; its tag of t bits is MSB_t of it.
pub fn CMAC(K: &impl Blockcipher, M: impl Borrow<Bits>) -> Bits {
    let [_, L_u, L_u2] = pre_processing(K);
    T(K, &L_u, &L_u2, M.borrow())
}
