//! CBA v1-1 (H. Hosseini and S. Khazaei, "CBA Mode (v1-1)", March 31, 2014):
//! the algorithms ENC, DEC, H and F of section 3.2 statement by statement, on
//! strings of any number of bits, under the paper's names.
//!
//! Where the text under figures 4 and 5 prints a shift, the algorithms, figure
//! 3 and the changelog print a rotation: the rotation is meant.

use std::borrow::Borrow;
use std::ops::{BitXor, Shl};

// ---------------------------------------------------------------------------
// Section 2, notation.

/// A string: a finite sequence of symbols over {0, 1}.
#[derive(Clone, PartialEq, Eq, Debug)]
pub struct Bits(pub Vec<bool>);

impl Bits {
    /// |A|: the bit-length of A.
    pub fn len(&self) -> usize {
        self.0.len()
    }
}

/// AB or (A, B): the concatenation of strings.
macro_rules! cat {
    ($($A:expr),+) => {{
        let mut AB = Bits(Vec::with_capacity(128));
        $(AB.0.extend_from_slice(&std::borrow::Borrow::<Bits>::borrow(&$A).0);)+
        AB
    }};
}
pub(crate) use cat;

/// The concatenation of a list of strings.
fn concat(list: &[Bits]) -> Bits {
    Bits(list.iter().flat_map(|A| &A.0).copied().collect())
}

/// 0^i: the string of i 0's.
pub fn zero(i: usize) -> Bits {
    Bits(vec![false; i])
}

/// 1^i: the string of i 1's.
pub fn one(i: usize) -> Bits {
    Bits(vec![true; i])
}

/// pad_i(A) = A 1 0^(i-|A|-1) if |A| < i, and A if |A| = i.
pub fn pad_i(i: usize, A: impl Borrow<Bits>) -> Bits {
    let A = A.borrow();
    assert!(A.len() <= i, "nothing to pad");
    if A.len() < i {
        cat![A, one(1), zero(i - A.len() - 1)]
    } else {
        A.clone()
    }
}

/// MSB_i(A): the first i bits of A, where i <= |A|.
pub fn MSB(i: usize, A: impl Borrow<Bits>) -> Bits {
    let A = A.borrow();
    Bits(A.0[..i].to_vec())
}

/// LSB_i(A): the last i bits of A, where i <= |A|.
pub fn LSB(i: usize, A: impl Borrow<Bits>) -> Bits {
    let A = A.borrow();
    Bits(A.0[A.len() - i..].to_vec())
}

/// A xor B: bitwise, of two equal-length strings.
fn xor(A: &Bits, B: &Bits) -> Bits {
    assert_eq!(A.len(), B.len(), "strings of unequal lengths");
    Bits(A.0.iter().zip(&B.0).map(|(x, y)| x ^ y).collect())
}

impl<B: Borrow<Bits>> BitXor<B> for Bits {
    type Output = Bits;
    fn bitxor(self, B: B) -> Bits {
        xor(&self, B.borrow())
    }
}

impl<B: Borrow<Bits>> BitXor<B> for &Bits {
    type Output = Bits;
    fn bitxor(self, B: B) -> Bits {
        xor(self, B.borrow())
    }
}

/// [i]_8: the 8-bit string that encodes i as a binary number, i in {0, ..., 255}.
pub fn i_8(i: usize) -> Bits {
    assert!(i <= 255);
    Bits((0..8).rev().map(|j| i >> j & 1 == 1).collect())
}

/// A << i: as long as A, a left shift by i bits; the first i bits are discarded.
impl Shl<usize> for &Bits {
    type Output = Bits;
    fn shl(self, i: usize) -> Bits {
        cat![LSB(self.len() - i, self), zero(i)]
    }
}

/// A >>> i: as long as A, a right rotation by i bits; the last i bits are moved
/// to the beginning.
pub fn rotr(A: impl Borrow<Bits>, i: usize) -> Bits {
    let A = A.borrow();
    cat![LSB(i, A), MSB(A.len() - i, A)]
}

/// 2.A = (A << 1) xor MSB_1(A) . 0^59 11011 for a string A of length 64.
/// The 59 is |A| - 5: strings of length 8 (see `Cba::small`) have 0^3 11011,
/// and x^8 + x^4 + x^3 + x + 1 is irreducible too.
fn times_2(A: &Bits) -> Bits {
    let x11011 = Bits(vec![true, true, false, true, true]);
    if MSB(1, A) == one(1) {
        (A << 1) ^ cat![zero(A.len() - 5), x11011]
    } else {
        A << 1
    }
}

/// 3.A = A xor (2.A).
fn times_3(A: &Bits) -> Bits {
    A ^ times_2(A)
}

/// alpha . A for alpha from 2 to 6.
pub fn times(alpha: usize, A: impl Borrow<Bits>) -> Bits {
    let A = A.borrow();
    match alpha {
        2 => times_2(A),
        3 => times_3(A),
        4 => times_2(&times_2(A)), // 4.A = 2.(2.A)
        5 => times_3(&times_3(A)), // 5.A = 3.(3.A)
        6 => times_3(&times_2(A)), // 6.A = 3.(2.A)
        _ => panic!("the paper multiplies by 2 to 6"),
    }
}

/// A_1 ... A_m <- A where |A_i| = n for 1 <= i <= m - 1, the rest in A_m.
/// Place 0 of the list is empty, so that place i holds A_i.
pub fn blocks(n: usize, m: usize, A: &Bits) -> Vec<Bits> {
    let mut list = vec![zero(0)];
    list.extend((1..m).map(|i| Bits(A.0[(i - 1) * n..i * n].to_vec())));
    list.push(Bits(A.0[(m - 1) * n..].to_vec()));
    list
}

// ---------------------------------------------------------------------------
// Section 3.1, parameters.

/// The blockcipher E under one key K: `K.E(X)` is E_K(X), `K.D(X)` is D_K(X).
pub trait Blockcipher {
    fn E(&self, X: impl Borrow<Bits>) -> Bits;
    fn D(&self, X: impl Borrow<Bits>) -> Bits;
}

/// The blocksize n, the bits nu of a nonce, the tag-length tau, the
/// usage-capacity b, and l.
#[derive(Clone, Copy, Debug)]
pub struct Cba {
    pub n: usize,
    pub nu: usize,
    pub tau: usize,
    pub b: usize,
    pub l: usize,
}

/// The recommended parameter sets (1) to (10): k, tau, b. E is AES in all.
pub const SETS: [(usize, usize, usize); 10] = [
    (128, 32, 16),
    (128, 32, 32),
    (128, 64, 16),
    (128, 64, 32),
    (128, 64, 48),
    (128, 96, 16),
    (128, 96, 32),
    (128, 96, 48),
    (192, 64, 32),
    (256, 96, 48),
];

impl Cba {
    /// n = 128, nu = 96, 0 <= tau <= n, b <= n/2 - 16, l = min(n - 2b - 32, tau).
    pub fn new(tau: usize, b: usize) -> Cba {
        let (n, nu) = (128, 96);
        assert!(
            tau <= n && b <= n / 2 - 16,
            "parameters outside section 3.1"
        );
        Cba {
            n,
            nu,
            tau,
            b,
            l: (n - 2 * b - 32).min(tau),
        }
    }

    /// Not in the paper, for counting: n = 16 and nu = 0. Every statement of
    /// ENC, DEC, H and F that is written in n and nu stands as it is; l, whose
    /// formula needs n >= 32, is chosen freely.
    pub fn small(tau: usize, l: usize) -> Cba {
        let (n, nu) = (16, 0);
        assert!(tau <= n && l <= tau && l <= n - 2);
        Cba {
            n,
            nu,
            tau,
            b: 0,
            l,
        }
    }
}

// ---------------------------------------------------------------------------
// Section 3.2, the scheme.

impl Cba {
    /// function ENC(K, N, A, M); None is the symbol for invalid.
    pub fn ENC(&self, K: &impl Blockcipher, N: &Bits, A: &Bits, M: &Bits) -> Option<Bits> {
        let T_A = self.H(K, A);
        self.ENC_with(K, N, T_A, M)
    }

    /// ENC after its first statement, with any T_A in {0,1}^tau.
    pub fn ENC_with(&self, K: &impl Blockcipher, N: &Bits, T_A: Bits, M: &Bits) -> Option<Bits> {
        let Cba { n, nu, tau, b, l } = *self;
        let pad = |A: &Bits| pad_i(n, A);
        // Inputs that do not conform to the assumptions: N in {0,1}^nu.
        if N.len() != nu {
            return None;
        }

        let R = K.E(cat![zero(n - nu - 16), i_8(tau), i_8(b), N]);
        let mut Delta = F(2, 2, rotr(cat![MSB(n - l - 2, &R), one(l + 2)], l / 2 + 1));
        if M.len() <= l {
            let C_0 = M ^ LSB(M.len(), &R);
            Delta = F(3, 3, Delta);
            let C_1 = MSB(tau, K.E(cat![zero(n - tau), T_A] ^ pad(&C_0) ^ &Delta));
            return Some(cat![C_0, C_1]);
        }
        // M_0 M' <- M where |M_0| = l
        let (M_0, M_prime) = (MSB(l, M), LSB(M.len() - l, M));
        let C_0 = M_0 ^ LSB(l, &R);
        let T = T_A ^ cat![zero(tau - l), C_0];
        // M_1 ... M_m <- M' where |M_i| = n for 1 <= i <= m-1, 1 <= |M_m| <= n
        let m = M_prime.len().div_ceil(n);
        let M = blocks(n, m, &M_prime);
        let mut C = vec![zero(0); m + 2];
        C[0] = C_0;
        let mut S = zero(n);
        // for i = 1 to m-1 do
        for i in 1..m {
            S = S ^ &M[i];
            Delta = F(2, 2, Delta);
            C[i] = K.E(&M[i] ^ &Delta) ^ &Delta;
        }
        if M[m].len() <= n - tau && m >= 2 {
            C[m - 1] = MSB(M[m].len() + tau, &C[m - 1] ^ &Delta) ^ cat![&M[m], T];
            Delta = F(3, 3, Delta);
            C[m] = S ^ K.E(pad(&C[m - 1]) ^ Delta);
            Some(concat(&C[0..=m]))
        } else {
            S = S ^ pad(&M[m]);
            Delta = F(2, 4, Delta);
            C[m] = &M[m] ^ MSB(M[m].len(), K.E(cat![zero(n - tau), T] ^ &Delta));
            if M[m].len() < n {
                Delta = F(3, 5, Delta);
            } else {
                Delta = F(5, 3, Delta);
            }
            C[m + 1] = MSB(tau, K.E(S ^ cat![zero(n - tau), T] ^ Delta));
            Some(concat(&C[0..=m + 1]))
        }
    }

    /// function DEC(K, N, A, C); None is the symbol for invalid.
    pub fn DEC(&self, K: &impl Blockcipher, N: &Bits, A: &Bits, C: &Bits) -> Option<Bits> {
        let Cba { n, nu, tau, b, l } = *self;
        let pad = |A: &Bits| pad_i(n, A);
        // Inputs that do not conform to the assumptions: N in {0,1}^nu.
        if N.len() != nu {
            return None;
        }

        if C.len() < tau {
            return None;
        }
        let T_A = self.H(K, A);
        let R = K.E(cat![zero(n - nu - 16), i_8(tau), i_8(b), N]);
        let mut Delta = F(2, 2, rotr(cat![MSB(n - l - 2, &R), one(l + 2)], l / 2 + 1));
        if C.len() <= l + tau {
            // C_0 C_1 <- C where |C_1| = tau
            let (C_0, C_1) = (MSB(C.len() - tau, C), LSB(tau, C));
            let M = &C_0 ^ LSB(C_0.len(), &R);
            Delta = F(3, 3, Delta);
            let Temp = MSB(tau, K.E(cat![zero(n - tau), T_A] ^ pad(&C_0) ^ Delta));
            return if C_1 == Temp { Some(M) } else { None };
        }
        // C_0 C' <- C where |C_0| = l
        let (C_0, C_prime) = (MSB(l, C), LSB(C.len() - l, C));
        let M_0 = &C_0 ^ LSB(l, &R);
        let T = T_A ^ cat![zero(tau - l), C_0];
        // C_1 ... C_m <- C' where |C_i| = n for 1 <= i <= m-1, 1 <= |C_m| <= n
        let m = C_prime.len().div_ceil(n);
        let C = blocks(n, m, &C_prime);
        let mut M = vec![zero(0); m + 1];
        M[0] = M_0;
        let mut S = zero(n);
        // for i = 1 to m-2 do
        for i in 1..m - 1 {
            Delta = F(2, 2, Delta);
            M[i] = K.D(&C[i] ^ &Delta) ^ &Delta;
            S = S ^ &M[i];
        }
        if C[m].len() > tau && m >= 2 {
            // C'_{m-1} C'_m <- C_{m-1} C_m where |C'_m| = n
            let both = cat![&C[m - 1], &C[m]];
            let (C_prime_m_1, C_prime_m) = (MSB(both.len() - n, &both), LSB(n, &both));
            let Delta_prime = F(6, 6, &Delta);
            M[m - 1] = C_prime_m ^ S ^ K.E(pad(&C_prime_m_1) ^ Delta_prime);
            Delta = F(2, 2, Delta);
            // M_m T' <- C'_{m-1} xor MSB(...) where |T'| = tau
            let M_m_T_prime = &C_prime_m_1 ^ MSB(C_prime_m_1.len(), K.E(&M[m - 1] ^ Delta));
            let T_prime = LSB(tau, &M_m_T_prime);
            M[m] = MSB(M_m_T_prime.len() - tau, &M_m_T_prime);
            if T == T_prime {
                Some(concat(&M[0..=m]))
            } else {
                None
            }
        } else {
            // C'_{m-1} C'_m <- C_m if m = 1, C_{m-1} C_m if not, where |C'_m| = tau
            let both = if m == 1 {
                C[m].clone()
            } else {
                cat![&C[m - 1], &C[m]]
            };
            let (C_prime_m_1, C_prime_m) = (MSB(both.len() - tau, &both), LSB(tau, &both));
            Delta = F(2, 4, Delta);
            let M_prime_m_1 =
                &C_prime_m_1 ^ MSB(C_prime_m_1.len(), K.E(cat![zero(n - tau), T] ^ &Delta));
            S = S ^ pad(&M_prime_m_1);
            if M_prime_m_1.len() < n {
                Delta = F(3, 5, Delta);
            } else {
                Delta = F(5, 3, Delta);
            }
            let Temp = MSB(tau, K.E(S ^ cat![zero(n - tau), T] ^ Delta));
            // M_0 ... M_{m-2} M'_{m-1}: for m = 1 this is M_0 M'_0, since the
            // message starts with M_0 whatever m is.
            let M_0_to_m_2 = concat(&M[0..(m - 1).max(1)]);
            if C_prime_m == Temp {
                Some(cat![M_0_to_m_2, M_prime_m_1])
            } else {
                None
            }
        }
    }

    /// function H(K, A)
    pub fn H(&self, K: &impl Blockcipher, A: &Bits) -> Bits {
        let S = self.H_sum(K, A);
        let T_A = MSB(self.tau, S);
        T_A
    }

    /// H before its last statement: the sum S in {0,1}^n.
    pub fn H_sum(&self, K: &impl Blockcipher, A: &Bits) -> Bits {
        let Cba { n, tau, b, .. } = *self;
        let pad = |A: &Bits| pad_i(n, A);
        // A_1 ... A_a <- A where |A_i| = n for 1 <= i <= a-1, |A_a| < n
        let a = A.len() / n + 1;
        let A = blocks(n, a, A);
        let mut S = zero(n);
        let L = K.E(cat![i_8(tau), i_8(b), zero(n - 16)]);
        let mut Delta = F(2, 2, rotr(cat![MSB(n - 2, L), one(2)], 1));
        // for i = 1 to a-1 do
        for i in 1..a {
            Delta = F(2, 2, Delta);
            S = S ^ K.E(&A[i] ^ &Delta);
        }
        if A[a].len() > 0 {
            Delta = F(3, 3, Delta);
            S = S ^ K.E(pad(&A[a]) ^ Delta);
        }
        S
    }
}

/// function F_{alpha,beta}(Delta)
pub fn F(alpha: usize, beta: usize, Delta: impl Borrow<Bits>) -> Bits {
    let Delta = Delta.borrow();
    // (A, B) <- Delta where |A| = |B| = 64
    let (A, B) = (MSB(Delta.len() / 2, Delta), LSB(Delta.len() / 2, Delta));
    cat![times(alpha, A), times(beta, B)]
}
