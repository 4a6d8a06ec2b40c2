//! The operations and the tables of the paper.

use crate::mode::cba::{cat, i_8, one, pad_i, rotr, times, zero, Bits, Cba, LSB, MSB, SETS};
use crate::random::Random;
use crate::values::{bits_number, number_bits};

/// The operations of section 2.
pub fn notation(random: &mut Random) -> Result<String, String> {
    let s = |text: &str| Bits(text.bytes().map(|c| c == b'1').collect());
    let same = [
        (cat![s("10"), s(""), s("011")], s("10011")),
        (zero(3), s("000")),
        (one(2), s("11")),
        (pad_i(8, s("101")), s("10110000")),
        (pad_i(8, s("")), s("10000000")),
        (pad_i(4, s("101")), s("1011")),
        (pad_i(3, s("101")), s("101")),
        (MSB(2, s("10110")), s("10")),
        (LSB(2, s("10110")), s("10")),
        (LSB(3, s("10110")), s("110")),
        (MSB(0, s("1")), s("")),
        (s("1100") ^ s("1010"), s("0110")),
        (i_8(0), s("00000000")),
        (i_8(96), s("01100000")),
        (i_8(255), s("11111111")),
        (&s("10110") << 2, s("11000")),
        (rotr(s("10110"), 0), s("10110")),
        (rotr(s("10110"), 1), s("01011")),
        (rotr(s("10110"), 2), s("10101")),
    ];
    for (i, (got, want)) in same.iter().enumerate() {
        ensure!(got == want, "example {i}: {got:?}, not {want:?}");
    }
    // The products, against multiplication of polynomials and long division by
    // x^64 + x^4 + x^3 + x + 1 or x^8 + x^4 + x^3 + x + 1.
    let product = |width: usize, alpha: u128, x: u64| {
        let mut p = (0..3)
            .filter(|i| alpha >> i & 1 == 1)
            .fold(0, |p, i| p ^ (x as u128) << i);
        for i in (0..3).rev() {
            if p >> (width + i) & 1 == 1 {
                p ^= (1 << width | 0b11011) << i;
            }
        }
        p as u64
    };
    let mut products = 0;
    for alpha in 2..=6 {
        for (width, x) in (0..256)
            .map(|x| (8, x))
            .chain((0..1000).map(|_| (64, random.number())))
        {
            let got = bits_number(&times(alpha, number_bits(x, width)));
            ensure!(
                got == product(width, alpha as u128, x),
                "{alpha} . {x:x}: {got:x}"
            );
            products += 1;
        }
    }
    Ok(format!("{} examples, {products} products", same.len()))
}

/// The table of l and of the gain g = 1 - (tau - l)/n, in quarters (section 6).
pub fn tables(_: &mut Random) -> Result<String, String> {
    let l = [32, 32, 64, 32, 0, 64, 32, 0, 32, 0];
    let g = [4, 4, 4, 3, 2, 3, 2, 1, 3, 1];
    for (i, (_, tau, b)) in SETS.into_iter().enumerate() {
        let p = Cba::new(tau, b);
        ensure!(p.l == l[i], "set {}: l is {}, not {}", i + 1, p.l, l[i]);
        ensure!(
            4 * (p.n - (tau - p.l)) == g[i] * p.n,
            "set {}: another gain",
            i + 1
        );
    }
    Ok("l and g of the ten sets".into())
}
