//! The S-box, its inverse, and the tables that join each with the matrix of MixColumns or of its inverse, all
//! computed when this is compiled.

pub const S: [u8; 256] = s_box();
pub const INV_S: [u8; 256] = inverse(&S);

/// Table k gives what a byte in row k adds to its column, as a big-endian word.
pub static T: [[u32; 256]; 4] = joined(&S, [2, 1, 1, 3]);
pub static INV_T: [[u32; 256]; 4] = joined(&INV_S, [14, 9, 13, 11]);

/// Multiplication by x in the byte field.
pub const fn double(v: u8) -> u8 {
    (v << 1) ^ ((v >> 7) * 0x1b)
}

const fn times(a: u8, b: u8) -> u8 {
    let (mut sum, mut power, mut i) = (0, a, 0);
    while i < 8 {
        sum ^= power * (b >> i & 1);
        power = double(power);
        i += 1;
    }
    sum
}

/// As p runs through the powers of 3 and q through those of its inverse f6, q is the inverse of p.
const fn s_box() -> [u8; 256] {
    let mut s = [0x63; 256]; // which is right for 00, the one that no power is
    let (mut p, mut q, mut i) = (1u8, 1u8, 0);
    while i < 255 {
        let rows = q.rotate_left(1) ^ q.rotate_left(2) ^ q.rotate_left(3) ^ q.rotate_left(4);
        s[p as usize] = 0x63 ^ q ^ rows;
        p = times(p, 0x03);
        q = times(q, 0xf6);
        i += 1;
    }
    s
}

const fn inverse(s: &[u8; 256]) -> [u8; 256] {
    let (mut inv, mut v) = ([0; 256], 0);
    while v < 256 {
        inv[s[v] as usize] = v as u8;
        v += 1;
    }
    inv
}

/// From a box and the first column of a matrix whose columns are turned from one to the next.
const fn joined(s: &[u8; 256], [a, b, c, d]: [u8; 4]) -> [[u32; 256]; 4] {
    let (mut t, mut v) = ([[0; 256]; 4], 0);
    while v < 256 {
        let x = s[v];
        let word = u32::from_be_bytes([times(x, a), times(x, b), times(x, c), times(x, d)]);
        let mut k = 0;
        while k < 4 {
            t[k][v] = word.rotate_right(8 * k as u32);
            k += 1;
        }
        v += 1;
    }
    t
}
