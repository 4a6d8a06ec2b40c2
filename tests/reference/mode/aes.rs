//! AES from FIPS 197: keys of 128, 192 and 256 bits, both directions.
//!
//! The S-box is computed from the field, not typed in. The state is kept as
//! the 16 bytes of the block: byte r + 4c is row r of column c (section 3.4).

/// Multiplication in GF(2^8) modulo x^8 + x^4 + x^3 + x + 1 (section 4.2).
const fn mul(a: u8, b: u8) -> u8 {
    let (mut a, mut b, mut p) = (a, b, 0);
    while b != 0 {
        if b & 1 == 1 {
            p ^= a;
        }
        a = (a << 1) ^ (if a & 0x80 != 0 { 0x1b } else { 0 });
        b >>= 1;
    }
    p
}

/// The inverse in GF(2^8), 0 for 0: the 254th power.
const fn inverse(a: u8) -> u8 {
    let (mut p, mut i) = (1, 0);
    while i < 254 {
        p = mul(p, a);
        i += 1;
    }
    p
}

/// The S-box (section 5.1.1): the inverse, then the affine map
/// b'_i = b_i + b_(i+4) + b_(i+5) + b_(i+6) + b_(i+7) + c_i with c = 63.
const fn sbox() -> [u8; 256] {
    let (mut t, mut x) = ([0; 256], 0);
    while x < 256 {
        let b = inverse(x as u8);
        t[x] = b
            ^ b.rotate_right(4)
            ^ b.rotate_right(5)
            ^ b.rotate_right(6)
            ^ b.rotate_right(7)
            ^ 0x63;
        x += 1;
    }
    t
}

const fn inverse_of(t: &[u8; 256]) -> [u8; 256] {
    let (mut u, mut x) = ([0; 256], 0);
    while x < 256 {
        u[t[x] as usize] = x as u8;
        x += 1;
    }
    u
}

/// The products of every byte with one factor.
const fn times(factor: u8) -> [u8; 256] {
    let (mut t, mut x) = ([0; 256], 0);
    while x < 256 {
        t[x] = mul(x as u8, factor);
        x += 1;
    }
    t
}

static SBOX: [u8; 256] = sbox();
pub static INV_SBOX: [u8; 256] = inverse_of(&sbox());
static BY_2: [u8; 256] = times(0x02);
static BY_3: [u8; 256] = times(0x03);
static BY_9: [u8; 256] = times(0x09);
static BY_B: [u8; 256] = times(0x0b);
static BY_D: [u8; 256] = times(0x0d);
static BY_E: [u8; 256] = times(0x0e);

pub type Block = [u8; 16];

/// Section 5.1.1; with the inverse S-box, section 5.3.2.
pub fn sub_bytes(s: &mut Block, t: &[u8; 256]) {
    for x in s {
        *x = t[*x as usize];
    }
}

/// Section 5.1.2: row r moves r places to the left.
pub fn shift_rows(s: &Block) -> Block {
    std::array::from_fn(|i| s[(i % 4 + 4 * (i / 4 + i % 4)) % 16])
}

/// Section 5.3.1: row r moves r places to the right.
pub fn inv_shift_rows(s: &Block) -> Block {
    std::array::from_fn(|i| s[(i % 4 + 4 * (i / 4 + 4 - i % 4)) % 16])
}

/// Section 5.1.3: each column times {03}x^3 + {01}x^2 + {01}x + {02}.
fn mix_columns(s: &mut Block) {
    for c in s.chunks_exact_mut(4) {
        let [w, x, y, z] = [c[0], c[1], c[2], c[3]];
        let row = |a: u8, b: u8, c: u8, d: u8| BY_2[a as usize] ^ BY_3[b as usize] ^ c ^ d;
        c[0] = row(w, x, y, z);
        c[1] = row(x, y, z, w);
        c[2] = row(y, z, w, x);
        c[3] = row(z, w, x, y);
    }
}

/// Section 5.3.3: each column times {0b}x^3 + {0d}x^2 + {09}x + {0e}.
pub fn inv_mix_columns(s: &mut Block) {
    for c in s.chunks_exact_mut(4) {
        let [w, x, y, z] = [c[0], c[1], c[2], c[3]];
        let row = |a: u8, b: u8, c: u8, d: u8| {
            BY_E[a as usize] ^ BY_B[b as usize] ^ BY_D[c as usize] ^ BY_9[d as usize]
        };
        c[0] = row(w, x, y, z);
        c[1] = row(x, y, z, w);
        c[2] = row(y, z, w, x);
        c[3] = row(z, w, x, y);
    }
}

/// Section 5.1.4.
pub fn add_round_key(s: &mut Block, k: &Block) {
    for (x, y) in s.iter_mut().zip(k) {
        *x ^= y;
    }
}

/// AES under one key, expanded once.
pub struct Aes {
    pub round_keys: Vec<Block>,
}

impl Aes {
    /// KeyExpansion (section 5.2, figure 11) for Nk = 4, 6 or 8 words.
    pub fn new(key: &[u8]) -> Aes {
        let nk = key.len() / 4;
        assert!(
            matches!(key.len(), 16 | 24 | 32),
            "an AES key has 16, 24 or 32 bytes"
        );
        let nr = nk + 6;
        let sub_word = |w: [u8; 4]| w.map(|x| SBOX[x as usize]);
        let mut w: Vec<[u8; 4]> = key.chunks_exact(4).map(|c| c.try_into().unwrap()).collect();
        let mut rcon = 1;
        for i in nk..4 * (nr + 1) {
            let mut temp = w[i - 1];
            if i % nk == 0 {
                temp.rotate_left(1);
                temp = sub_word(temp);
                temp[0] ^= rcon;
                rcon = mul(rcon, 2);
            } else if nk > 6 && i % nk == 4 {
                temp = sub_word(temp);
            }
            w.push(std::array::from_fn(|j| w[i - nk][j] ^ temp[j]));
        }
        let round_keys = w
            .chunks_exact(4)
            .map(|c| c.concat().try_into().unwrap())
            .collect();
        Aes { round_keys }
    }

    /// Cipher (section 5.1, figure 5).
    pub fn encrypt(&self, block: &Block) -> Block {
        let nr = self.round_keys.len() - 1;
        let mut s = *block;
        add_round_key(&mut s, &self.round_keys[0]);
        for round in 1..nr {
            sub_bytes(&mut s, &SBOX);
            s = shift_rows(&s);
            mix_columns(&mut s);
            add_round_key(&mut s, &self.round_keys[round]);
        }
        sub_bytes(&mut s, &SBOX);
        s = shift_rows(&s);
        add_round_key(&mut s, &self.round_keys[nr]);
        s
    }

    /// InvCipher, its result alone.
    pub fn decrypt(&self, block: &Block) -> Block {
        self.inv_cipher(block, |_| ())
    }

    /// InvCipher (section 5.3, figure 12), which shows its state after the first
    /// AddRoundKey and after each of the Nr rounds.
    pub fn inv_cipher(&self, block: &Block, mut show: impl FnMut(Block)) -> Block {
        let nr = self.round_keys.len() - 1;
        let mut s = *block;
        add_round_key(&mut s, &self.round_keys[nr]);
        show(s);
        for round in (1..nr).rev() {
            s = inv_shift_rows(&s);
            sub_bytes(&mut s, &INV_SBOX);
            add_round_key(&mut s, &self.round_keys[round]);
            inv_mix_columns(&mut s);
            show(s);
        }
        s = inv_shift_rows(&s);
        sub_bytes(&mut s, &INV_SBOX);
        add_round_key(&mut s, &self.round_keys[0]);
        show(s);
        s
    }
}

/// FIPS 197's own examples; the number of values compared.
pub fn self_test() -> Result<usize, String> {
    let mut compared = 0;
    let mut same = |what: &str, got: &[u8], want: u128| {
        compared += 1;
        let want = &want.to_be_bytes()[16 - got.len()..];
        if got == want {
            Ok(())
        } else {
            Err(format!("AES {what}: {got:02x?}, not {want:02x?}"))
        }
    };

    // Section 5.1.1: {53} becomes {ed}. Section 4.2: {57} times {83} is {c1}.
    same("S-box of 00", &[SBOX[0x00]], 0x63)?;
    same("S-box of 53", &[SBOX[0x53]], 0xed)?;
    same("57 times 83", &[mul(0x57, 0x83)], 0xc1)?;

    // Appendix A: the first and the last words expanded.
    let a1 = 0x2b7e151628aed2a6abf7158809cf4f3c_u128.to_be_bytes();
    let a2 = [
        &0x8e73b0f7da0e6452c810f32b809079e5_u128.to_be_bytes()[..],
        &0x62f8ead2522c6b7b_u64.to_be_bytes(),
    ]
    .concat();
    let a3 = [
        0x603deb1015ca71be2b73aef0857d7781_u128.to_be_bytes(),
        0x1f352c073b6108d72d9810a30914dff4_u128.to_be_bytes(),
    ]
    .concat();
    let key = Aes::new(&a1).round_keys;
    same("A.1 w4 to w7", &key[1], 0xa0fafe1788542cb123a339392a6c7605)?;
    same(
        "A.1 w40 to w43",
        &key[10],
        0xd014f9a8c9ee2589e13f0cc8b6630ca6,
    )?;
    let key = Aes::new(&a2).round_keys;
    same("A.2 w6 and w7", &key[1][8..], 0xfe0c91f72402f5a5)?;
    same("A.2 w8 to w11", &key[2], 0xec12068e6c827f6b0e7a95b95c56fec2)?;
    same(
        "A.2 w48 to w51",
        &key[12],
        0xe98ba06f448c773c8ecc720401002202,
    )?;
    let key = Aes::new(&a3).round_keys;
    same("A.3 w8 to w11", &key[2], 0x9ba354118e6925afa51a8b5f2067fcde)?;
    same(
        "A.3 w56 to w59",
        &key[14],
        0xfe4890d1e6188d0b046df344706c631e,
    )?;

    // Appendices B and C, both directions.
    let count: Vec<u8> = (0..32).collect();
    let c: u128 = 0x00112233445566778899aabbccddeeff;
    for (what, key, plain, cipher) in [
        (
            "B",
            &a1[..],
            0x3243f6a8885a308d313198a2e0370734,
            0x3925841d02dc09fbdc118597196a0b32_u128,
        ),
        ("C.1", &count[..16], c, 0x69c4e0d86a7b0430d8cdb78070b4c55a),
        ("C.2", &count[..24], c, 0xdda97ca4864cdfe06eaf70a0ec0d7191),
        ("C.3", &count[..32], c, 0x8ea2b7ca516745bfeafc49904b496089),
    ] {
        let aes = Aes::new(key);
        same(
            &format!("{what} encrypted"),
            &aes.encrypt(&plain.to_be_bytes()),
            cipher,
        )?;
        same(
            &format!("{what} decrypted"),
            &aes.decrypt(&cipher.to_be_bytes()),
            plain,
        )?;
    }
    Ok(compared)
}
