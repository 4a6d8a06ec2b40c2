//! AES the usual way without hardware: a State is four words, and a round of a column four lookups in tables of
//! 1 KiB each. No mode: block after block under one key, which is set up in every call.

use crate::boxes::{double, INV_S, INV_T, S, T};
use crate::candidates::Inputs;

type State = [u32; 4];

/// The round keys, of which the first `rounds` + 1 are used.
struct Keys {
    rounds: usize,
    words: [State; 15],
}

/// Byte k of a word, from the left.
fn byte(word: u32, k: u32) -> usize {
    (word >> (24 - 8 * k) & 0xff) as usize
}

fn sub_word(word: u32) -> u32 {
    u32::from_be_bytes(word.to_be_bytes().map(|b| S[b as usize]))
}

fn read(block: &[u8]) -> State {
    let word = |i: usize| u32::from_be_bytes(block[4 * i..4 * i + 4].try_into().expect("4 bytes"));
    [word(0), word(1), word(2), word(3)]
}

fn write(state: State, block: &mut [u8]) {
    for (word, place) in state.iter().zip(block.chunks_exact_mut(4)) {
        place.copy_from_slice(&word.to_be_bytes());
    }
}

fn added([a, b, c, d]: State, [p, q, r, s]: State) -> State {
    [a ^ p, b ^ q, c ^ r, d ^ s]
}

/// KeyExpansion.
fn expand(key: &[u8]) -> Keys {
    let nk = key.len() / 4;
    let mut keys = Keys {
        rounds: nk + 6,
        words: [[0; 4]; 15],
    };
    let mut w = [0u32; 60];
    for (word, bytes) in w.iter_mut().zip(key.chunks_exact(4)) {
        *word = u32::from_be_bytes(bytes.try_into().expect("4 bytes"));
    }
    let mut power = 1;
    for i in nk..4 * (keys.rounds + 1) {
        let mut word = w[i - 1];
        if i % nk == 0 {
            word = sub_word(word.rotate_left(8)) ^ u32::from(power) << 24;
            power = double(power);
        } else if nk == 8 && i % 8 == 4 {
            word = sub_word(word);
        }
        w[i] = w[i - nk] ^ word;
    }
    for (state, words) in keys.words.iter_mut().zip(w.chunks_exact(4)) {
        state.copy_from_slice(words);
    }
    keys
}

/// The keys of the equivalent inverse cipher, last first: InvMixColumns of all but the outer two.
fn expand_inverse(key: &[u8]) -> Keys {
    let mut keys = expand(key);
    keys.words[..=keys.rounds].reverse();
    for state in &mut keys.words[1..keys.rounds] {
        *state = state.map(|w| column(&INV_T, |k| S[byte(w, k)] as usize));
    }
    keys
}

/// What the lookups of four bytes, from row 0 on, give together.
#[inline(always)]
fn column(t: &[[u32; 256]; 4], row: impl Fn(u32) -> usize) -> u32 {
    t[0][row(0)] ^ t[1][row(1)] ^ t[2][row(2)] ^ t[3][row(3)]
}

/// A round's columns, before the round key: row k comes from `turn` k columns to the right.
#[inline(always)]
fn round(t: &[[u32; 256]; 4], s: State, turn: usize) -> State {
    let of = |c: usize| column(t, |k| byte(s[(c + turn * k as usize) % 4], k));
    [of(0), of(1), of(2), of(3)]
}

/// The last round's columns: the box alone.
#[inline(always)]
fn last_round(b: &[u8; 256], s: State, turn: usize) -> State {
    let at = |c: usize, k: usize| b[byte(s[(c + turn * k) % 4], k as u32)];
    let of = |c: usize| u32::from_be_bytes([at(c, 0), at(c, 1), at(c, 2), at(c, 3)]);
    [of(0), of(1), of(2), of(3)]
}

#[inline(always)]
fn blocks(
    keys: &Keys,
    t: &[[u32; 256]; 4],
    b: &[u8; 256],
    turn: usize,
    text: &[u8],
    out: &mut [u8],
) {
    let middle = &keys.words[1..keys.rounds];
    for (block, place) in text.chunks_exact(16).zip(out.chunks_exact_mut(16)) {
        let mut s = added(read(block), keys.words[0]);
        for &key in middle {
            s = added(round(t, s, turn), key);
        }
        write(
            added(last_round(b, s, turn), keys.words[keys.rounds]),
            place,
        );
    }
}

/// A call of its own, as the libraries' are.
#[inline(never)]
pub fn encrypt(inputs: &Inputs, text: &[u8], out: &mut [u8]) -> bool {
    blocks(&expand(&inputs.key), &T, &S, 1, text, out);
    true
}

/// Rows turn the other way: 3 columns to the right are 1 to the left.
#[inline(never)]
pub fn decrypt(inputs: &Inputs, text: &[u8], out: &mut [u8]) -> bool {
    blocks(&expand_inverse(&inputs.key), &INV_T, &INV_S, 3, text, out);
    true
}
