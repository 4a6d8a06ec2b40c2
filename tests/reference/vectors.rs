//! Vectors that are printed: for H, and for sealing.

use crate::mode::aes::Aes;
use crate::mode::bytes::{to_bits, to_bytes, to_hex};
use crate::mode::cba::{Cba, SETS};
use crate::random::Random;
use std::io::Write;

/// Lengths in bytes that are met in turn: with COUNT from their number each one,
/// and from ten times their number (which has no factor 2 or 5) each one in
/// every set. After that lengths are random.
fn length(i: u64, more: &[usize], random: &mut Random) -> usize {
    let planned: Vec<usize> = (0..=100).chain(more.iter().copied()).collect();
    assert!(planned.len() % 2 != 0 && planned.len() % 5 != 0);
    let any = random.below(4097);
    if i < 10 * planned.len() as u64 {
        planned[i as usize % planned.len()]
    } else {
        any
    }
}

/// What is written of a vector for H.
pub enum Ta {
    Lines,
    Records,
    Tags,
}

pub fn print_ta(form: Ta, seed: u64, count: u64) -> Result<(), String> {
    let mut out = std::io::BufWriter::new(std::io::stdout().lock());
    let mut random = Random(seed);
    for i in 0..count {
        let set = (i % 10) as usize;
        let (k, tau, b) = SETS[set];
        let p = Cba::new(tau, b);
        let key = random.bytes(k / 8);
        let a = length(i, &[255, 256, 257, 4080, 4095, 4096], &mut random);
        let A = random.bytes(a);
        let T_A = to_bytes(&p.H(&Aes::new(&key), &to_bits(&A)));
        match form {
            Ta::Lines => {
                let (key, A, T_A) = (to_hex(&key), to_hex(&A), to_hex(&T_A));
                writeln!(out, "{} {key} {A} {T_A}", set + 1)
            }
            Ta::Records => {
                let head = [set + 1, key.len(), a / 256, a % 256].map(|x| x as u8);
                out.write_all(&[&head[..], &key, &A].concat())
            }
            Ta::Tags => writeln!(out, "{}", to_hex(&T_A)),
        }
        .map_err(|e| e.to_string())?;
    }
    out.flush().map_err(|e| e.to_string())
}

pub fn print_seal(seed: u64, count: u64) -> Result<(), String> {
    let mut out = std::io::BufWriter::new(std::io::stdout().lock());
    let mut random = Random(seed);
    let more = [
        127, 128, 129, 255, 256, 257, 1023, 1024, 1025, 2000, 4080, 4096,
    ];
    for i in 0..count {
        let set = (i % 10) as usize;
        let (k, tau, b) = SETS[set];
        let p = Cba::new(tau, b);
        let (key, N) = (random.bytes(k / 8), random.bytes(p.nu / 8));
        // Data that end on a block one time in four.
        let a = if random.below(4) == 0 {
            16 * random.below(9)
        } else {
            random.below(101)
        };
        let message = length(i, &more, &mut random);
        let (A, M) = (random.bytes(a), random.bytes(message));
        let C = p
            .ENC(&Aes::new(&key), &to_bits(&N), &to_bits(&A), &to_bits(&M))
            .ok_or("not sealed")?;
        let values = [&key, &N, &A, &M, &to_bytes(&C)]
            .map(|v| to_hex(v))
            .join(" ");
        writeln!(out, "{} {values}", set + 1).map_err(|e| e.to_string())?;
    }
    out.flush().map_err(|e| e.to_string())
}
