//! Sealings and openings of inputs by a rule, a line of a file each.

use crate::mode::aes::Aes;
use crate::mode::bytes::{to_bits, to_bytes, to_hex};
use crate::mode::cba::{Bits, Cba, SETS};
use std::io::Write;

/// Inputs by a rule, so that a file need hold only their lengths; 29 (i / 256)
/// keeps long strings from repeating every 256 bytes.
fn rule(s: usize, length: usize) -> Vec<u8> {
    (0..length)
        .map(|i| (131 * i + 17 * s + 29 * (i / 256) + 7) as u8)
        .collect()
}

/// FNV-1a, as any program can compute it in a line.
fn fnv(bytes: &[u8]) -> u64 {
    bytes.iter().fold(0xcbf29ce484222325, |h, &x| {
        (h ^ x as u64).wrapping_mul(0x100000001b3)
    })
}

/// Long strings by their hash: the file stays small.
fn shown(bytes: &[u8]) -> String {
    if bytes.len() <= 200 {
        to_hex(bytes)
    } else {
        format!("{:016x}", fnv(bytes))
    }
}

/// Writes each line of a file with what the function makes of it.
pub fn by_lines(file: &str, of_line: fn(&str) -> Result<String, String>) -> Result<(), String> {
    let text = std::fs::read_to_string(file).map_err(|e| format!("{file}: {e}"))?;
    let mut out = std::io::BufWriter::new(std::io::stdout().lock());
    for line in text.lines() {
        let result = of_line(line).map_err(|why| format!("{file}: {line:?}: {why}"))?;
        writeln!(out, "{line} {result}").map_err(|e| e.to_string())?;
    }
    out.flush().map_err(|e| e.to_string())
}

/// What a line `set data-length message-length` stands for: parameters, key,
/// nonce, data, and the ciphertext of the message.
fn sealed_by_rule(line: &str) -> Result<(Cba, Aes, Bits, Bits, Vec<u8>), String> {
    let numbers: Result<Vec<usize>, _> = line.split(' ').map(str::parse).collect();
    let [set, a, message] = numbers.map_err(|e| e.to_string())?[..] else {
        return Err("not three numbers".into());
    };
    ensure!((1..=SETS.len()).contains(&set), "no set {set}");
    let (k, tau, b) = SETS[set - 1];
    let p = Cba::new(tau, b);
    let K = Aes::new(&rule(1, k / 8));
    let [N, A, M] = [(2, p.nu / 8), (3, a), (4, message)].map(|(s, n)| to_bits(&rule(s, n)));
    let C = p.ENC(&K, &N, &A, &M).ok_or("not sealed")?;
    Ok((p, K, N, A, to_bytes(&C)))
}

pub fn seal_line(line: &str) -> Result<String, String> {
    let (.., C) = sealed_by_rule(line)?;
    Ok(shown(&C))
}

/// The change of a ciphertext: `=` for none, `-` for the last byte dropped, `+`
/// for a byte 00 after it, or the number of a bit that is flipped.
fn changed(mut C: Vec<u8>, change: &str) -> Result<Vec<u8>, String> {
    match change {
        "=" => {}
        "-" => drop(C.pop()),
        "+" => C.push(0),
        _ => {
            let bit: usize = change.parse().map_err(|_| "no change")?;
            ensure!(bit < 8 * C.len(), "no bit {bit}");
            C[bit / 8] ^= 0x80 >> (bit % 8);
        }
    }
    Ok(C)
}

/// For a line `set data-length message-length change`: the answer, and the
/// message or what else is in the output.
pub fn open_line(line: &str) -> Result<String, String> {
    let (sealed, change) = line.rsplit_once(' ').ok_or("no change")?;
    let (p, K, N, A, C) = sealed_by_rule(sealed)?;
    let C = changed(C, change)?;
    let t = p.tau / 8;
    if C.len() > 65536 + t {
        return Ok("5 unchanged".into());
    }
    if C.len() < t {
        return Ok("6 unchanged".into());
    }
    Ok(match p.DEC(&K, &N, &A, &to_bits(&C)) {
        Some(M) => format!("0 {}", shown(&to_bytes(&M))),
        None => "8 zeros".into(),
    })
}
