//! What is sealed opens, and what is then changed does not.

use crate::form::{by_form, form};
use crate::mode::aes::Aes;
use crate::mode::cba::{Cba, SETS};
use crate::random::Random;

/// DEC(ENC(M)) = M, and |C| = |M| + tau.
fn round_trip(
    p: &Cba,
    K: &Aes,
    a: usize,
    message: usize,
    random: &mut Random,
) -> Result<(), String> {
    let (N, A, M) = (random.bits(p.nu), random.bits(a), random.bits(message));
    let at = |what| format!("{p:?}, message of {message} bits, data of {a} bits: {what}");
    let C = p.ENC(K, &N, &A, &M).ok_or_else(|| at("not sealed"))?;
    ensure!(
        C.len() == message + p.tau,
        "{}",
        at("ciphertext of another length")
    );
    ensure!(p.DEC(K, &N, &A, &C) == Some(M), "{}", at("not opened"));
    Ok(())
}

pub fn round_trips(random: &mut Random) -> Result<String, String> {
    let mut sets = [0; 3];
    for (k, tau, b) in SETS {
        let p = Cba::new(tau, b);
        for message in 0..=420 {
            let K = Aes::new(&random.bytes(k / 8));
            for a in 0..=300 {
                round_trip(&p, &K, a, message, random)?;
                sets[form(&p, message)] += 1;
            }
        }
    }
    let mut others = [0; 3];
    for (tau, b) in (0..=128).flat_map(|tau| (0..=48).map(move |b| (tau, b))) {
        let p = Cba::new(tau, b);
        let K = Aes::new(&random.bytes([16, 24, 32][(tau + b) % 3]));
        // Short, about the first block, and longer.
        for bound in [p.l + 1, 260, 600] {
            let (a, message) = (random.below(300), random.below(bound));
            round_trip(&p, &K, a, message, random)?;
            others[form(&p, message)] += 1;
        }
    }
    Ok(format!(
        "ten sets, messages 0..420 bits, data 0..300 bits: {}; every tau and b: {}",
        by_form(sets),
        by_form(others)
    ))
}

/// One bit flipped in the ciphertext, the data or the nonce is refused: always
/// for tags of 32 bits and more, almost always for tags of 8 bits.
pub fn damage(random: &mut Random) -> Result<String, String> {
    let mut tries = [0; 2];
    let mut opened = 0;
    let short_tags = [(128, 8, 48), (128, 8, 16)];
    for (k, tau, b) in SETS.into_iter().chain(short_tags) {
        let p = Cba::new(tau, b);
        for round in 0..1200 {
            let K = Aes::new(&random.bytes(k / 8));
            let (a, message) = (1 + random.below(600), random.below(1500));
            let (mut N, mut A, M) = (random.bits(p.nu), random.bits(a), random.bits(message));
            let mut C = p.ENC(&K, &N, &A, &M).ok_or("not sealed")?;
            let (what, damaged) = [("C", &mut C), ("A", &mut A), ("N", &mut N)]
                .into_iter()
                .nth(round % 3)
                .unwrap();
            let bit = random.below(damaged.len());
            damaged.0[bit] ^= true;
            let open = p.DEC(&K, &N, &A, &C).is_some();
            ensure!(
                !open || tau < 32,
                "{p:?}, bit {bit} of {what} flipped, message of {message} bits: opened"
            );
            opened += open as usize;
            tries[(tau < 32) as usize] += 1;
        }
    }
    // 2400 tries of chance 1/256: 9.4 expected.
    ensure!(
        opened < 50,
        "{opened} of {} opened with tags of 8 bits",
        tries[1]
    );
    Ok(format!(
        "{} refused; tags of 8 bits: {opened} of {} opened",
        tries[0], tries[1]
    ))
}
