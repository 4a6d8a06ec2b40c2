//! The second implementation held to its own papers.

mod calls;
mod cmac;
mod cmac_examples;
mod cmac_wrong;
mod equivalent;
mod notation;
mod openings;
mod round_trips;

use crate::mode::aes;
use crate::random::Random;
use std::time::Instant;

pub fn self_test(seed: u64) -> Result<(), String> {
    println!("seed {seed}");
    let parts: [(&str, fn(&mut Random) -> Result<String, String>); 15] = [
        ("AES", |_| {
            Ok(format!("{} values of FIPS 197", aes::self_test()?))
        }),
        ("EqInvCipher", equivalent::vectors),
        ("EqInvCipher and InvCipher", equivalent::inverses),
        ("EqInvCipher, wrong readings", equivalent::wrong_readings),
        ("notation", notation::notation),
        ("tables", notation::tables),
        ("data", calls::data),
        ("calls", calls::calls),
        ("round trips", round_trips::round_trips),
        ("openings, n = 128", openings::openings),
        ("openings, n = 16", openings::small_openings),
        ("damage", round_trips::damage),
        ("CMAC", cmac::vectors),
        ("CMAC, wrong readings", cmac_wrong::wrong_readings),
        ("CMAC, strings", cmac::strings),
    ];
    for (name, part) in parts {
        let start = Instant::now();
        let seen = part(&mut Random(seed)).map_err(|why| format!("{name}: {why}"))?;
        println!("{name}: {seen} ({:.1} s)", start.elapsed().as_secs_f64());
    }
    println!("self-test passed");
    Ok(())
}
