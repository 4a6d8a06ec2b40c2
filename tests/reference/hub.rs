//! Lines of the hub program, compared with the answers of another implementation.

use crate::form::{by_form, form};
use crate::mode::aes::Aes;
use crate::mode::bytes::{from_hex, to_bits, to_bytes, to_hex};
use crate::mode::cba::{Bits, Cba, SETS};

/// Compares with the answers of another implementation: 0 for done and 8 for a
/// ciphertext that does not open; other answers refuse the input.
pub fn hub(file_in: &str, file_out: &str) -> Result<(), String> {
    let read = |name| std::fs::read_to_string(name).map_err(|e| format!("{name}: {e}"));
    let (text_in, text_out) = (read(file_in)?, read(file_out)?);
    let mut lines_in = text_in.strip_suffix('\n').unwrap_or(&text_in).split('\n');
    let mut lines_out = text_out.strip_suffix('\n').unwrap_or(&text_out).split('\n');
    ensure!(
        lines_in.next() == Some("act set key nonce data text"),
        "{file_in}: another heading"
    );
    ensure!(
        lines_out.next() == Some("line answer result"),
        "{file_out}: another heading"
    );

    let (mut sealed, mut opened, mut refused) = ([0; 3], [0; 3], 0);
    let (mut skipped, mut different) = (0, 0);
    for (i, line) in lines_in.enumerate() {
        let number = i + 1;
        let answer = lines_out.next().unwrap_or("");
        let [n, answer, result] = answer.split(' ').collect::<Vec<_>>()[..] else {
            return Err(format!("{file_out}: no line for {number}"));
        };
        ensure!(
            n == number.to_string(),
            "{file_out}: line {n} in the place of {number}"
        );
        if answer != "0" && answer != "8" {
            skipped += 1;
            continue;
        }
        let at = |why: String| format!("line {number}, answer {answer}: {why}");
        let (act, p, K, N, A, text) = parse(line).map_err(at)?;
        let got = match act {
            "seal" => p.ENC(&K, &N, &A, &text),
            _ => p.DEC(&K, &N, &A, &text),
        };
        let same = match answer {
            "0" => got == Some(to_bits(&from_hex(result).map_err(at)?)),
            _ => act == "open" && result == "-" && got.is_none(),
        };
        if !same {
            different += 1;
            let got = got.map_or("refused".into(), |g| to_hex(&to_bytes(&g)));
            println!(
                "line {number} differs: {act}, {p:?}, data of {} bits, text of {} bits",
                A.len(),
                text.len()
            );
            println!("  file: answer {answer}, {result}");
            println!("  reference: {got}");
        }
        match (act, answer) {
            ("seal", _) => sealed[form(&p, text.len())] += 1,
            (_, "0") => opened[form(&p, text.len().saturating_sub(p.tau))] += 1,
            _ => refused += 1,
        }
    }
    ensure!(
        lines_out.next() == Some("set accepted"),
        "{file_out}: answers to more lines"
    );

    let sum = |count: [usize; 3]| count.iter().sum::<usize>();
    println!("sealed compared {} ({})", sum(sealed), by_form(sealed));
    println!("opened compared {} ({})", sum(opened), by_form(opened));
    println!("false compared {refused}");
    println!("skipped {skipped}");
    println!("different {different}");
    ensure!(
        sum(sealed) + sum(opened) + refused > 0,
        "nothing was compared"
    );
    ensure!(different == 0, "{different} lines differ");
    Ok(())
}

type Line<'a> = (&'a str, Cba, Aes, Bits, Bits, Bits);

/// A line `act set key nonce data text`.
fn parse(line: &str) -> Result<Line<'_>, String> {
    let [act, set, key, nonce, data, text] = line.split(' ').collect::<Vec<_>>()[..] else {
        return Err("not six values".into());
    };
    ensure!(
        act == "seal" || act == "open",
        "neither seal nor open: {act:?}"
    );
    let i = (1..=SETS.len())
        .find(|i| set == i.to_string())
        .ok_or(format!("no set {set:?}"))?;
    let (k, tau, b) = SETS[i - 1];
    let (p, key, nonce) = (Cba::new(tau, b), from_hex(key)?, from_hex(nonce)?);
    ensure!(8 * key.len() == k, "a key of {} bytes", key.len());
    ensure!(8 * nonce.len() == p.nu, "a nonce of {} bytes", nonce.len());
    let bits = |hex| from_hex(hex).map(|bytes| to_bits(&bytes));
    Ok((
        act,
        p,
        Aes::new(&key),
        to_bits(&nonce),
        bits(data)?,
        bits(text)?,
    ))
}
