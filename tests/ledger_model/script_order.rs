//! The part of the script that is about the order of checks in the three calls that are charged, by hand from F-2, F-3
//! and F-4.

use super::headings::Sum;
use super::numbers::nonce_on;
use super::steps::Script;

pub const SEAL: [u32; 8] = [1, 3, 12, 4, 5, 7, 9, 10]; // a sealing's checks
pub const KEEP: [u32; 4] = [1, 13, 4, 10]; // a keeping's
pub const NAME: [u32; 8] = [1, 3, 12, 13, 5, 7, 9, 10]; // those of a sealing by name
const SUM: Sum = [0xa5; 16];

const CONSOLE: u16 = 258;
const GOOD: u32 = 2; // a name with something kept
const NONE: u32 = 3; // one with nothing
const HAND: u32 = 4; // one with nothing but a sum

pub fn order(s: &mut Script) {
    s.console = CONSOLE;
    for faults in choices(&SEAL) {
        seal(s, &faults, 16);
    }
    for bad in [8, 256 + GOOD] {
        for faults in choices(&KEEP) {
            keep(s, &faults, bad, 16);
        }
    }
    for faults in choices(&NAME) {
        name(s, &faults, 8, 16);
    }
    for bad in [NONE, HAND] {
        for faults in choices(&NAME).iter().filter(|f| f.contains(&13)) {
            name(s, faults, bad, 16);
        }
    }
    s.on_both(empty);
}

/// Empty calls on full ledgers: 10 alone, with each other fault and with all after it.
fn empty(s: &mut Script) {
    let on_full = |checks: &[u32]| choices(checks).into_iter().filter(|f| f.contains(&10));
    for faults in on_full(&SEAL) {
        seal(s, &faults, 0);
    }
    for faults in on_full(&KEEP) {
        keep(s, &faults, 8, 0);
    }
    for faults in on_full(&NAME) {
        name(s, &faults, 8, 0);
    }
}

/// No fault, each alone, each two, and all from each on, in the order of checks. Those for one ledger stand together.
fn choices(checks: &[u32]) -> Vec<Vec<u32>> {
    let mut all = vec![vec![]];
    for (i, &first) in checks.iter().enumerate() {
        let after = &checks[i + 1..];
        all.push(vec![first]);
        all.extend(after.iter().map(|&second| vec![first, second]));
        if after.len() > 1 {
            all.push(checks[i..].to_vec());
        }
    }
    all.sort_by_key(|faults| [1, 10].map(|of_ledger| faults.contains(&of_ledger)));
    all
}

/// A ledger with the faults 1 and 10 or without, and its total. It is made again only where the one before is another.
fn ledger(s: &mut Script, faults: &[u32]) -> u64 {
    let set = if faults.contains(&1) { 11 } else { 3 };
    let total = if faults.contains(&10) { 65536 } else { 5 };
    let there = &s.ledger;
    let same = (there.set, there.total, there.heartbeats) == (set, total, s.heartbeats);
    let used =
        there.last[..] != nonce_on(CONSOLE, 500) || there.headings[GOOD as usize].sum() != SUM;
    if !same || used {
        s.put(set, total, Some(500));
        s.hold(GOOD as u8, true, SUM);
        s.hold(HAND as u8, false, SUM);
    }
    total
}

/// What a call with these faults, which stand in their order, gives: the first is the answer, and a good call adds its
/// blocks. With the older charge an empty call on a full ledger has no fault.
fn expected(s: &mut Script, faults: &[u32], blocks: usize) -> (u32, u64) {
    let total = ledger(s, faults);
    let free = blocks == 0 && !s.heartbeats;
    match faults.iter().find(|&&fault| fault != 10 || !free) {
        Some(&answer) => (answer, total),
        None => (0, total + s.empty().max(blocks as u64)),
    }
}

/// Of a sealing with these faults. A nonce that begins with a lower number is stale, one with a higher number is not.
fn nonce(faults: &[u32]) -> Vec<u8> {
    let has = |fault| faults.contains(&fault);
    let console = match [12, 9].map(has) {
        [false, _] => CONSOLE,
        [true, true] => CONSOLE - 1,
        [true, false] => CONSOLE + 1,
    };
    let mut nonce = nonce_on(console, if has(9) { 500 } else { 501 });
    if has(3) {
        nonce.truncate(11);
    }
    nonce
}

/// The lengths of message and output of a sealing with these faults. Tags have 8 bytes.
fn text_and_out(faults: &[u32], good: usize) -> [usize; 2] {
    let text = if faults.contains(&5) { 65537 } else { good };
    [text, text + 8 - faults.contains(&7) as usize]
}

fn data(faults: &[u32], good: usize) -> usize {
    if faults.contains(&4) {
        4097
    } else {
        good
    }
}

/// A sealing with these faults; data and message of a good one have this length.
fn seal(s: &mut Script, faults: &[u32], good: usize) {
    let expected = expected(s, faults, 2 * good / 16);
    let [text, out] = text_and_out(faults, good);
    s.seal_bytes(expected, nonce(faults), [data(faults, good), text, out]);
}

fn keep(s: &mut Script, faults: &[u32], bad: u32, good: usize) {
    let expected = expected(s, faults, good / 16);
    let name = if faults.contains(&13) { bad } else { GOOD };
    s.keep(expected, name, data(faults, good));
}

fn name(s: &mut Script, faults: &[u32], bad: u32, good: usize) {
    let expected = expected(s, faults, good / 16);
    let name = if faults.contains(&13) { bad } else { GOOD };
    s.name_bytes(expected, name, nonce(faults), text_and_out(faults, good));
}
