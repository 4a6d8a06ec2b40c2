//! Marks that are true, and false ones that look like them, checked.

use crate::shared::marks::{CODE, KEYS, MARKS};
use crate::test::{flipped, Test};

/// A key, a log and its code.
struct Marked {
    key: Vec<u8>,
    log: Vec<u8>,
    code: Vec<u8>,
}

impl Marked {
    fn new(test: &mut Test, key: usize, log: usize) -> Marked {
        let [key, log] = [key, log].map(|n| test.random.input(n));
        let code = test.code(&key, &log);
        Marked { key, log, code }
    }

    fn check(&self, test: &mut Test, mark: &[u8]) {
        test.check(&self.key, &self.log, mark);
    }

    /// The code's start with bytes changed, by exclusive or.
    fn changed(&self, test: &mut Test, mark: usize, changes: &[(usize, u8)]) {
        let mut bytes = self.code[..mark].to_vec();
        for &(place, change) in changes {
            bytes[place] ^= change;
        }
        self.check(test, &bytes);
    }
}

/// Every mark of some logs, and every bit of it flipped.
pub fn flipped_marks(test: &mut Test) {
    for key in KEYS {
        for log in [0, 1, 16, 21, 32] {
            let marked = Marked::new(test, key, log);
            for mark in MARKS {
                let mark = &marked.code[..mark];
                marked.check(test, mark);
                for bit in 0..8 * mark.len() {
                    marked.check(test, &flipped(mark, bit));
                }
            }
        }
    }
}

/// Every bit of a log of 0 to 40 bytes flipped, and every bit of a key.
pub fn flipped_inputs(test: &mut Test) {
    for key in KEYS {
        for log in 0..=40 {
            let marked = Marked::new(test, key, log);
            let mark = &marked.code[..4 + test.random.below(13)];
            marked.check(test, mark);
            for bit in 0..8 * log {
                test.check(&marked.key, &flipped(&marked.log, bit), mark);
            }
        }
        for log in [0, 16, 21] {
            let marked = Marked::new(test, key, log);
            for bit in 0..8 * key {
                test.check(&flipped(&marked.key, bit), &marked.log, &marked.code);
            }
        }
    }
}

/// One byte wrong, the last too; two whose differences are the same, so that their exclusive or is 0, or whose sum is;
/// all with one difference. Other bytes of the code, in the place of its first.
pub fn wrong_bytes(test: &mut Test) {
    for key in KEYS {
        for log in [0, 16, 21] {
            let marked = Marked::new(test, key, log);
            for mark in MARKS {
                let any = 1 + test.random.below(255) as u8;
                let all: Vec<(usize, u8)> = (0..mark).map(|i| (i, any)).collect();
                marked.changed(test, mark, &all);
                for i in 0..mark {
                    marked.changed(test, mark, &[(i, any)]);
                    for j in i + 1..mark {
                        marked.changed(test, mark, &[(i, any), (j, any)]);
                        sum_kept(test, &marked, mark, (i, j));
                    }
                }
                other_places(test, &marked, mark);
            }
            for last in 0..=255 {
                let mark = 4 + last as usize % 13;
                marked.changed(test, mark, &[(mark - 1, last)]);
            }
        }
    }
}

/// One byte is more by some number, and another less by it.
fn sum_kept(test: &mut Test, marked: &Marked, mark: usize, (i, j): (usize, usize)) {
    let by = 1 + test.random.below(255) as u8;
    let mut bytes = marked.code[..mark].to_vec();
    (bytes[i], bytes[j]) = (bytes[i].wrapping_add(by), bytes[j].wrapping_sub(by));
    marked.check(test, &bytes);
}

/// The code's last bytes, its first in another order, and bytes that are all the same.
fn other_places(test: &mut Test, marked: &Marked, mark: usize) {
    let start = &marked.code[..mark];
    let backward: Vec<u8> = start.iter().rev().copied().collect();
    let turned = [&start[1..], &start[..1]].concat();
    let last = &marked.code[CODE - mark..];
    for bytes in [last, &backward, &turned, &vec![0; mark], &vec![0xff; mark]] {
        marked.check(test, bytes);
    }
}

/// A byte more and a byte less of the mark, and of the log: at its end and at its start. Logs that one who pads or cuts
/// amiss takes for this one.
pub fn cut_or_extended(test: &mut Test) {
    for key in KEYS {
        for log in (0..=50).chain([255, 256, 257]) {
            let marked = Marked::new(test, key, log);
            for mark in [4, 4 + test.random.below(13), CODE] {
                let start = &marked.code[..mark];
                let more = test.random.bytes(1);
                marked.check(test, &start[1..]);
                marked.check(test, &start[..mark - 1]);
                marked.check(test, &marked.code[..CODE.min(mark + 1)]);
                marked.check(test, &[start, &more].concat());
                marked.check(test, &[&more, start].concat());
                for other in other_logs(test, &marked.log) {
                    test.check(&marked.key, &other, start);
                }
            }
        }
    }
}

fn other_logs(test: &mut Test, log: &[u8]) -> [Vec<u8>; 10] {
    let short = 16 - log.len() % 16;
    let more = test.random.bytes(1);
    let mut padded = [log, &[0x80]].concat();
    padded.resize(log.len() + short, 0);
    let full = log.len() / 16 * 16;
    [
        padded,
        [log, &vec![0; short]].concat(),
        [log, &more].concat(),
        [log, &[0]].concat(),
        [log, &[0x80]].concat(),
        [&more, log].concat(),
        log[..log.len().saturating_sub(1)].to_vec(),
        log[log.len().min(1)..].to_vec(),
        log[..full].to_vec(),
        log[log.len().min(16)..].to_vec(),
    ]
}

/// A log of several blocks with one of them gone, there twice, or exchanged with the next.
pub fn other_blocks(test: &mut Test) {
    for key in KEYS {
        for log in [32, 33, 48, 63, 64, 80, 100] {
            let marked = Marked::new(test, key, log);
            let blocks: Vec<&[u8]> = marked.log.chunks(16).collect();
            for i in 0..blocks.len() {
                let mut others = vec![blocks.clone(); 2];
                others[0].remove(i);
                others[1].insert(i, blocks[i]);
                if i > 0 {
                    let mut exchanged = blocks.clone();
                    exchanged.swap(i - 1, i);
                    others.push(exchanged);
                }
                for other in others {
                    test.check(&marked.key, &other.concat(), &marked.code);
                }
            }
        }
    }
}

/// The mark under a key of another length that begins or ends as this one, or is this one with zeros.
pub fn other_keys(test: &mut Test) {
    for log in [0, 1, 16, 21, 40] {
        let (long, log) = (test.random.bytes(32), test.random.input(log));
        for one in KEYS {
            let code = test.code(&long[..one], &log);
            for other in KEYS {
                let mut zeros = long[..one.min(other)].to_vec();
                zeros.resize(other, 0);
                for key in [&long[..other], &long[32 - other..], &zeros] {
                    test.check(key, &log, &code);
                    test.check(key, &log, &code[..4]);
                }
            }
        }
    }
}

/// Random keys and logs, with marks that are random, or true, or true to a byte.
pub fn random_marks(test: &mut Test) {
    for _ in 0..5_000 {
        let key = test.random.pick(&KEYS);
        let log = test.random.below(300);
        let mark = 4 + test.random.below(13);
        let marked = Marked::new(test, key, log);
        let more = test.random.pick(&[0, 1, 40]);
        test.make(&marked.key, &marked.log, mark, mark + more);
        let random = test.random.bytes(mark);
        let right = test.random.below(mark);
        marked.check(test, &random);
        marked.check(test, &marked.code[..mark]);
        marked.check(test, &[&marked.code[..right], &random[right..]].concat());
    }
}
