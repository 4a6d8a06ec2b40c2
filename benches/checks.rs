//! What must hold before anything is measured.

use crate::candidates::{Call, Candidate, Inputs, NETTLE, OCB, TABLES, US};
use crate::cases::{DATA, SETS};
use crate::marks::{self, MAKERS};
use crate::random::Random;
use crate::{job, nettle, ocb, us};

/// Hardware is off in both libraries, so that tables are compared with tables.
pub fn is_plain() {
    assert!(nettle::is_plain(), "start this by ./bench");
    assert!(ocb::features().is_empty(), "libgcrypt uses hardware");
}

fn applied(call: Call, inputs: &Inputs, text: &[u8]) -> Vec<u8> {
    let mut out = vec![0; text.len()];
    assert!(call(inputs, text, &mut out));
    out
}

/// FIPS 197, appendix C: the block 00 11 .. ff under the keys 00 01 02 ..
fn standard() {
    let expected: [u128; 3] = [
        0x69c4e0d86a7b0430d8cdb78070b4c55a,
        0xdda97ca4864cdfe06eaf70a0ec0d7191,
        0x8ea2b7ca516745bfeafc49904b496089,
    ];
    let block: Vec<u8> = (0..16).map(|i| 0x11 * i).collect();
    for (set, result) in SETS[1..].iter().zip(expected) {
        let inputs = Inputs {
            set: *set,
            key: (0..set.key as u8).collect(),
            nonce: vec![],
            data: vec![],
        };
        let sealed = applied(TABLES.seal, &inputs, &block);
        assert_eq!(sealed, result.to_be_bytes(), "not FIPS 197's result");
        assert_eq!(applied(TABLES.open, &inputs, &sealed), block);
    }
}

/// The block ciphers are one function: libgcrypt's.
fn same_cipher() {
    let mut random = Random(1);
    for set in SETS {
        let inputs = job::inputs(set, DATA, &mut random);
        let text: Vec<u8> = (0..4096).map(|_| random.number() as u8).collect();
        for cipher in [NETTLE, TABLES] {
            let sealed = ocb::ecb(&inputs.key, false, &text);
            assert!(
                applied(cipher.seal, &inputs, &text) == sealed,
                "{}",
                cipher.name
            );
            let opened = ocb::ecb(&inputs.key, true, &text);
            assert!(
                applied(cipher.open, &inputs, &text) == opened,
                "{}",
                cipher.name
            );
        }
    }
}

/// What is opened is looked at: a changed byte is refused.
fn refuses(candidate: &Candidate) {
    for set in SETS {
        let inputs = job::inputs(set, DATA, &mut Random(2));
        let mut sealed = vec![0; 100 + (candidate.tag)(set)];
        assert!((candidate.seal)(&inputs, &[7; 100], &mut sealed));
        sealed[50] ^= 1;
        let opens = (candidate.open)(&inputs, &sealed, &mut [0; 100]);
        assert!(!opens, "{} opens a changed text", candidate.name);
    }
}

/// All make one mark, libgcrypt's, of logs that end with a block and within one.
fn same_marks() {
    for bits in [128, 256] {
        for size in (0..=64).chain([1000, 65536]) {
            for maker in &MAKERS {
                let mut job = marks::job_for(maker, bits, size).expect("a key's length");
                job.run(1);
                job.check();
            }
        }
    }
}

/// A mark is looked at: libgcrypt's passes, and with a changed byte it does not.
fn refuses_a_mark() {
    let (inputs, log, mut mark) = marks::marked(128, 100).expect("a key's length");
    let passes = |mark: &[u8]| us::check_mark(&inputs, &log, mark);
    assert!(passes(&mark), "a true mark is refused");
    mark[15] ^= 1;
    assert!(!passes(&mark), "a changed mark passes");
}

pub fn run() {
    is_plain();
    standard();
    same_cipher();
    refuses(&US);
    refuses(&OCB);
    same_marks();
    refuses_a_mark();
}
