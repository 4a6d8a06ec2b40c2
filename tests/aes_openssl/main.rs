//! Holds our AES against openssl's on random keys and blocks, and the calls to their other promises.
//!
//!     target/tests/aes_openssl [SEED]
//!
//! A run prints its seed, and the same seed makes the same run. The exit status is 0 where there is no
//! difference, 1 where there is one, 2 where SEED is no number, and 101 where openssl cannot be run.

#[path = "../shared/random.rs"]
mod random;

use random::Random;
use std::io::Write;
use std::process::{exit, Command, Stdio};
use std::thread;
use std::time::{SystemTime, UNIX_EPOCH};

const KEYS: usize = 40; // of each length, in each direction
const BLOCKS: usize = 32; // under each key
const SHOWN: usize = 10; // differences that are printed

const DONE: u32 = 0;
const BAD_KEY_LENGTH: u32 = 2;

#[link(name = "aes", kind = "static")]
extern "C" {
    fn aes_encrypt(key: *const u8, key_len: usize, block: *mut u8) -> u32;
    fn aes_decrypt(key: *const u8, key_len: usize, block: *mut u8) -> u32;
}

type Block = [u8; 16];

#[derive(Clone, Copy, Debug, PartialEq)]
enum Way {
    Encrypt,
    Decrypt,
}

const WAYS: [Way; 2] = [Way::Encrypt, Way::Decrypt];

fn back(way: Way) -> Way {
    match way {
        Way::Encrypt => Way::Decrypt,
        Way::Decrypt => Way::Encrypt,
    }
}

impl Random {
    fn bytes(&mut self, count: usize) -> Vec<u8> {
        (0..count).map(|_| self.number() as u8).collect()
    }

    fn block(&mut self) -> Block {
        block_of(&self.bytes(16))
    }
}

fn block_of(bytes: &[u8]) -> Block {
    bytes.try_into().expect("a block has 16 bytes")
}

fn hex(bytes: &[u8]) -> String {
    bytes.iter().map(|b| format!("{b:02x}")).collect()
}

fn openssl(way: Way, key: &[u8], data: &[u8]) -> Vec<u8> {
    let mut command = Command::new("openssl");
    command.args([
        "enc",
        &format!("-aes-{}-ecb", 8 * key.len()),
        "-nopad",
        "-nosalt",
        "-K",
        &hex(key),
    ]);
    if way == Way::Decrypt {
        command.arg("-d");
    }
    let mut child = command
        .stdin(Stdio::piped())
        .stdout(Stdio::piped())
        .spawn()
        .expect("openssl does not start");
    // A thread of its own writes, so that neither side waits for the other on a full pipe.
    let mut input = child.stdin.take().expect("openssl has an input");
    let sent = data.to_vec();
    let writer = thread::spawn(move || input.write_all(&sent));
    let output = child.wait_with_output().expect("openssl does not end");
    writer
        .join()
        .expect("the writer ends")
        .expect("openssl does not read");
    assert!(output.status.success(), "openssl fails: {}", output.status);
    assert_eq!(
        output.stdout.len(),
        data.len(),
        "openssl's output has another length"
    );
    output.stdout
}

/// Counts the differences, and prints the first.
struct Test {
    differences: usize,
}

impl Test {
    fn expect(&mut self, holds: bool, message: String) {
        if !holds {
            self.differences += 1;
            if self.differences <= SHOWN {
                eprintln!("{message}");
            }
        }
    }

    /// Calls our AES, which must answer `answer` and leave `result`, and returns what it left.
    fn call(&mut self, way: Way, key: &[u8], block: Block, answer: u32, result: Block) -> Block {
        // Bytes on both sides of the block, and a copy of the key, show a write to a wrong place.
        let mut room = [0xa5; 48];
        room[16..32].copy_from_slice(&block);
        let given = key.to_vec();
        let place = room[16..].as_mut_ptr();
        let found = unsafe {
            match way {
                Way::Encrypt => aes_encrypt(given.as_ptr(), given.len(), place),
                Way::Decrypt => aes_decrypt(given.as_ptr(), given.len(), place),
            }
        };
        let left = block_of(&room[16..32]);
        let kept = given == key && room[..16] == [0xa5; 16] && room[32..] == [0xa5; 16];

        // A long key is cut: its length alone is what it tests.
        let (length, start) = (key.len(), hex(&key[..key.len().min(64)]));
        let call = format!(
            "{way:?} {} under the {length}-byte key {start}",
            hex(&block)
        );
        self.expect(
            found == answer,
            format!("{call}: answer {found}, expected {answer}"),
        );
        let blocks = format!("left {}, expected {}", hex(&left), hex(&result));
        self.expect(left == result, format!("{call}: {blocks}"));
        self.expect(
            kept,
            format!("{call}: wrote to the key or beside the block"),
        );
        left
    }
}

fn main() {
    let seed = match std::env::args().nth(1) {
        Some(word) => word.parse().unwrap_or_else(|_| {
            eprintln!("aes_openssl: {word} is no seed: a number from 0 to 2^64 - 1 is");
            exit(2)
        }),
        None => SystemTime::now()
            .duration_since(UNIX_EPOCH)
            .expect("a time after 1970")
            .as_nanos() as u64,
    };
    // now and not at the end, so that a crash can be repeated too
    println!("aes_openssl: seed {seed}");
    let mut random = Random(seed);
    let mut test = Test { differences: 0 };

    let mut compared = [0; 2];
    for (count, way) in compared.iter_mut().zip(WAYS) {
        for length in [16, 24, 32] {
            for _ in 0..KEYS {
                let key = random.bytes(length);
                let data = random.bytes(16 * BLOCKS);
                let results = openssl(way, &key, &data);
                for (block, result) in data.chunks(16).zip(results.chunks(16)) {
                    let (block, result) = (block_of(block), block_of(result));
                    let left = test.call(way, &key, block, DONE, result);
                    // what we left, not what openssl wrote: our calls undo each other
                    test.call(back(way), &key, left, DONE, block);
                    *count += 1;
                }
            }
        }
    }

    // The long ones look right where only the low 8 or 16 bits of a length are looked at.
    let mut refused = 0;
    let long = [272, 280, 288, 65552, 65560, 65568];
    let lengths = (0..=64).chain(long);
    for length in lengths.filter(|n| ![16, 24, 32].contains(n)) {
        for way in WAYS {
            let (key, block) = (random.bytes(length), random.block());
            test.call(way, &key, block, BAD_KEY_LENGTH, block);
            refused += 1;
        }
    }

    println!(
        "aes_openssl: {} blocks encrypted, {} decrypted, each undone; {refused} keys of other lengths; {} differences",
        compared[0], compared[1], test.differences
    );
    exit((test.differences != 0) as i32);
}
