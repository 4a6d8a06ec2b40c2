//! Marks by AES-CMAC: who makes them, of which logs, and the rounds in which that is timed.

use crate::candidates::{Call, Inputs};
use crate::cases::{calls, Plan, SETS};
use crate::contest::Contest;
use crate::job::{self, Job};
use crate::random::Random;
use crate::{cmac, us};

/// The bytes of every mark here: the whole code, which the other libraries give.
pub const MARK: usize = 16;

pub struct Maker {
    pub name: &'static str,
    /// From the log to the mark. Of the inputs it takes the key alone.
    pub make: Call,
}

pub const MAKERS: [Maker; 3] = [
    Maker {
        name: "us",
        make: us::mark,
    },
    Maker {
        name: "gcrypt",
        make: cmac::gcrypt,
    },
    Maker {
        name: "nettle",
        make: cmac::nettle,
    },
];

/// Bits of the key and bytes of the log. Short logs show what the key costs.
const CASES: [(usize, usize); 5] = [
    (128, 16),
    (128, 256),
    (128, 1024),
    (128, 65536),
    (256, 65536),
];

/// A key, a log, and the mark that libgcrypt makes. None where no set has such a key.
pub fn marked(bits: usize, size: usize) -> Option<(Inputs, Vec<u8>, Vec<u8>)> {
    let mut random = Random(size as u64);
    let set = SETS.iter().find(|set| 8 * set.key == bits)?;
    let inputs = job::inputs(*set, 0, &mut random);
    let log = job::bytes(&mut random, size);
    let mut mark = vec![0; MARK];
    assert!(cmac::gcrypt(&inputs, &log, &mut mark), "libgcrypt fails");
    Some((inputs, log, mark))
}

/// Every mark that is made is held to libgcrypt's.
pub fn job_for(maker: &Maker, bits: usize, size: usize) -> Option<Job> {
    let (inputs, log, mark) = marked(bits, size)?;
    Some(Job::held_to(mark, maker.make, inputs, log))
}

pub struct Row {
    pub bits: usize,
    pub size: usize,
    contest: Contest,
}

impl Row {
    fn new((bits, size): (usize, usize)) -> Row {
        let job = |maker: &Maker| job_for(maker, bits, size).expect("a key's length");
        let contest = Contest::new(MAKERS.iter().map(job).collect(), calls(size));
        Row {
            bits,
            size,
            contest,
        }
    }

    /// Nanoseconds a mark of each maker.
    pub fn times(&self) -> Vec<f64> {
        self.contest.times()
    }
}

pub fn measure(plan: &Plan) -> Vec<Row> {
    let mut rows = CASES.map(Row::new);
    for _ in 0..plan.rounds {
        rows.iter_mut().for_each(|row| row.contest.round());
    }
    rows.into()
}
