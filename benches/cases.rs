//! What is measured: sealing or opening, under a parameter set, at a size.

/// A parameter set, its lengths in bytes.
#[derive(Clone, Copy)]
pub struct Set {
    pub number: u32,
    pub key: usize,
    pub tag: usize,
}

/// AES-128 with the two shorter tags, AES-192, AES-256.
pub const SETS: [Set; 4] = [set(1, 16, 4), set(3, 16, 8), set(9, 24, 8), set(10, 32, 12)];

const fn set(number: u32, key: usize, tag: usize) -> Set {
    Set { number, key, tag }
}

#[derive(Clone, Copy, PartialEq)]
pub enum Act {
    Seal,
    Open,
}

pub const ACTS: [(&str, Act); 2] = [("seal", Act::Seal), ("open", Act::Open)];

/// Bytes of associated data in every call that is timed, and in the counts of benches/instructions.
pub const DATA: usize = 16;
pub const NONCE: usize = 12;

/// How much a run measures.
pub struct Plan {
    pub name: &'static str,
    pub sizes: &'static [usize],
    pub rounds: usize,
}

pub const PLANS: [Plan; 2] = [
    Plan {
        name: "full",
        sizes: &[0, 16, 32, 128, 1024, 16384, 65536],
        rounds: 1001,
    },
    Plan {
        name: "quick",
        sizes: &[0, 32, 1024, 65536],
        rounds: 31,
    },
];

#[derive(Clone, Copy)]
pub struct Case {
    pub act: Act,
    pub set: Set,
    pub size: usize,
    pub data: usize,
}

/// Calls in one sample, each of so many bytes: enough that reading the clock costs nothing beside them, and few
/// enough that most samples end before another process takes the core.
pub fn calls(size: usize) -> u32 {
    (4096 / (size + 64)).max(1) as u32
}

/// A row of the table is two cases, sealing and then opening.
pub fn cases(plan: &Plan) -> Vec<Case> {
    let mut all = Vec::new();
    for set in SETS {
        for &size in plan.sizes {
            all.extend(ACTS.map(|(_, act)| Case {
                act,
                set,
                size,
                data: DATA,
            }));
        }
    }
    all
}
