//! The rounds: in each, every candidate has a sample in every case, one after the other, so that load from
//! elsewhere falls on all alike.

use crate::candidates::CANDIDATES;
use crate::cases::{calls, cases, Case, Plan};
use crate::contest::{quiet_median, Contest};
use crate::job::Job;
use crate::worker::Worker;

/// The candidates of this process, and libgcrypt with hardware after them.
pub const COLUMNS: usize = CANDIDATES.len() + 1;

pub struct Cell {
    pub case: Case,
    contest: Contest,
    hardware: Vec<f64>,
}

impl Cell {
    fn new(case: Case) -> Cell {
        let jobs = CANDIDATES.iter().map(|c| Job::new(c, &case)).collect();
        Cell {
            case,
            contest: Contest::new(jobs, calls(case.size)),
            hardware: Vec::new(),
        }
    }

    fn round(&mut self, number: usize, worker: &mut Worker) {
        self.contest.round();
        self.hardware.push(worker.sample(number));
    }

    /// Nanoseconds a call of each, in the order of the columns.
    pub fn times(&self) -> Vec<f64> {
        let mut times = self.contest.times();
        times.push(quiet_median(&self.hardware));
        times
    }
}

/// All samples, and the hardware features of the second process.
pub fn measure(plan: &Plan) -> (Vec<Cell>, String) {
    let mut worker = Worker::start(plan);
    let mut cells: Vec<Cell> = cases(plan).into_iter().map(Cell::new).collect();
    for _ in 0..plan.rounds {
        for (number, cell) in cells.iter_mut().enumerate() {
            cell.round(number, &mut worker);
        }
    }
    let features = worker.features.clone();
    worker.end();
    (cells, features)
}
