//! Jobs that do the same work, each with its samples.

use crate::job::Job;

pub struct Contest {
    jobs: Vec<Job>,
    samples: Vec<Vec<f64>>,
    calls: u32,
}

impl Contest {
    /// With so many calls in a sample.
    pub fn new(jobs: Vec<Job>, calls: u32) -> Contest {
        let samples = vec![Vec::new(); jobs.len()];
        Contest {
            jobs,
            samples,
            calls,
        }
    }

    /// A sample of each, one after the other.
    pub fn round(&mut self) {
        for (job, samples) in self.jobs.iter_mut().zip(&mut self.samples) {
            samples.push(job.sample(self.calls));
            job.check();
        }
    }

    /// Nanoseconds a call of each.
    pub fn times(&self) -> Vec<f64> {
        self.samples.iter().map(|s| quiet_median(s)).collect()
    }
}

/// The median of the faster half, the quiet samples: the slower half is where other work on the machine is.
pub fn quiet_median(samples: &[f64]) -> f64 {
    let mut sorted = samples.to_vec();
    sorted.sort_by(|a, b| a.partial_cmp(b).expect("numbers"));
    sorted[sorted.len() / 4]
}
