//! The second process, in which libgcrypt has its hardware. It answers each line, the number of a case, with the
//! nanoseconds of a call, so that its samples fall between those of the first.

use crate::candidates::OCB;
use crate::cases::{calls, cases, Plan};
use crate::job::Job;
use crate::ocb;
use std::io::{stdin, BufRead, BufReader, Write};
use std::process::{Child, ChildStdin, ChildStdout, Command, Stdio};

/// What the second process does. Its first line names the features.
pub fn serve(plan: &Plan) {
    let cases = cases(plan);
    let mut jobs: Vec<Job> = cases.iter().map(|case| Job::new(&OCB, case)).collect();
    println!("{}", ocb::features().join(" "));
    for line in stdin().lock().lines() {
        let i: usize = line.expect("a line").parse().expect("a case's number");
        println!("{}", jobs[i].sample(calls(cases[i].size)));
        jobs[i].check();
    }
}

pub struct Worker {
    child: Child,
    to: ChildStdin,
    from: BufReader<ChildStdout>,
    pub features: String,
}

impl Worker {
    pub fn start(plan: &Plan) -> Worker {
        let mut child = Command::new(std::env::current_exe().expect("a path"))
            .args(["hardware", plan.name])
            .stdin(Stdio::piped())
            .stdout(Stdio::piped())
            .spawn()
            .expect("a second process");
        let to = child.stdin.take().expect("a pipe");
        let from = BufReader::new(child.stdout.take().expect("a pipe"));
        let features = String::new();
        let mut worker = Worker {
            child,
            to,
            from,
            features,
        };
        worker.features = worker.line();
        worker
    }

    fn line(&mut self) -> String {
        let mut line = String::new();
        let read = self.from.read_line(&mut line).expect("a line");
        assert!(read > 0, "the second process ended");
        line.trim_end().to_string()
    }

    pub fn sample(&mut self, i: usize) -> f64 {
        writeln!(self.to, "{i}").expect("the second process reads");
        self.line().parse().expect("nanoseconds")
    }

    /// It ends with its input.
    pub fn end(self) {
        let Worker { mut child, to, .. } = self;
        drop(to);
        assert!(child.wait().expect("its end").success());
    }
}
