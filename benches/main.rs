//! Measures sealing, opening and marks; ./bench builds and starts it.
//!
//!     bench time PLAN                                    the tables of times
//!     bench hardware PLAN                                the second process of `time`
//!     bench calls CANDIDATE ACT SET SIZE DATA COUNT      so many calls, for valgrind to count
//!     bench script KIND SET DATA accepted|refused COUNT  the same as records for crates/ledger_script
//!     bench openings KIND SET SIZE DATA accepted|refused COUNT
//!                                                        the same for crates/receiver_script
//!     bench marks MAKER BITS SIZE COUNT                  so many marks, for valgrind to count

#[path = "../tests/shared/random.rs"]
mod random;

mod boxes;
mod candidates;
mod cases;
mod checks;
mod cmac;
mod contest;
mod job;
mod marks;
mod nettle;
mod ocb;
mod report;
mod script;
mod tables;
mod timing;
mod us;
mod worker;

use candidates::CANDIDATES;
use cases::{Case, Plan, Set, ACTS, PLANS, SETS};
use job::Job;
use marks::MAKERS;
use std::io::Write;

fn plan(name: &str) -> Option<&'static Plan> {
    PLANS.iter().find(|plan| plan.name == name)
}

fn time(name: &str) -> Option<()> {
    let plan = plan(name)?;
    ocb::start(false);
    checks::run();
    let (cells, features) = timing::measure(plan);
    report::print(plan, &cells, &features);
    report::print_marks(&marks::measure(plan));
    Some(())
}

fn hardware(name: &str) -> Option<()> {
    let plan = plan(name)?;
    ocb::start(true);
    worker::serve(plan);
    Some(())
}

fn set(number: &str) -> Option<Set> {
    let number: u32 = number.parse().ok()?;
    SETS.iter().find(|s| s.number == number).copied()
}

fn calls([candidate, act, number, size, data, count]: [&str; 6]) -> Option<()> {
    let candidate = CANDIDATES.iter().find(|c| c.name == candidate)?;
    let case = Case {
        act: ACTS.iter().find(|(name, _)| *name == act)?.1,
        set: set(number)?,
        size: size.parse().ok()?,
        data: data.parse().ok()?,
    };
    ocb::start(false);
    checks::is_plain();
    let mut job = Job::new(candidate, &case);
    job.run(count.parse().ok()?);
    job.check();
    Some(())
}

fn marks([maker, bits, size, count]: [&str; 4]) -> Option<()> {
    let maker = MAKERS.iter().find(|m| m.name == maker)?;
    ocb::start(false);
    checks::is_plain();
    let mut job = marks::job_for(maker, bits.parse().ok()?, size.parse().ok()?)?;
    job.run(count.parse().ok()?);
    job.check();
    Some(())
}

fn accepted(answer: &str) -> Option<bool> {
    match answer {
        "accepted" => Some(true),
        "refused" => Some(false),
        _ => None,
    }
}

fn script([kind, number, data, answer, count]: [&str; 5]) -> Option<()> {
    let (data, count) = (data.parse().ok()?, count.parse().ok()?);
    let records = script::script(kind, set(number)?, data, accepted(answer)?, count)?;
    std::io::stdout().write_all(&records).ok()
}

fn openings([kind, number, size, data, answer, count]: [&str; 6]) -> Option<()> {
    let lengths = [size.parse().ok()?, data.parse().ok()?];
    let count = count.parse().ok()?;
    let records = script::openings(kind, set(number)?, lengths, accepted(answer)?, count)?;
    std::io::stdout().write_all(&records).ok()
}

fn main() {
    let args: Vec<String> = std::env::args().skip(1).collect();
    let words: Vec<&str> = args.iter().map(|a| a.as_str()).collect();
    let done = match words[..] {
        ["time", plan] => time(plan),
        ["hardware", plan] => hardware(plan),
        ["calls", a, b, c, d, e, f] => calls([a, b, c, d, e, f]),
        ["marks", a, b, c, d] => marks([a, b, c, d]),
        ["script", a, b, c, d, e] => script([a, b, c, d, e]),
        ["openings", a, b, c, d, e, f] => openings([a, b, c, d, e, f]),
        _ => None,
    };
    if done.is_none() {
        eprintln!("bench: started by ./bench");
        std::process::exit(2);
    }
}
