//! Runs of the program. Its input comes through a pipe, in pieces or without an end.

use std::io::{Read, Write};
use std::process::{Child, ChildStdin, Command, ExitStatus, Stdio};
use std::sync::atomic::{AtomicBool, Ordering::SeqCst};
use std::thread::{scope, sleep, yield_now};
use std::time::{Duration, Instant};

const LIMIT: Duration = Duration::from_secs(300); // a run that takes longer is ended
const FIONREAD: u64 = 0x541b; // Linux's

extern "C" {
    fn ioctl(file: i32, request: u64, ...) -> i32;
}

/// The writing end of the program's input.
pub struct Pipe<'a> {
    stdin: ChildStdin,
    process: u32,
    /// The program has ended.
    over: &'a AtomicBool,
}

impl Pipe<'_> {
    /// Whether all was taken, or will be if the program reads on. A program that has ended takes nothing.
    pub fn write(&mut self, bytes: &[u8]) -> bool {
        self.stdin.write_all(bytes).is_ok()
    }

    /// Writes the same over and over, until the program ends or has so many bytes: whether it ended.
    pub fn until_it_ends(&mut self, bytes: &[u8], most: usize) -> bool {
        let times = most.div_ceil(bytes.len());
        !(0..times).all(|_| self.write(bytes))
    }

    /// Writes the next piece when the one before it was read, so that no read has more than one.
    pub fn write_pieces(&mut self, input: &[u8], size: usize) {
        for piece in input.chunks(size) {
            self.write(piece);
            while self.unread() > 0 && !self.over.load(SeqCst) {
                yield_now();
            }
        }
    }

    fn unread(&self) -> i32 {
        use std::os::fd::AsRawFd;
        let mut count = 0;
        let done = unsafe { ioctl(self.stdin.as_raw_fd(), FIONREAD, &mut count) };
        assert_eq!(done, 0, "no count of the pipe's bytes");
        count
    }

    /// The most memory that the program has had, in KiB, once it has read all and waits for more; none if it ended.
    pub fn peak(&self) -> Option<usize> {
        while !self.over.load(SeqCst) {
            let status = std::fs::read_to_string(format!("/proc/{}/status", self.process)).ok()?;
            let field = |name| status.lines().find_map(|line| line.strip_prefix(name));
            let waits = field("State:").is_some_and(|state| state.trim().starts_with('S'));
            if waits && self.unread() == 0 {
                let peak = field("VmHWM:")?.trim().strip_suffix(" kB")?;
                return peak.parse().ok();
            }
            sleep(Duration::from_millis(1));
        }
        None
    }
}

/// What came of a run.
pub struct Run<T> {
    pub output: Vec<u8>,
    /// How it ended; an error where it did not end by itself.
    pub ended: Result<ExitStatus, String>,
    pub fed: T,
}

/// By name, or by a line of shell in which `$0` is the program.
pub fn command(program: &str, shell: Option<&str>) -> Command {
    let Some(line) = shell else {
        return Command::new(program);
    };
    let mut command = Command::new("sh");
    command.args(["-c", line, program]);
    command
}

/// Runs the program while `feed` writes its input, which ends where `feed` does. The output is read, or its pipe
/// has no reader.
pub fn run<T: Send>(
    mut command: Command,
    read: bool,
    feed: impl FnOnce(&mut Pipe) -> T + Send,
) -> Result<Run<T>, String> {
    let piped = command.stdin(Stdio::piped()).stdout(Stdio::piped());
    let mut child = piped.spawn().map_err(|e| format!("{command:?}: {e}"))?;
    let stdout = child.stdout.take().filter(|_| read);
    let over = AtomicBool::new(false);
    let mut pipe = Pipe {
        stdin: child.stdin.take().expect("a pipe"),
        process: child.id(),
        over: &over,
    };
    scope(|scope| {
        let feeder = scope.spawn(move || feed(&mut pipe));
        let reader = scope.spawn(move || {
            let mut output = vec![];
            stdout.map(|mut out| out.read_to_end(&mut output));
            output
        });
        let ended = end_of(&mut child);
        over.store(true, SeqCst);
        Ok(Run {
            output: reader.join().expect("a reader"),
            ended,
            fed: feeder.join().expect("a feeder"),
        })
    })
}

/// Waits for the end, and makes one where none comes.
fn end_of(child: &mut Child) -> Result<ExitStatus, String> {
    let start = Instant::now();
    while start.elapsed() < LIMIT {
        match child.try_wait().map_err(|e| e.to_string())? {
            Some(status) => return Ok(status),
            None => sleep(Duration::from_micros(100)),
        }
    }
    let _ = child.kill();
    let _ = child.wait();
    Err(format!("it did not end in {} s", LIMIT.as_secs()))
}
