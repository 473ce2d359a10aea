//! Times of programs on a log.

use std::fs::File;
use std::io;
use std::path::Path;
use std::process::{Command, Stdio};
use std::time::{Duration, Instant};

/// The best time of each program in `count` rounds. Each round runs every
/// program once. A program is given with its arguments, blanks between them.
pub fn best_times(count: u64, log: &Path, programs: &[&str]) -> io::Result<Vec<Duration>> {
    let mut best = vec![Duration::MAX; programs.len()];
    for _ in 0..count {
        for (program, best) in programs.iter().zip(&mut best) {
            *best = run_time(program, log)?.min(*best);
        }
    }
    Ok(best)
}

/// The time from the start of a program to its end. The log is its standard
/// input; what it writes is thrown away.
fn run_time(program: &str, log: &Path) -> io::Result<Duration> {
    let mut command = command(program)?;
    command.stdin(File::open(log)?).stdout(Stdio::null());
    let start = Instant::now();
    let status = command.status()?;
    let time = start.elapsed();
    if !status.success() {
        return Err(io::Error::other(format!("{program}: {status}")));
    }
    Ok(time)
}

fn command(program: &str) -> io::Result<Command> {
    let mut words = program.split_whitespace();
    let name = words
        .next()
        .ok_or_else(|| io::Error::other("a program without a name"))?;
    let mut command = Command::new(name);
    command.args(words);
    Ok(command)
}
