//! Runs a program on one input.

use std::io::{self, Read, Write};
use std::path::Path;
use std::process::{Child, ChildStdin, Command, ExitStatus, Stdio};
use std::sync::mpsc::{channel, Receiver, RecvTimeoutError};
use std::sync::Mutex;
use std::thread;
use std::time::Duration;

/// A program that runs longer than this is ended.
const TIME_LIMIT: Duration = Duration::from_secs(30);

/// What a program did with an input.
pub struct Outcome {
    pub output: Vec<u8>,
    pub status: ExitStatus,
}

impl Outcome {
    /// True if the program ended by itself, whatever its exit status.
    pub fn exited(&self) -> bool {
        self.status.code().is_some()
    }
}

/// Gives `input` to the program's standard input and reads at most `most` bytes
/// of its standard output. A program that writes more is ended.
pub fn run(program: &Path, input: &[u8], most: usize) -> io::Result<Outcome> {
    let mut child = Command::new(program)
        .stdin(Stdio::piped())
        .stdout(Stdio::piped())
        .spawn()?;
    let stdin = child.stdin.take();
    let stdout = child.stdout.take();
    let child = Mutex::new(child);
    let (ended, end) = channel();
    let output = thread::scope(|scope| {
        scope.spawn(|| stdin.map(|stdin| feed(stdin, input)));
        scope.spawn(|| watch(&child, end));
        let mut output = Vec::new();
        let read = match stdout {
            Some(stdout) => stdout.take(most as u64).read_to_end(&mut output),
            None => Ok(0),
        };
        drop(ended);
        read.map(|_| output)
    })?;
    let mut child = child.into_inner().expect("no thread panicked");
    if output.len() == most {
        let _ = child.kill();
    }
    let status = child.wait()?;
    Ok(Outcome { output, status })
}

/// A program may stop reading early, so a closed pipe is no error.
fn feed(mut stdin: ChildStdin, input: &[u8]) {
    let _ = stdin.write_all(input);
}

/// Ends the program if its output is not complete in time.
fn watch(child: &Mutex<Child>, end: Receiver<()>) {
    if end.recv_timeout(TIME_LIMIT) == Err(RecvTimeoutError::Timeout) {
        let _ = child.lock().expect("no thread panicked").kill();
    }
}
