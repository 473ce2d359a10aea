//! Compares a program's outputs with own ones, such as the texts of dealt logs
//! and log files.

use std::fs;
use std::io;
use std::path::{Path, PathBuf};
use std::sync::atomic::{AtomicU64, Ordering};
use std::sync::Mutex;
use std::thread;

use crate::deal::deal;
use crate::hex::to_hex;
use crate::process::{run, Outcome};
use crate::replay::Text;

/// Programs run at once.
const WORKERS: usize = 2;
/// Bytes read past the expected output.
const MORE: usize = 4_096;

/// Inputs of a program, numbered from 0.
pub trait Inputs: Sync {
    /// What a report calls an input.
    const NAME: &'static str;

    fn total(&self) -> u64;

    fn input(&self, index: u64) -> io::Result<Vec<u8>>;
}

/// The logs to compare on: dealt ones first, then files.
pub struct Logs {
    pub seed: u64,
    pub count: u64,
    pub files: Vec<PathBuf>,
}

impl Inputs for Logs {
    const NAME: &'static str = "log";

    fn total(&self) -> u64 {
        self.count + self.files.len() as u64
    }

    fn input(&self, index: u64) -> io::Result<Vec<u8>> {
        match index.checked_sub(self.count) {
            None => Ok(deal(self.seed, index)),
            Some(file) => fs::read(&self.files[file as usize]),
        }
    }
}

/// An input for a program, and the output it must have.
pub struct Case {
    pub input: Vec<u8>,
    pub expected: Vec<u8>,
}

/// Cases to compare on, numbered from 0.
pub trait Cases: Sync {
    /// Count of the cases, skipped ones too.
    fn total(&self) -> u64;

    /// Case number `index`, or `None` if it is skipped.
    fn case(&self, index: u64) -> io::Result<Option<Case>>;

    /// Tells of a case on which the program differs.
    fn report(&self, difference: &Difference) -> String;
}

/// Inputs with the text that a program must write for each.
pub struct Texts<I> {
    pub text: Text,
    pub inputs: I,
}

impl<I: Inputs> Cases for Texts<I> {
    fn total(&self) -> u64 {
        self.inputs.total()
    }

    fn case(&self, index: u64) -> io::Result<Option<Case>> {
        let input = self.inputs.input(index)?;
        let expected = (self.text)(&input).into_bytes();
        Ok(Some(Case { input, expected }))
    }

    /// The report: number, input in hex, and both texts.
    fn report(&self, difference: &Difference) -> String {
        let expected = String::from_utf8_lossy(&difference.case.expected);
        let actual = String::from_utf8_lossy(&difference.outcome.output);
        let same = expected
            .lines()
            .zip(actual.lines())
            .take_while(|(a, b)| a == b)
            .count();
        format!(
            "{name} {} differs at line {} ({})\n{name} in hex:\n{}\nexpected:\n{}program:\n{}",
            difference.index,
            same + 1,
            difference.outcome.status,
            to_hex(&difference.case.input),
            expected,
            actual,
            name = I::NAME
        )
    }
}

/// A case on which the program differs.
pub struct Difference {
    pub index: u64,
    pub case: Case,
    pub outcome: Outcome,
}

/// What a comparison finds.
pub enum Finding {
    /// Every case that was run is equal; their count.
    Equal(u64),
    /// The difference with the lowest number.
    Different(Difference),
}

/// What the threads of a comparison share.
struct Progress {
    next: AtomicU64,
    passed: AtomicU64,
    first: Mutex<io::Result<Option<Difference>>>,
}

/// Compares the program's output with the expected one of each case.
pub fn compare(program: &Path, cases: &impl Cases) -> io::Result<Finding> {
    let progress = Progress {
        next: AtomicU64::new(0),
        passed: AtomicU64::new(0),
        first: Mutex::new(Ok(None)),
    };
    thread::scope(|scope| {
        for _ in 0..WORKERS {
            scope.spawn(|| work(program, cases, &progress));
        }
    });
    let first = progress.first.into_inner().expect("no thread panicked")?;
    Ok(match first {
        Some(difference) => Finding::Different(difference),
        None => Finding::Equal(progress.passed.into_inner()),
    })
}

/// Takes cases in order until none is left or a difference is found. A case
/// taken before the difference was found is still finished.
fn work(program: &Path, cases: &impl Cases, progress: &Progress) {
    loop {
        let index = progress.next.fetch_add(1, Ordering::SeqCst);
        if index >= cases.total() {
            return;
        }
        let result = compare_one(program, cases, index, &progress.passed);
        if matches!(result, Ok(None)) {
            continue;
        }
        progress.next.store(cases.total(), Ordering::SeqCst);
        keep_lowest(
            &mut progress.first.lock().expect("no thread panicked"),
            result,
        );
        return;
    }
}

/// Runs the program on one case, unless it is skipped, and answers the
/// difference, if any.
fn compare_one(
    program: &Path,
    cases: &impl Cases,
    index: u64,
    passed: &AtomicU64,
) -> io::Result<Option<Difference>> {
    let Some(case) = cases.case(index)? else {
        return Ok(None);
    };
    let outcome = run(program, &case.input, case.expected.len() + MORE)?;
    if outcome.output == case.expected && outcome.exited() {
        passed.fetch_add(1, Ordering::SeqCst);
        return Ok(None);
    }
    Ok(Some(Difference {
        index,
        case,
        outcome,
    }))
}

fn keep_lowest(first: &mut io::Result<Option<Difference>>, found: io::Result<Option<Difference>>) {
    let keep = match (&*first, &found) {
        (Err(_), _) => true,
        (Ok(Some(old)), Ok(Some(new))) => old.index < new.index,
        _ => false,
    };
    if !keep {
        *first = found;
    }
}
