//! Command line of the second program.

use std::io::{self, BufWriter, Read, Write};
use std::path::{Path, PathBuf};
use std::process::ExitCode;

use second::check::check_folder;
use second::compare::{compare, Cases, Finding, Logs, Texts};
use second::compare_kinds::KindsCases;
use second::compare_text::{TextCases, TextLogs};
use second::compare_write::Requests;
use second::coverage::Coverage;
use second::deal::deal;
use second::hex::to_hex;
use second::kinds_case::{kinds_text, MAX_CASE};
use second::kinds_deal::deal_case;
use second::replay::{reasons_text, replay_text, Text, MAX_LOG};
use second::request::{reply, MAX_REQUEST};
use second::text_reader::{log_from_text, MAX_TEXT};
use second::text_writer::{text_from_log, MAX_TEXT_LOG};
use second::timing::best_times;
use second::workload::{ticks, workload};

const USAGE: &str = "usage:
  second replay < LOG
  second reasons < LOG
  second kinds < CASE
  second write < REQUEST
  second log-from-text < TEXT
  second text-from-log < LOG
  second deal SEED COUNT
  second count SEED COUNT
  second count-kinds SEED COUNT
  second compare PROGRAM SEED COUNT [LOG_FILE..]
  second compare-reasons PROGRAM SEED COUNT [LOG_FILE..]
  second compare-kinds PROGRAM SEED COUNT [LOG_FILE..]
  second compare-write PROGRAM SEED COUNT [LOG_FILE..]
  second compare-text LOG_FROM_TEXT TEXT_FROM_LOG SEED COUNT [LOG_FILE..]
  second check FOLDER [PROGRAM]
  second workload full|small|waiters|mixed|priorities
  second workload ticks BLOCKS WAITERS TICKS
  second time COUNT LOG_FILE \"PROGRAM [ARGUMENT..]\"..
";

/// Exit status of wrong arguments and of files or programs that fail.
const TROUBLE: u8 = 2;

fn main() -> ExitCode {
    let arguments: Vec<String> = std::env::args().skip(1).collect();
    match run(&arguments) {
        Ok(Some(code)) => code,
        Ok(None) => {
            eprint!("{USAGE}");
            ExitCode::from(TROUBLE)
        }
        Err(error) => {
            eprintln!("second: {error}");
            ExitCode::from(TROUBLE)
        }
    }
}

/// Carries out a command; `None` if the arguments are wrong.
fn run(arguments: &[String]) -> io::Result<Option<ExitCode>> {
    let words: Vec<&str> = arguments.iter().map(String::as_str).collect();
    match words.as_slice() {
        ["replay"] => write_text(replay_text, MAX_LOG).map(Some),
        ["reasons"] => write_text(reasons_text, MAX_LOG).map(Some),
        ["kinds"] => write_text(kinds_text, MAX_CASE).map(Some),
        ["write"] => write_bytes(reply, MAX_REQUEST).map(Some),
        ["log-from-text"] => write_bytes(log_from_text, MAX_TEXT).map(Some),
        ["text-from-log"] => write_text(text_from_log, MAX_TEXT_LOG).map(Some),
        ["deal", seed, count] => with_numbers(seed, count, deal_logs),
        ["count", seed, count] => with_numbers(seed, count, count_logs),
        ["count-kinds", seed, count] => with_numbers(seed, count, count_cases),
        ["compare", rest @ ..] => compare_texts(replay_text, rest),
        ["compare-reasons", rest @ ..] => compare_texts(reasons_text, rest),
        ["compare-kinds", rest @ ..] => compare_with(kinds_texts, rest),
        ["compare-write", rest @ ..] => compare_with(Requests::new, rest),
        ["compare-text", reader, writer, rest @ ..] => compare_text(reader, writer, rest),
        ["check", folder] => check(folder, None).map(Some),
        ["check", folder, program] => check(folder, Some(Path::new(program))).map(Some),
        ["workload", name] => write_log(workload(name)),
        ["workload", "ticks", numbers @ ..] => write_log(ticks_of(numbers)),
        ["time", count, log, programs @ ..] => time(count, Path::new(log), programs),
        _ => Ok(None),
    }
}

fn with_numbers(
    seed: &str,
    count: &str,
    command: impl FnOnce(u64, u64) -> io::Result<ExitCode>,
) -> io::Result<Option<ExitCode>> {
    match (seed.parse(), count.parse()) {
        (Ok(seed), Ok(count)) => command(seed, count).map(Some),
        _ => Ok(None),
    }
}

/// Reads standard input, at most one byte more than `most`.
fn read_input(most: usize) -> io::Result<Vec<u8>> {
    let mut input = Vec::new();
    io::stdin()
        .lock()
        .take(most as u64 + 1)
        .read_to_end(&mut input)?;
    Ok(input)
}

/// Writes the text of standard input, which is too long above `most` bytes.
fn write_text(text: Text, most: usize) -> io::Result<ExitCode> {
    write_bytes(|input| text(input).into_bytes(), most)
}

/// Writes the bytes made of standard input, which is too long above `most` bytes.
fn write_bytes(made: impl FnOnce(&[u8]) -> Vec<u8>, most: usize) -> io::Result<ExitCode> {
    let input = read_input(most)?;
    io::stdout().lock().write_all(&made(&input))?;
    Ok(ExitCode::SUCCESS)
}

fn deal_logs(seed: u64, count: u64) -> io::Result<ExitCode> {
    let mut out = BufWriter::new(io::stdout().lock());
    for index in 0..count {
        writeln!(out, "{}", to_hex(&deal(seed, index)))?;
    }
    out.flush()?;
    Ok(ExitCode::SUCCESS)
}

fn count_logs(seed: u64, count: u64) -> io::Result<ExitCode> {
    let mut coverage = Coverage::default();
    for index in 0..count {
        coverage.add_log(&deal(seed, index));
    }
    write_counts(&coverage)
}

fn count_cases(seed: u64, count: u64) -> io::Result<ExitCode> {
    let mut coverage = Coverage::default();
    for index in 0..count {
        coverage.add_case(&deal_case(seed, index));
    }
    write_counts(&coverage)
}

fn write_counts(coverage: &Coverage) -> io::Result<ExitCode> {
    let mut out = BufWriter::new(io::stdout().lock());
    for (name, number) in &coverage.counts {
        writeln!(out, "{number:>9} {name}")?;
    }
    for (name, number) in &coverage.maxima {
        writeln!(out, "{number:>9} most {name}")?;
    }
    out.flush()?;
    Ok(ExitCode::SUCCESS)
}

/// Compares a program with a text; `None` if the arguments are wrong.
fn compare_texts(text: Text, arguments: &[&str]) -> io::Result<Option<ExitCode>> {
    compare_with(|inputs| Texts { text, inputs }, arguments)
}

fn kinds_texts(logs: Logs) -> Texts<KindsCases> {
    Texts {
        text: kinds_text,
        inputs: KindsCases::new(logs),
    }
}

/// Compares a program on the cases of logs; `None` if the arguments are wrong.
fn compare_with<C: Cases>(
    cases: impl FnOnce(Logs) -> C,
    arguments: &[&str],
) -> io::Result<Option<ExitCode>> {
    let [program, rest @ ..] = arguments else {
        return Ok(None);
    };
    with_logs(rest, |logs| {
        let cases = cases(logs);
        tell(find(program, &cases)?)
    })
}

/// Compares both programs of the text form; `None` if the arguments are wrong.
fn compare_text(reader: &str, writer: &str, rest: &[&str]) -> io::Result<Option<ExitCode>> {
    with_logs(rest, |logs| {
        let written = Texts {
            text: text_from_log,
            inputs: TextLogs::new(logs),
        };
        let read = TextCases::new(&written.inputs);
        tell(match find(writer, &written)? {
            Ok(logs) => find(reader, &read)?.map(|texts| logs + texts),
            Err(report) => Err(report),
        })
    })
}

/// Carries out a command on the logs of SEED COUNT [LOG_FILE..].
fn with_logs(
    arguments: &[&str],
    command: impl FnOnce(Logs) -> io::Result<ExitCode>,
) -> io::Result<Option<ExitCode>> {
    let [seed, count, files @ ..] = arguments else {
        return Ok(None);
    };
    let files: Vec<PathBuf> = files.iter().map(PathBuf::from).collect();
    with_numbers(seed, count, |seed, count| {
        command(Logs { seed, count, files })
    })
}

/// The count of equal cases, or the report of a difference.
fn find(program: &str, cases: &impl Cases) -> io::Result<Result<u64, String>> {
    Ok(match compare(Path::new(program), cases)? {
        Finding::Equal(count) => Ok(count),
        Finding::Different(difference) => Err(cases.report(&difference)),
    })
}

fn tell(found: Result<u64, String>) -> io::Result<ExitCode> {
    let mut out = io::stdout().lock();
    match found {
        Ok(count) => {
            writeln!(out, "{count} passed, 0 failed")?;
            Ok(ExitCode::SUCCESS)
        }
        Err(report) => {
            writeln!(out, "{report}")?;
            Ok(ExitCode::FAILURE)
        }
    }
}

fn check(folder: &str, program: Option<&Path>) -> io::Result<ExitCode> {
    let tally = check_folder(Path::new(folder), program)?;
    let mut out = io::stdout().lock();
    for line in &tally.failures {
        writeln!(out, "{line}")?;
    }
    writeln!(
        out,
        "{} passed, {} failed",
        tally.passed,
        tally.failures.len()
    )?;
    Ok(if tally.failures.is_empty() {
        ExitCode::SUCCESS
    } else {
        ExitCode::FAILURE
    })
}

/// The log of `workload ticks`; `None` if the numbers are wrong.
fn ticks_of(numbers: &[&str]) -> Option<Vec<u8>> {
    let [blocks, waiters, count] = numbers else {
        return None;
    };
    ticks(
        blocks.parse().ok()?,
        waiters.parse().ok()?,
        count.parse().ok()?,
    )
}

fn write_log(log: Option<Vec<u8>>) -> io::Result<Option<ExitCode>> {
    let Some(log) = log else {
        return Ok(None);
    };
    io::stdout().lock().write_all(&log)?;
    Ok(Some(ExitCode::SUCCESS))
}

/// Writes a line for each program: its best time in microseconds, and itself.
fn time(count: &str, log: &Path, programs: &[&str]) -> io::Result<Option<ExitCode>> {
    let count = count.parse().unwrap_or(0);
    if count == 0 || programs.is_empty() {
        return Ok(None);
    }
    let times = best_times(count, log, programs)?;
    let mut out = io::stdout().lock();
    for (time, program) in times.iter().zip(programs) {
        writeln!(out, "{} {program}", time.as_micros())?;
    }
    Ok(Some(ExitCode::SUCCESS))
}
