//! Checks stored logs (`NAME.log`) against what is stored beside them: the text
//! of the replay (`NAME.out`) and, where it exists, the text form (`NAME.txt`).

use std::fs;
use std::io;
use std::path::{Path, PathBuf};

use crate::log::log_bytes;
use crate::process::run;
use crate::replay::replay_text;
use crate::text_reader::read_text;

/// Bytes read past the expected text.
const MORE: usize = 4_096;

/// How many logs passed, and a line for each that failed.
#[derive(Default)]
pub struct Tally {
    pub passed: usize,
    pub failures: Vec<String>,
}

impl Tally {
    fn add(&mut self, failure: Option<String>) {
        match failure {
            Some(line) => self.failures.push(line),
            None => self.passed += 1,
        }
    }
}

/// Checks every log of a folder by the own replay and, if given, the program.
pub fn check_folder(folder: &Path, program: Option<&Path>) -> io::Result<Tally> {
    let mut tally = Tally::default();
    for path in log_files(folder)? {
        tally.add(check_file(&path, program)?);
    }
    Ok(tally)
}

/// The log files of a folder in order of name; none at all is an error.
fn log_files(folder: &Path) -> io::Result<Vec<PathBuf>> {
    let mut files = Vec::new();
    for entry in fs::read_dir(folder)? {
        let path = entry?.path();
        if path.extension().is_some_and(|extension| extension == "log") {
            files.push(path);
        }
    }
    files.sort();
    if files.is_empty() {
        return Err(io::Error::other(format!(
            "{}: no log files",
            folder.display()
        )));
    }
    Ok(files)
}

/// Tells what is wrong with a stored log, if anything.
fn check_file(path: &Path, program: Option<&Path>) -> io::Result<Option<String>> {
    let log = fs::read(path)?;
    if let Some(line) = check_text_form(path, &log)? {
        return Ok(Some(line));
    }
    let stored = path.with_extension("out");
    let Some(expected) = read_if_exists(&stored)? else {
        return Ok(Some(format!("{}: missing", stored.display())));
    };
    if replay_text(&log).as_bytes() != expected {
        return Ok(Some(format!("{}: own replay differs", path.display())));
    }
    let Some(program) = program else {
        return Ok(None);
    };
    let outcome = run(program, &log, expected.len() + MORE)?;
    let same = outcome.output == expected && outcome.exited();
    Ok((!same).then(|| format!("{}: program differs", path.display())))
}

/// The text form of a log must give the log, byte for byte.
fn check_text_form(path: &Path, log: &[u8]) -> io::Result<Option<String>> {
    let stored = path.with_extension("txt");
    let Some(text) = read_if_exists(&stored)? else {
        return Ok(None);
    };
    let fault = match read_text(&text) {
        Ok((start, records)) if log_bytes(start, &records) == log => return Ok(None),
        Ok(_) => "gives another log".to_string(),
        Err(fault) => fault.to_string(),
    };
    Ok(Some(format!("{}: {fault}", stored.display())))
}

fn read_if_exists(path: &Path) -> io::Result<Option<Vec<u8>>> {
    match fs::read(path) {
        Ok(bytes) => Ok(Some(bytes)),
        Err(error) if error.kind() == io::ErrorKind::NotFound => Ok(None),
        Err(error) => Err(error),
    }
}
