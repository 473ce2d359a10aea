//! Runs a log on a fresh pool and writes the answers as text.

use std::fmt::Write;

use crate::attributes::Attributes;
use crate::log::{read_record, read_start, Fault, Reading, Record};
use crate::number::NumberFault;
use crate::pool::{Answer, Pool};

/// The greatest length of a log.
pub const MAX_LOG: usize = 65_536;

/// Makes a text of a log, or of another input.
pub type Text = fn(&[u8]) -> String;

/// Why a log cannot be started.
#[derive(Clone, Copy, Debug, PartialEq, Eq)]
pub enum StartFault {
    /// More than 65,536 bytes.
    TooLong,
    /// The pool length cannot be read.
    BadLength(NumberFault),
    /// Create refused the pool length or the attributes with this code.
    Refused(i32),
}

/// One step of a replay.
#[derive(Clone, Debug, PartialEq, Eq)]
pub enum Step {
    Done(Record, Answer),
    End,
    /// The record at this place of the log is bad.
    Bad(usize, Fault),
}

/// A log being run.
pub struct Replay<'a> {
    log: &'a [u8],
    place: usize,
    pool: Pool,
}

impl<'a> Replay<'a> {
    /// Reads the start of the log and creates the pool. Its order is that of
    /// the log.
    pub fn start(attributes: Attributes, log: &'a [u8]) -> Result<Replay<'a>, StartFault> {
        if log.len() > MAX_LOG {
            return Err(StartFault::TooLong);
        }
        let (start, place) = read_start(log).map_err(StartFault::BadLength)?;
        let attributes = attributes.with_order(start.order);
        let pool = Pool::create(start.len, attributes).map_err(StartFault::Refused)?;
        Ok(Replay { log, place, pool })
    }

    pub fn pool(&self) -> &Pool {
        &self.pool
    }

    /// Reads the next record and carries it out.
    pub fn step(&mut self) -> Step {
        match read_record(&self.log[self.place..]) {
            Reading::Record(record, len) => {
                self.place += len;
                Step::Done(record, apply(&mut self.pool, record))
            }
            Reading::End => Step::End,
            Reading::Bad(fault) => Step::Bad(self.place, fault),
        }
    }
}

/// Makes the call a record stands for.
pub fn apply(pool: &mut Pool, record: Record) -> Answer {
    match record {
        Record::Get { task, size, limit } => pool.get(task, size, limit),
        Record::Poll { task, size } => pool.poll(task, size),
        Record::Release { offset } => pool.release(offset),
        Record::Cancel { task } => pool.cancel(task),
        Record::Tick => pool.tick(),
        Record::PriorityGet {
            task,
            size,
            limit,
            priority,
        } => pool.get_with_priority(task, size, limit, priority),
        Record::PriorityPoll {
            task,
            size,
            priority,
        } => pool.poll_with_priority(task, size, priority),
    }
}

/// The whole text a log gives, each line ended by a newline.
pub fn replay_text(log: &[u8]) -> String {
    text_on(Attributes::default(), log)
}

/// The whole text a log gives on a pool with these attributes and the log's
/// order.
pub fn text_on(attributes: Attributes, log: &[u8]) -> String {
    let mut replay = match Replay::start(attributes, log) {
        Ok(replay) => replay,
        Err(StartFault::TooLong) => return "log too long\n".to_string(),
        Err(StartFault::BadLength(_)) => return "bad log at 0\n".to_string(),
        Err(StartFault::Refused(code)) => return format!("pool refused {code}\n"),
    };
    let mut text = format!("pool {}\n", replay.pool().len());
    let mut records = 0;
    loop {
        match replay.step() {
            Step::Done(_, answer) => push_answer(&mut text, &answer),
            Step::End => break push_line(&mut text, format_args!("end {records} records")),
            Step::Bad(place, _) => break push_line(&mut text, format_args!("bad log at {place}")),
        }
        records += 1;
    }
    text
}

/// A line `reason place` for each record that is carried out.
pub fn reasons_text(log: &[u8]) -> String {
    let mut text = String::new();
    let Ok(mut replay) = Replay::start(Attributes::default(), log) else {
        return text;
    };
    while let Step::Done(_, answer) = replay.step() {
        push_line(
            &mut text,
            format_args!("{} {}", answer.reason, answer.place),
        );
    }
    text
}

fn push_answer(text: &mut String, answer: &Answer) {
    push_line(text, format_args!("{} {}", answer.code, answer.offset));
    for woken in &answer.woken {
        push_line(
            text,
            format_args!("w {} {} {}", woken.task, woken.code, woken.offset),
        );
    }
}

fn push_line(text: &mut String, line: std::fmt::Arguments) {
    writeln!(text, "{line}").expect("writing to a string cannot fail");
}
