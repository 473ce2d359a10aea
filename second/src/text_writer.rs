//! Writes the text form of a log.

use std::fmt;

use crate::attributes::BY_PRIORITY;
use crate::log::{read_record, read_start, Reading, Record, Start};
use crate::pool::FOREVER;
use crate::writer::MAX_RECORDS;

/// The greatest length of a log of 4,096 records: N, record 8 and the longest
/// gets.
pub const MAX_TEXT_LOG: usize = 86_022;

/// Why a log has no text.
#[derive(Clone, Copy, Debug, PartialEq, Eq)]
pub enum LogFault {
    /// More than 86,022 bytes.
    TooLong,
    /// The start, at 0, or the record at this place cannot be read.
    Bad(usize),
    /// A 4,097th record.
    TooManyRecords,
}

impl fmt::Display for LogFault {
    fn fmt(&self, out: &mut fmt::Formatter) -> fmt::Result {
        match self {
            LogFault::TooLong => out.write_str("log too long"),
            LogFault::Bad(place) => write!(out, "bad log at {place}"),
            LogFault::TooManyRecords => out.write_str("more than 4,096 records"),
        }
    }
}

/// The text of a log, or a line that tells why there is none.
pub fn text_from_log(log: &[u8]) -> String {
    match read_records(log) {
        Ok((start, records)) => canonical_text(start, &records),
        Err(fault) => format!("{fault}\n"),
    }
}

/// Reads a log that can have a text.
pub fn read_records(log: &[u8]) -> Result<(Start, Vec<Record>), LogFault> {
    if log.len() > MAX_TEXT_LOG {
        return Err(LogFault::TooLong);
    }
    let (start, mut place) = read_start(log).map_err(|_| LogFault::Bad(0))?;
    let mut records = Vec::new();
    loop {
        match read_record(&log[place..]) {
            Reading::End => return Ok((start, records)),
            Reading::Bad(_) => return Err(LogFault::Bad(place)),
            Reading::Record(..) if records.len() == MAX_RECORDS => {
                return Err(LogFault::TooManyRecords)
            }
            Reading::Record(record, len) => {
                records.push(record);
                place += len;
            }
        }
    }
}

/// The one text without comments, spare blanks and leading zeros. A get's limit
/// must be at least -1.
pub fn canonical_text(start: Start, records: &[Record]) -> String {
    let mut text = pool_line(start) + "\n";
    for &record in records {
        text += &record_line(record);
        text.push('\n');
    }
    text
}

fn pool_line(Start { len, order }: Start) -> String {
    let order = if order == BY_PRIORITY {
        " priority"
    } else {
        ""
    };
    format!("pool {len}{order}")
}

fn record_line(record: Record) -> String {
    match record {
        Record::Get { task, size, limit } => format!("get {task} {size}{}", limit_words(limit)),
        Record::Poll { task, size } => format!("poll {task} {size}"),
        Record::Release { offset } => format!("release {offset}"),
        Record::Cancel { task } => format!("cancel {task}"),
        Record::Tick => "tick".to_string(),
        Record::PriorityGet {
            task,
            size,
            limit,
            priority,
        } => format!(
            "get {task} {size}{} priority {priority}",
            limit_words(limit)
        ),
        Record::PriorityPoll {
            task,
            size,
            priority,
        } => format!("poll {task} {size} priority {priority}"),
    }
}

/// The words of a limit, which has none if it is -1.
fn limit_words(limit: i32) -> String {
    if limit == FOREVER {
        return String::new();
    }
    format!(" limit {limit}")
}
