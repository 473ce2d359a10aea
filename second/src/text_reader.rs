//! Reads a log from its text form.

use std::fmt;

use crate::log::{log_bytes, Record, Start};
use crate::pool::FOREVER;
use crate::writer::MAX_RECORDS;

/// The greatest length of a text.
pub const MAX_TEXT: usize = 1_048_576;
/// The greatest limit.
const MAX_LIMIT: u32 = i32::MAX as u32;

/// Why a line is refused.
#[derive(Clone, Copy, Debug, PartialEq, Eq, PartialOrd, Ord)]
pub enum Reason {
    UnknownWord,
    MissingNumber,
    NumberTooLarge,
    TooManyNumbers,
    NoPoolLine,
    TooManyRecords,
}

impl fmt::Display for Reason {
    fn fmt(&self, out: &mut fmt::Formatter) -> fmt::Result {
        out.write_str(match self {
            Reason::UnknownWord => "unknown word",
            Reason::MissingNumber => "missing number",
            Reason::NumberTooLarge => "number too large",
            Reason::TooManyNumbers => "too many numbers",
            Reason::NoPoolLine => "no pool line",
            Reason::TooManyRecords => "more than 4,096 records",
        })
    }
}

/// Why a text is refused.
#[derive(Clone, Copy, Debug, PartialEq, Eq)]
pub enum TextFault {
    /// More than 1,048,576 bytes.
    TooLong,
    /// The first line that is refused, counted from 1, and why.
    Line(usize, Reason),
}

impl fmt::Display for TextFault {
    fn fmt(&self, out: &mut fmt::Formatter) -> fmt::Result {
        match self {
            TextFault::TooLong => out.write_str("text too long"),
            TextFault::Line(number, reason) => write!(out, "line {number}: {reason}"),
        }
    }
}

/// The log of a text, or a line that tells why there is none.
pub fn log_from_text(text: &[u8]) -> Vec<u8> {
    match read_text(text) {
        Ok((start, records)) => log_bytes(start, &records),
        Err(fault) => format!("{fault}\n").into_bytes(),
    }
}

/// Reads a whole text.
pub fn read_text(text: &[u8]) -> Result<(Start, Vec<Record>), TextFault> {
    if text.len() > MAX_TEXT {
        return Err(TextFault::TooLong);
    }
    let mut taken = Taken::default();
    let mut number = 1;
    for line in text.split_inclusive(|&byte| byte == b'\n') {
        taken
            .line(line)
            .map_err(|reason| TextFault::Line(number, reason))?;
        number += 1;
    }
    let start = taken.start;
    let start = start.ok_or(TextFault::Line(number, Reason::NoPoolLine))?;
    Ok((start, taken.records))
}

/// What the lines so far have given.
#[derive(Default)]
struct Taken {
    /// That of the pool line.
    start: Option<Start>,
    records: Vec<Record>,
}

impl Taken {
    /// Takes a line with or without its newline.
    fn line(&mut self, line: &[u8]) -> Result<(), Reason> {
        let mut words = Words::of(line);
        match (words.next(), self.start) {
            (None, _) => Ok(()),
            (Some(first), None) => {
                self.start = Some(words.start(first)?);
                Ok(())
            }
            (Some(first), Some(_)) => {
                let record = words.record(first)?;
                self.push(record)
            }
        }
    }

    fn push(&mut self, record: Record) -> Result<(), Reason> {
        if self.records.len() == MAX_RECORDS {
            return Err(Reason::TooManyRecords);
        }
        self.records.push(record);
        Ok(())
    }
}

fn is_blank(byte: u8) -> bool {
    matches!(byte, b' ' | b'\t' | b'\r')
}

fn is_all_digits(word: &[u8]) -> bool {
    word.iter().all(u8::is_ascii_digit)
}

/// The value of decimal digits, `None` from 2^32 on.
fn value_of(digits: &[u8]) -> Option<u32> {
    digits.iter().try_fold(0u32, |value, digit| {
        value.checked_mul(10)?.checked_add(u32::from(digit - b'0'))
    })
}

/// The words of a line that are not yet taken.
#[derive(Clone)]
struct Words<'a> {
    rest: &'a [u8],
}

impl<'a> Iterator for Words<'a> {
    type Item = &'a [u8];

    fn next(&mut self) -> Option<&'a [u8]> {
        let start = self.rest.iter().position(|&byte| !is_blank(byte))?;
        let rest = &self.rest[start..];
        let end = rest.iter().position(|&byte| is_blank(byte));
        let (word, rest) = rest.split_at(end.unwrap_or(rest.len()));
        self.rest = rest;
        Some(word)
    }
}

impl<'a> Words<'a> {
    /// The words in front of the comment and the newline.
    fn of(line: &'a [u8]) -> Words<'a> {
        let end = line.iter().position(|&byte| matches!(byte, b'#' | b'\n'));
        let rest = &line[..end.unwrap_or(line.len())];
        Words { rest }
    }

    /// Takes a number, which must stand here.
    fn number(&mut self) -> Result<u32, Reason> {
        self.number_up_to(u32::MAX)
    }

    fn number_up_to(&mut self, most: u32) -> Result<u32, Reason> {
        let word = self.next().filter(|word| is_all_digits(word));
        let value = value_of(word.ok_or(Reason::MissingNumber)?);
        value
            .filter(|&value| value <= most)
            .ok_or(Reason::NumberTooLarge)
    }

    /// Takes the word if it stands here.
    fn option(&mut self, word: &str) -> bool {
        let mut behind = self.clone();
        let found = behind.next() == Some(word.as_bytes());
        if found {
            *self = behind;
        }
        found
    }

    /// Takes a limit if there is one.
    fn limit(&mut self) -> Result<i32, Reason> {
        if !self.option("limit") {
            return Ok(FOREVER);
        }
        self.number_up_to(MAX_LIMIT).map(|limit| limit as i32)
    }

    /// Takes a priority if there is one.
    fn priority(&mut self) -> Result<Option<u32>, Reason> {
        if !self.option("priority") {
            return Ok(None);
        }
        self.number().map(Some)
    }

    /// The line must end here.
    fn end(&mut self) -> Result<(), Reason> {
        match self.next() {
            None => Ok(()),
            Some(word) if is_all_digits(word) => Err(Reason::TooManyNumbers),
            Some(_) => Err(Reason::UnknownWord),
        }
    }

    /// Takes the words behind the first one of the pool line.
    fn start(&mut self, first: &[u8]) -> Result<Start, Reason> {
        if first != b"pool" {
            return Err(Reason::NoPoolLine);
        }
        let len = self.number()?;
        let by_priority = self.option("priority");
        self.end()?;
        Ok(if by_priority {
            Start::by_priority(len)
        } else {
            Start::fifo(len)
        })
    }

    /// Takes the words behind the first one of a record's line.
    fn record(&mut self, first: &[u8]) -> Result<Record, Reason> {
        let record = match first {
            b"get" => self.get()?,
            b"poll" => self.poll()?,
            b"release" => Record::Release {
                offset: self.number()?,
            },
            b"cancel" => Record::Cancel {
                task: self.number()?,
            },
            b"tick" => Record::Tick,
            _ => return Err(Reason::UnknownWord),
        };
        self.end()?;
        Ok(record)
    }

    fn get(&mut self) -> Result<Record, Reason> {
        let (task, size) = (self.number()?, self.number()?);
        let limit = self.limit()?;
        Ok(match self.priority()? {
            None => Record::Get { task, size, limit },
            Some(priority) => Record::PriorityGet {
                task,
                size,
                limit,
                priority,
            },
        })
    }

    fn poll(&mut self) -> Result<Record, Reason> {
        let (task, size) = (self.number()?, self.number()?);
        Ok(match self.priority()? {
            None => Record::Poll { task, size },
            Some(priority) => Record::PriorityPoll {
                task,
                size,
                priority,
            },
        })
    }
}
