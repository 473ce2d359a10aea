//! Records of a log, and whole logs.

use crate::attributes::{BY_PRIORITY, FIFO};
use crate::number::{read_number, write_number, NumberFault};
use crate::pool::{LEAST_PRIORITY, POLLING};

/// The greatest limit field: a limit of 2^31 - 1, plus 1.
pub const MAX_LIMIT_FIELD: u32 = 1 << 31;

/// Kinds of records.
pub const GET: u32 = 1;
pub const POLL: u32 = 2;
pub const RELEASE: u32 = 3;
pub const CANCEL: u32 = 4;
pub const TICK: u32 = 5;
pub const PRIORITY_GET: u32 = 6;
pub const PRIORITY_POLL: u32 = 7;
/// Directly after N it makes the pool a priority pool.
pub const ORDER: u32 = 8;

/// What stands in front of the records.
#[derive(Clone, Copy, Debug, PartialEq, Eq)]
pub struct Start {
    /// N, the length of the pool.
    pub len: u32,
    /// By priority if record 8 stands after N, else FIFO.
    pub order: u32,
}

impl Start {
    pub fn fifo(len: u32) -> Start {
        Start { len, order: FIFO }
    }

    pub fn by_priority(len: u32) -> Start {
        let order = BY_PRIORITY;
        Start { len, order }
    }
}

/// One call of a log.
#[derive(Clone, Copy, Debug, PartialEq, Eq)]
pub enum Record {
    Get {
        task: u32,
        size: u32,
        limit: i32,
    },
    Poll {
        task: u32,
        size: u32,
    },
    Release {
        offset: u32,
    },
    Cancel {
        task: u32,
    },
    Tick,
    PriorityGet {
        task: u32,
        size: u32,
        limit: i32,
        priority: u32,
    },
    PriorityPoll {
        task: u32,
        size: u32,
        priority: u32,
    },
}

/// What a get or poll asks.
#[derive(Clone, Copy, Debug, PartialEq, Eq)]
pub struct Asked {
    pub task: u32,
    pub size: u32,
    /// 0 for a poll.
    pub limit: i32,
    /// 16 where the record has none.
    pub priority: u32,
}

impl Record {
    /// What a get or poll asks, `None` for other records.
    pub fn asked(self) -> Option<Asked> {
        let (task, size, limit, priority) = match self {
            Record::Get { task, size, limit } => (task, size, limit, LEAST_PRIORITY),
            Record::Poll { task, size } => (task, size, POLLING, LEAST_PRIORITY),
            Record::PriorityGet {
                task,
                size,
                limit,
                priority,
            } => (task, size, limit, priority),
            Record::PriorityPoll {
                task,
                size,
                priority,
            } => (task, size, POLLING, priority),
            _ => return None,
        };
        Some(Asked {
            task,
            size,
            limit,
            priority,
        })
    }
}

/// Why a record is bad.
#[derive(Clone, Copy, Debug, PartialEq, Eq)]
pub enum Fault {
    Number(NumberFault),
    /// The kind is not 1 to 8.
    Kind,
    /// The limit field is above 2^31.
    Limit,
    /// Record 8 does not stand directly after N.
    Order,
}

/// What the record reader answers.
#[derive(Clone, Copy, Debug, PartialEq, Eq)]
pub enum Reading {
    /// A record, and the place after it.
    Record(Record, usize),
    /// The log ends before another record.
    End,
    Bad(Fault),
}

/// Reads the record at the start of `rest`.
pub fn read_record(rest: &[u8]) -> Reading {
    if rest.is_empty() {
        return Reading::End;
    }
    let mut fields = Fields { rest, place: 0 };
    match fields.record() {
        Ok(record) => Reading::Record(record, fields.place),
        Err(fault) => Reading::Bad(fault),
    }
}

/// Reads the numbers of one record.
struct Fields<'a> {
    rest: &'a [u8],
    place: usize,
}

impl Fields<'_> {
    fn number(&mut self) -> Result<u32, Fault> {
        let (value, len) = read_number(&self.rest[self.place..]).map_err(Fault::Number)?;
        self.place += len;
        Ok(value)
    }

    fn limit(&mut self) -> Result<i32, Fault> {
        let field = self.number()?;
        i32::try_from(i64::from(field) - 1).map_err(|_| Fault::Limit)
    }

    fn record(&mut self) -> Result<Record, Fault> {
        match self.number()? {
            GET => Ok(Record::Get {
                task: self.number()?,
                size: self.number()?,
                limit: self.limit()?,
            }),
            POLL => Ok(Record::Poll {
                task: self.number()?,
                size: self.number()?,
            }),
            RELEASE => Ok(Record::Release {
                offset: self.number()?,
            }),
            CANCEL => Ok(Record::Cancel {
                task: self.number()?,
            }),
            TICK => Ok(Record::Tick),
            PRIORITY_GET => Ok(Record::PriorityGet {
                task: self.number()?,
                size: self.number()?,
                limit: self.limit()?,
                priority: self.number()?,
            }),
            PRIORITY_POLL => Ok(Record::PriorityPoll {
                task: self.number()?,
                size: self.number()?,
                priority: self.number()?,
            }),
            ORDER => Err(Fault::Order),
            _ => Err(Fault::Kind),
        }
    }
}

/// The field of a limit, which must be at least -1.
fn limit_field(limit: i32) -> u32 {
    assert!(limit >= -1, "a log has no limit below -1");
    (limit as u32).wrapping_add(1)
}

/// Appends a record. A get's limit must be at least -1.
pub fn write_record(out: &mut Vec<u8>, record: Record) {
    let mut numbers = |list: &[u32]| {
        for &value in list {
            write_number(out, value);
        }
    };
    match record {
        Record::Get { task, size, limit } => numbers(&[GET, task, size, limit_field(limit)]),
        Record::Poll { task, size } => numbers(&[POLL, task, size]),
        Record::Release { offset } => numbers(&[RELEASE, offset]),
        Record::Cancel { task } => numbers(&[CANCEL, task]),
        Record::Tick => numbers(&[TICK]),
        Record::PriorityGet {
            task,
            size,
            limit,
            priority,
        } => numbers(&[PRIORITY_GET, task, size, limit_field(limit), priority]),
        Record::PriorityPoll {
            task,
            size,
            priority,
        } => numbers(&[PRIORITY_POLL, task, size, priority]),
    }
}

/// Reads the start of a log and answers it with the place of the first record.
pub fn read_start(log: &[u8]) -> Result<(Start, usize), NumberFault> {
    let (len, place) = read_number(log)?;
    match read_number(&log[place..]) {
        Ok((ORDER, more)) => Ok((Start::by_priority(len), place + more)),
        _ => Ok((Start::fifo(len), place)),
    }
}

/// Appends the start of a log.
pub fn write_start(out: &mut Vec<u8>, Start { len, order }: Start) {
    write_number(out, len);
    if order == BY_PRIORITY {
        write_number(out, ORDER);
    }
}

/// Reads a whole log: its start and the records. `None` if one of them is bad.
pub fn read_log(log: &[u8]) -> Option<(Start, Vec<Record>)> {
    let (start, mut place) = read_start(log).ok()?;
    let mut records = Vec::new();
    loop {
        match read_record(&log[place..]) {
            Reading::Record(record, after) => {
                records.push(record);
                place += after;
            }
            Reading::End => return Some((start, records)),
            Reading::Bad(_) => return None,
        }
    }
}

/// The log of a start and records. A get's limit must be at least -1.
pub fn log_bytes(start: Start, records: &[Record]) -> Vec<u8> {
    let mut log = Vec::new();
    write_start(&mut log, start);
    for &record in records {
        write_record(&mut log, record);
    }
    log
}
