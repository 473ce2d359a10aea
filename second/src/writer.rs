//! Writes a log from columns of numbers into a lent buffer.

use crate::attributes::{BY_PRIORITY, FIFO};
use crate::codes::{E_NOMEM, E_OK, E_PAR};
use crate::log::{
    log_bytes, Record, Start, CANCEL, GET, POLL, PRIORITY_GET, PRIORITY_POLL, RELEASE, TICK,
};

/// The greatest count of records.
pub const MAX_RECORDS: usize = 4_096;
/// Count of the columns.
pub const COLUMNS: usize = 5;
/// The least limit a log can express.
const MIN_LIMIT: i32 = -1;

/// Kind, first, second, limit and priority of one record.
pub type Row = (u32, u32, u32, i32, u32);

/// Records as columns: record i has number i of each. The first is a task or
/// an offset, the second a size. Numbers that a kind does not have may be any.
#[derive(Clone, Debug, Default, PartialEq, Eq)]
pub struct Columns {
    pub kinds: Vec<u32>,
    pub firsts: Vec<u32>,
    pub seconds: Vec<u32>,
    pub limits: Vec<i32>,
    pub priorities: Vec<u32>,
}

impl FromIterator<Row> for Columns {
    fn from_iter<T: IntoIterator<Item = Row>>(rows: T) -> Columns {
        let mut columns = Columns::default();
        for (kind, first, second, limit, priority) in rows {
            columns.kinds.push(kind);
            columns.firsts.push(first);
            columns.seconds.push(second);
            columns.limits.push(limit);
            columns.priorities.push(priority);
        }
        columns
    }
}

impl Columns {
    /// Lengths of the columns.
    pub fn lens(&self) -> [usize; COLUMNS] {
        [
            self.kinds.len(),
            self.firsts.len(),
            self.seconds.len(),
            self.limits.len(),
            self.priorities.len(),
        ]
    }

    /// Cuts column number `column`, 0 to 4, or appends ticks or zeros to it.
    pub fn resize(&mut self, column: usize, len: usize) {
        match column {
            0 => self.kinds.resize(len, TICK),
            1 => self.firsts.resize(len, 0),
            2 => self.seconds.resize(len, 0),
            3 => self.limits.resize(len, 0),
            _ => self.priorities.resize(len, 0),
        }
    }

    /// The records; `None` if the columns are of unequal length, if they are
    /// too many, or if a log cannot express one of them.
    fn records(&self) -> Option<Vec<Record>> {
        let count = self.kinds.len();
        if self.lens() != [count; COLUMNS] || count > MAX_RECORDS {
            return None;
        }
        (0..count).map(|index| self.record(index)).collect()
    }

    fn record(&self, index: usize) -> Option<Record> {
        let (task, size) = (self.firsts[index], self.seconds[index]);
        let (limit, priority) = (self.limits[index], self.priorities[index]);
        match self.kinds[index] {
            GET | PRIORITY_GET if limit < MIN_LIMIT => None,
            GET => Some(Record::Get { task, size, limit }),
            POLL => Some(Record::Poll { task, size }),
            RELEASE => Some(Record::Release { offset: task }),
            CANCEL => Some(Record::Cancel { task }),
            TICK => Some(Record::Tick),
            PRIORITY_GET => Some(Record::PriorityGet {
                task,
                size,
                limit,
                priority,
            }),
            PRIORITY_POLL => Some(Record::PriorityPoll {
                task,
                size,
                priority,
            }),
            _ => None,
        }
    }
}

/// What the writer answers.
#[derive(Clone, Copy, Debug, PartialEq, Eq)]
pub struct Written {
    pub code: i32,
    /// Length of the log, or 0 on a refusal.
    pub len: usize,
}

impl Written {
    fn refused(code: i32) -> Written {
        Written { code, len: 0 }
    }
}

/// Writes the log of a start and the columns' records to the beginning of the
/// buffer. All other bytes are kept; on a refusal every byte is.
pub fn write_log(start: Start, columns: &Columns, buffer: &mut [u8]) -> Written {
    if ![FIFO, BY_PRIORITY].contains(&start.order) {
        return Written::refused(E_PAR);
    }
    let Some(records) = columns.records() else {
        return Written::refused(E_PAR);
    };
    let log = log_bytes(start, &records);
    let Some(room) = buffer.get_mut(..log.len()) else {
        return Written::refused(E_NOMEM);
    };
    room.copy_from_slice(&log);
    Written {
        code: E_OK,
        len: log.len(),
    }
}
