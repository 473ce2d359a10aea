//! Counts what cases reach in pools with kinds.

use crate::attributes::{Attributes, WITHOUT_KINDS, WITH_KINDS};
use crate::codes::{E_OK, E_PAR, WAITING};
use crate::coverage::{call_name, Coverage};
use crate::kinds::{Kinds, SIZES};
use crate::kinds_case::read_case;
use crate::log::Record;
use crate::number::read_number;
use crate::pool::{Answer, Pool};
use crate::queue::Queue;
use crate::runs::HEADER;

/// A request that was granted.
struct Granted {
    size: u32,
    offset: u32,
    /// At once, or to a waiter.
    how: &'static str,
}

impl Coverage {
    /// Runs a case and counts what it reaches.
    pub fn add_case(&mut self, case: &[u8]) {
        self.add("cases");
        let Some((attributes, log)) = read_case(case) else {
            return self.add("choice or M cannot be read");
        };
        if let Ok((len, _)) = read_number(log) {
            match Pool::create(len, attributes) {
                Ok(pool) => self.add(sort_name(&pool)),
                Err(_) => self.add(format!("refused, {}", refusal_name(len, attributes))),
            }
        }
        self.add_log_on(attributes, log);
    }

    /// Counts what a call reaches in a pool with kinds. `before` is the queue
    /// before the call, `pool` the pool after it.
    pub(crate) fn add_kinds_call(
        &mut self,
        before: &Queue,
        pool: &Pool,
        record: Record,
        answer: &Answer,
    ) {
        let Some(kinds) = pool.kinds() else {
            return;
        };
        for granted in granted_by(before, record, answer) {
            self.add_granted(pool, kinds, &granted);
        }
        if answer.woken.iter().any(|woken| woken.code == E_OK) {
            self.add(format!("with kinds, {} serves", call_name(record)));
        }
        if answer.code == WAITING {
            self.add("with kinds, get waits");
        }
        if let (Some(size), E_PAR) = (size_of(record), answer.code) {
            self.add_refused_size(pool, kinds, size);
        }
    }

    fn add_granted(&mut self, pool: &Pool, kinds: Kinds, granted: &Granted) {
        let &Granted { size, offset, how } = granted;
        let kind = kinds.round_up(size).unwrap_or(0);
        let number = SIZES.partition_point(|&other| other <= kind);
        self.add(format!("kind {number:02} granted {how}"));
        if size == kind {
            self.add("with kinds, size of a kind granted");
        } else if size > 1 && kinds.round_up(size - 1) != Some(kind) {
            self.add("with kinds, size next above a kind granted");
        }
        let block = pool.runs().live().find(|run| run.offset() == offset);
        let rest = block.map_or(0, |run| run.end() - (offset + kind));
        if rest > 0 {
            self.add(format!("with kinds, block larger by {rest}"));
        }
    }

    fn add_refused_size(&mut self, pool: &Pool, kinds: Kinds, size: u32) {
        match size {
            0 => self.add("with kinds, size 0 refused"),
            _ if size <= pool.max_size() => {}
            _ if size <= kinds.top() => self.add("size above M refused, the top kind holds it"),
            _ => self.add("size above M refused"),
        }
    }
}

/// The requests that a call granted.
fn granted_by(before: &Queue, record: Record, answer: &Answer) -> Vec<Granted> {
    let mut list = Vec::new();
    if let (Some(size), E_OK) = (size_of(record), answer.code) {
        list.push(Granted {
            size,
            offset: answer.offset,
            how: "at once",
        });
    }
    for woken in answer.woken.iter().filter(|woken| woken.code == E_OK) {
        let waiter = before.iter().find(|waiter| waiter.task == woken.task);
        list.push(Granted {
            size: waiter.map_or(0, |waiter| waiter.size),
            offset: woken.offset,
            how: "to a waiter",
        });
    }
    list
}

/// The size that a get or poll asks.
fn size_of(record: Record) -> Option<u32> {
    record.asked().map(|asked| asked.size)
}

fn sort_name(pool: &Pool) -> String {
    match pool.kinds() {
        None => "pool without kinds".to_string(),
        Some(kinds) => format!("pool with {:02} kinds", kinds.as_slice().len()),
    }
}

/// Why create refuses a pool.
fn refusal_name(len: u32, attributes: Attributes) -> &'static str {
    let Attributes {
        kinds, greatest, ..
    } = attributes;
    if Pool::create(len, Attributes::default()).is_err() {
        return "N";
    }
    match (kinds, Kinds::up_to(greatest)) {
        (WITHOUT_KINDS, _) => "M without kinds",
        (WITH_KINDS, _) if greatest == 0 => "M 0",
        (WITH_KINDS, None) => "M above the last size",
        (WITH_KINDS, Some(kinds)) if kinds.top() + HEADER == len + 4 => "top kind misses by 4",
        (WITH_KINDS, Some(_)) => "top kind above N",
        _ => "unknown choice",
    }
}
