//! Counts what logs reach by priorities and by record 8.

use crate::codes::{E_ID, E_OK, E_PAR, E_TMOUT, WAITING};
use crate::coverage::{call_name, Coverage};
use crate::log::{read_start, Asked, Fault, Record};
use crate::pool::{Answer, Pool, LEAST_PRIORITY};
use crate::queue::{Order, Queue};

/// Priorities next to the limits, and the greatest number.
const EDGES: [u32; 5] = [0, 1, LEAST_PRIORITY, LEAST_PRIORITY + 1, u32::MAX];

impl Coverage {
    /// Counts what a get or poll reaches by its priority. `before` is the queue
    /// before the call, `pool` the pool after it.
    pub(crate) fn add_priority_call(
        &mut self,
        before: &Queue,
        pool: &Pool,
        record: Record,
        answer: &Answer,
    ) {
        let Some(asked) = record.asked() else {
            return;
        };
        let (order, kind) = (order_name(pool), kind_name(record));
        self.add(format!("{order}, {kind}"));
        if kind != OLD && EDGES.contains(&asked.priority) {
            let Asked { priority, .. } = asked;
            self.add(format!("{order}, priority {priority}"));
        }
        if asked.priority == 0 || asked.priority > LEAST_PRIORITY {
            self.add_refused_priority(before, asked, answer);
        } else if answer.code >= E_OK || answer.code == E_TMOUT {
            self.add_order(before, pool, asked, call_name(record), answer);
        }
    }

    /// Counts a wrong priority beside another fault.
    fn add_refused_priority(&mut self, before: &Queue, asked: Asked, answer: &Answer) {
        match answer.code {
            E_ID => self.add("wrong priority of a wrong task"),
            E_PAR if before.contains(asked.task) => self.add("wrong priority of a waiting task"),
            _ => {}
        }
    }

    /// Counts how a get or poll that passed the tests stands to the waiters.
    fn add_order(
        &mut self,
        before: &Queue,
        pool: &Pool,
        asked: Asked,
        call: &str,
        answer: &Answer,
    ) {
        if before.is_empty() {
            return;
        }
        let order = order_name(pool);
        let best = before.iter().map(|waiter| waiter.priority).min();
        let standing = match best.map(|best| best.cmp(&asked.priority)) {
            Some(std::cmp::Ordering::Less) => "better",
            Some(std::cmp::Ordering::Equal) => "equal",
            _ => "worse",
        };
        if answer.code == E_OK {
            self.add(format!("{order}, {call} granted past {standing}"));
        } else if pool.fits(asked.size) {
            self.add(format!("{order}, {call} held back by {standing}"));
        }
        if answer.code == WAITING {
            let place = place_name(before, pool, asked.task);
            self.add(format!("{order}, newcomer {place}"));
        }
    }

    /// Counts where record 8 stands wrongly, if that is the fault.
    pub(crate) fn add_misplaced_order(&mut self, log: &[u8], place: usize, fault: Fault) {
        if fault != Fault::Order {
            return;
        }
        let first = read_start(log).map(|(_, first)| first);
        if first == Ok(place) {
            self.add("record 8 twice");
        } else if place + 1 == log.len() {
            self.add("record 8 at the end");
        } else {
            self.add("record 8 in the middle");
        }
    }
}

pub(crate) fn order_name(pool: &Pool) -> &'static str {
    match pool.queue().order() {
        Order::Fifo => "FIFO pool",
        Order::Priority => "priority pool",
    }
}

/// Name of the records that have no priority.
const OLD: &str = "record 1 or 2";

fn kind_name(record: Record) -> &'static str {
    match record {
        Record::PriorityGet { .. } => "record 6",
        Record::PriorityPoll { .. } => "record 7",
        _ => OLD,
    }
}

/// Where a task that has just joined stands. Others wait.
fn place_name(before: &Queue, pool: &Pool, task: u32) -> &'static str {
    match pool.queue().place(task) {
        Some(0) => "at the front",
        Some(place) if place == before.len() => "at the end",
        _ => "in the middle",
    }
}
