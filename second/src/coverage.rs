//! Counts what a set of logs reaches.

use std::collections::BTreeMap;

use crate::attributes::Attributes;
use crate::codes::{E_OK, E_TMOUT, INSIDE_BLOCK};
use crate::log::{Fault, Record};
use crate::number::NumberFault;
use crate::pool::{Answer, Pool, MAX_LEN};
use crate::priority_coverage::order_name;
use crate::queue::Queue;
use crate::replay::{Replay, StartFault, Step, MAX_LOG};
use crate::runs::HEADER;
use crate::waits::{Wait, Waits};

/// Counts by name, and the greatest number seen by name.
#[derive(Default)]
pub struct Coverage {
    pub counts: BTreeMap<String, u64>,
    pub maxima: BTreeMap<&'static str, usize>,
}

impl Coverage {
    pub fn count(&self, name: &str) -> u64 {
        self.counts.get(name).copied().unwrap_or(0)
    }

    pub fn maximum(&self, name: &str) -> usize {
        self.maxima.get(name).copied().unwrap_or(0)
    }

    pub(crate) fn add(&mut self, name: impl Into<String>) {
        *self.counts.entry(name.into()).or_default() += 1;
    }

    fn raise(&mut self, name: &'static str, value: usize) {
        let most = self.maxima.entry(name).or_default();
        *most = value.max(*most);
    }

    /// Runs a log and counts what it reaches.
    pub fn add_log(&mut self, log: &[u8]) {
        self.add_log_on(Attributes::default(), log);
    }

    /// Runs a log on a pool with these attributes and counts what it reaches.
    pub fn add_log_on(&mut self, attributes: Attributes, log: &[u8]) {
        self.add("logs");
        match log.len() {
            0 => self.add("log empty"),
            MAX_LOG => self.add("log of the greatest length"),
            _ => {}
        }
        let mut replay = match Replay::start(attributes, log) {
            Ok(replay) => replay,
            Err(fault) => return self.add(start_fault_name(fault)),
        };
        match replay.pool().len() {
            12 => self.add("pool of 12 bytes"),
            MAX_LEN => self.add("pool of the greatest length"),
            _ => {}
        }
        self.add(order_name(replay.pool()));
        let mut waits = Waits::default();
        loop {
            let before = replay.pool().queue().clone();
            match replay.step() {
                Step::Done(record, answer) => {
                    self.add_call(record, &answer);
                    self.add_details(&before, replay.pool(), record, &answer);
                    self.add_kinds_call(&before, replay.pool(), record, &answer);
                    self.add_priority_call(&before, replay.pool(), record, &answer);
                    self.add_ended(&waits.follow(record, &answer));
                }
                Step::End => return self.add("end clean"),
                Step::Bad(place, fault) => {
                    self.add_misplaced_order(log, place, fault);
                    return self.add(format!("bad record, {}", fault_name(fault)));
                }
            }
            self.add_state(replay.pool());
        }
    }

    fn add_state(&mut self, pool: &Pool) {
        self.raise("live blocks", pool.runs().live().count());
        self.raise("free runs", pool.runs().free().count());
        self.raise("waiters", pool.queue().len());
        if pool.queue().len() >= 31 {
            self.add(format!("queue of {}", pool.queue().len()));
        }
    }

    fn add_call(&mut self, record: Record, answer: &Answer) {
        let call = call_name(record);
        self.add("records");
        self.add(format!("code {}", answer.code));
        self.add(format!("{call} code {}", answer.code));
        for woken in &answer.woken {
            self.add(format!("woken {}", woken.code));
        }
        let served = answer
            .woken
            .iter()
            .filter(|woken| woken.code == E_OK)
            .count();
        let expired = answer
            .woken
            .iter()
            .filter(|woken| woken.code == E_TMOUT)
            .count();
        self.raise("served by one call", served);
        if record == Record::Tick {
            self.raise("served by one tick", served);
        }
        self.raise("expired in one tick", expired);
        if served > 0 {
            self.add(format!("{call} serves"));
        }
        if expired > 1 {
            self.add("tick with several expiries");
        }
    }

    /// `before` is the queue before the call, `pool` the pool after it.
    fn add_details(&mut self, before: &Queue, pool: &Pool, record: Record, answer: &Answer) {
        if record.asked().is_some_and(|asked| asked.limit == i32::MAX) {
            self.add("limit field 2^31");
        }
        match record {
            Record::Cancel { task } if answer.code == E_OK => {
                let place = before.place(task).map_or(0, |place| place + 1);
                self.add(format!("cancel at place {place:02}"));
            }
            Record::Release { offset } if answer.code != E_OK => {
                self.add_refused_release(pool, offset, answer);
            }
            _ => {}
        }
    }

    /// Counts the waits that one call ended, each with its code.
    fn add_ended(&mut self, ended: &[(Wait, i32)]) {
        let (expired, others): (Vec<_>, Vec<_>) = ended
            .iter()
            .copied()
            .partition(|(_, code)| *code == E_TMOUT);
        for (wait, code) in others {
            if wait.has_one_tick_left() {
                self.add(format!("woken {code}, one tick left"));
            }
        }
        self.add_expired(&expired);
    }

    fn add_expired(&mut self, expired: &[(Wait, i32)]) {
        for (wait, _) in expired {
            self.raise("ticks of an expired wait", wait.ticks as usize);
            if wait.others > 0 {
                self.add("expiry with other calls between its ticks");
            }
        }
        let limits = expired.iter().map(|(wait, _)| wait.limit);
        if limits.clone().min() != limits.max() {
            self.add("tick with expiries of different limits");
        }
    }

    fn add_refused_release(&mut self, pool: &Pool, offset: u32, answer: &Answer) {
        let reason = format!("release reason {}", answer.reason);
        if answer.place > 0 {
            self.add(format!("{reason}, place above 0"));
        }
        if answer.reason == INSIDE_BLOCK {
            let spot = spot_name(pool, offset, answer.place);
            self.add(format!("{reason}, {spot}"));
        }
        self.add(reason);
        if let Some(edge) = edge_name(pool, offset) {
            self.add(format!("release refused, offset {edge}"));
        }
    }
}

pub(crate) fn call_name(record: Record) -> &'static str {
    match record {
        Record::Get { limit: 0, .. } | Record::PriorityGet { limit: 0, .. } => "get with limit 0,",
        Record::Get { .. } | Record::PriorityGet { .. } => "get",
        Record::Poll { .. } | Record::PriorityPoll { .. } => "poll",
        Record::Release { .. } => "release",
        Record::Cancel { .. } => "cancel",
        Record::Tick => "tick",
    }
}

/// The part of the block at `place` that `offset` lies in.
fn spot_name(pool: &Pool, offset: u32, place: u32) -> &'static str {
    let free = pool.runs().free().any(|run| run.start == place);
    match (offset - place < HEADER, free) {
        (true, true) => "header of a free block",
        (true, false) => "header of a live block",
        (false, true) => "body of a free block",
        (false, false) => "body of a live block",
    }
}

/// The name of an offset next to a limit of the pool.
fn edge_name(pool: &Pool, offset: u32) -> Option<&'static str> {
    let len = pool.len();
    let edges = [
        (4, "4"),
        (7, "7"),
        (len - 4, "N - 4"),
        (len - 1, "N - 1"),
        (len, "N"),
    ];
    let edge = edges.into_iter().find(|edge| edge.0 == offset);
    edge.map(|edge| edge.1)
}

fn start_fault_name(fault: StartFault) -> String {
    match fault {
        StartFault::TooLong => "log too long".to_string(),
        StartFault::BadLength(fault) => format!("bad N, {}", number_fault_name(fault)),
        StartFault::Refused(code) => format!("pool refused {code}"),
    }
}

fn fault_name(fault: Fault) -> &'static str {
    match fault {
        Fault::Number(fault) => number_fault_name(fault),
        Fault::Kind => "kind",
        Fault::Limit => "limit field",
        Fault::Order => "misplaced 8",
    }
}

fn number_fault_name(fault: NumberFault) -> &'static str {
    match fault {
        NumberFault::CutOff => "cut off",
        NumberFault::LongForm => "long form",
        NumberFault::TooLarge => "too large",
    }
}
