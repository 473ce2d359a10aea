//! Follows the waits of a log by its records and their answers alone.

use crate::codes::WAITING;
use crate::log::Record;
use crate::pool::Answer;

/// A wait and the calls since its get.
#[derive(Clone, Copy, Debug, PartialEq, Eq)]
pub struct Wait {
    pub task: u32,
    pub limit: i32,
    /// Ticks since the get, the one that ends the wait included.
    pub ticks: u32,
    /// Other calls since the first of these ticks.
    pub others: u32,
}

impl Wait {
    fn new(task: u32, limit: i32) -> Wait {
        Wait {
            task,
            limit,
            ticks: 0,
            others: 0,
        }
    }

    /// True if the next tick must end the wait.
    pub fn has_one_tick_left(&self) -> bool {
        u32::try_from(self.limit) == Ok(self.ticks)
    }

    fn count(&mut self, record: Record) {
        if record == Record::Tick {
            self.ticks += 1;
        } else if self.ticks > 0 {
            self.others += 1;
        }
    }
}

/// The waits at a place of a log, in the order of their gets.
#[derive(Default)]
pub struct Waits {
    list: Vec<Wait>,
}

impl Waits {
    pub fn iter(&self) -> impl Iterator<Item = &Wait> {
        self.list.iter()
    }

    /// Takes the next record and its answer. Answers the waits that it ended,
    /// each with its code, in the order of the woken list.
    pub fn follow(&mut self, record: Record, answer: &Answer) -> Vec<(Wait, i32)> {
        for wait in &mut self.list {
            wait.count(record);
        }
        let woken = answer.woken.iter();
        let ended = woken
            .map(|woken| (self.remove(woken.task), woken.code))
            .collect();
        if let (Some(asked), WAITING) = (record.asked(), answer.code) {
            self.list.push(Wait::new(asked.task, asked.limit));
        }
        ended
    }

    fn remove(&mut self, task: u32) -> Wait {
        let place = self.list.iter().position(|wait| wait.task == task);
        self.list.remove(place.expect("a woken task has waited"))
    }
}
