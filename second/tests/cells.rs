//! A model of another form, one cell per 4 bytes and a plain list of waiters,
//! must answer every record alike.

mod common;

use common::{dealt_case_logs, dealt_logs, need, PoolLog, State, STATES};
use second::attributes::Attributes;
use second::kinds_case::read_case;
use second::kinds_edges::edge_cases;
use second::log::Record;
use second::pool::{Answer, Woken};
use second::replay::{Replay, Step};

const FREE: u32 = 0;
const REST: u32 = 1_000;

/// Each cell is free, the owner at a block's first cell, or the rest of one.
struct Cells {
    attributes: Attributes,
    cells: Vec<u32>,
    /// In the order of their gets, whatever the order of the pool.
    waiters: Vec<Waiter>,
}

#[derive(Clone, Copy)]
struct Waiter {
    task: u32,
    size: u32,
    /// Ticks to pass before the one that ends the wait, or -1.
    ticks: i64,
    /// The priority, or 0 for all in a FIFO pool.
    rank: u32,
}

impl Cells {
    fn new(attributes: Attributes, len: u32) -> Cells {
        Cells {
            attributes,
            cells: vec![FREE; len as usize / 4],
            waiters: Vec::new(),
        }
    }

    /// Count of free cells from `place` on.
    fn free_from(&self, place: usize) -> usize {
        self.cells[place..]
            .iter()
            .take_while(|&&cell| cell == FREE)
            .count()
    }

    fn take(&mut self, task: u32, size: u32) -> Option<u32> {
        let need = need(self.attributes, size) as usize / 4;
        let mut places = 0..self.cells.len();
        let place = places.find(|&p| !self.continues(p) && self.free_from(p) >= need)?;
        let run = self.free_from(place);
        let len = if run - need >= 3 { need } else { run };
        self.cells[place..place + len].fill(REST);
        self.cells[place] = task;
        Some(4 * place as u32 + 8)
    }

    fn serve(&mut self, mut woken: Vec<Woken>) -> Answer {
        while let Some(Waiter { task, size, .. }) = self.in_order().first().copied() {
            let Some(offset) = self.take(task, size) else {
                break;
            };
            self.waiters.retain(|waiter| waiter.task != task);
            woken.push(Woken {
                task,
                code: 0,
                offset,
            });
        }
        Answer {
            woken,
            ..common::answer(0, 0)
        }
    }

    /// The waiters, head first. Those of equal rank keep their order.
    fn in_order(&self) -> Vec<Waiter> {
        let mut waiters = self.waiters.clone();
        waiters.sort_by_key(|waiter| waiter.rank);
        waiters
    }

    fn waits(&self, task: u32) -> bool {
        self.waiters.iter().any(|waiter| waiter.task == task)
    }

    fn max_size(&self) -> u32 {
        match self.attributes.kinds {
            0 => 4 * self.cells.len() as u32 - 8,
            _ => self.attributes.greatest,
        }
    }

    fn get(&mut self, task: u32, size: u32, limit: i64, priority: u32) -> Answer {
        if task == 0 || task > 32 {
            return common::answer(-18, 0);
        }
        if size == 0 || size > self.max_size() || priority == 0 || priority > 16 {
            return common::answer(-17, 0);
        }
        if self.waits(task) {
            return common::answer(-25, 0);
        }
        let rank = priority * self.attributes.order;
        let granted = if self.waiters.iter().all(|waiter| waiter.rank > rank) {
            self.take(task, size)
        } else {
            None
        };
        match granted {
            Some(offset) => common::answer(0, offset),
            None if limit == 0 => common::answer(-50, 0),
            None => {
                let ticks = limit;
                self.waiters.push(Waiter {
                    task,
                    size,
                    ticks,
                    rank,
                });
                common::answer(1, 0)
            }
        }
    }

    /// False if a cell is the first of its block or free run.
    fn continues(&self, place: usize) -> bool {
        match self.cells[place] {
            FREE => place > 0 && self.cells[place - 1] == FREE,
            cell => cell == REST,
        }
    }

    /// First cell of the block or free run that holds a cell.
    fn first_cell(&self, mut place: usize) -> usize {
        while self.continues(place) {
            place -= 1;
        }
        place
    }

    fn release(&mut self, offset: u32) -> Answer {
        if offset < 8 || offset as usize >= 4 * self.cells.len() {
            return common::refused(1, 0);
        }
        if !offset.is_multiple_of(4) {
            return common::refused(2, 0);
        }
        let cell = offset as usize / 4;
        let place = self.first_cell(cell);
        if place + 2 != cell {
            return common::refused(4, 4 * place as u32);
        }
        if self.cells[place] == FREE {
            return common::refused(3, 4 * place as u32);
        }
        self.cells[place] = FREE;
        let rest = self.cells[place + 1..]
            .iter()
            .take_while(|&&cell| cell == REST)
            .count();
        self.cells[place + 1..place + 1 + rest].fill(FREE);
        self.serve(Vec::new())
    }

    fn cancel(&mut self, task: u32) -> Answer {
        if task == 0 || task > 32 {
            return common::answer(-18, 0);
        }
        if !self.waits(task) {
            return common::answer(-41, 0);
        }
        self.waiters.retain(|waiter| waiter.task != task);
        self.serve(vec![Woken {
            task,
            code: -49,
            offset: 0,
        }])
    }

    fn tick(&mut self) -> Answer {
        let waiters = self.in_order();
        let ended = waiters.iter().filter(|waiter| waiter.ticks == 0);
        let woken = ended
            .map(|waiter| Woken {
                task: waiter.task,
                code: -50,
                offset: 0,
            })
            .collect();
        self.waiters.retain(|waiter| waiter.ticks != 0);
        for waiter in &mut self.waiters {
            waiter.ticks -= i64::from(waiter.ticks > 0);
        }
        self.serve(woken)
    }

    fn apply(&mut self, record: Record) -> Answer {
        match record {
            Record::Get { task, size, limit } => self.get(task, size, limit.into(), 16),
            Record::Poll { task, size } => self.get(task, size, 0, 16),
            Record::PriorityGet {
                task,
                size,
                limit,
                priority,
            } => self.get(task, size, limit.into(), priority),
            Record::PriorityPoll {
                task,
                size,
                priority,
            } => self.get(task, size, 0, priority),
            Record::Release { offset } => self.release(offset),
            Record::Cancel { task } => self.cancel(task),
            Record::Tick => self.tick(),
        }
    }
}

/// Runs a log on a fresh pool, if it is created, and on the cells. Answers the
/// count of its records.
fn assert_same_answers((attributes, log): PoolLog) -> usize {
    let Ok(mut replay) = Replay::start(attributes, &log) else {
        return 0;
    };
    let mut cells = Cells::new(replay.pool().attributes(), replay.pool().len());
    let mut records = 0;
    while let Step::Done(record, answer) = replay.step() {
        assert_eq!(answer, cells.apply(record));
        records += 1;
    }
    records
}

#[test]
fn cells_answer_alike() {
    STATES.into_iter().for_each(assert_cells_answer_alike);
}

fn assert_cells_answer_alike(state: State) {
    let mut records = 0;
    for index in 0..1_500 {
        let mut dealer = state(21, index);
        dealer.put_many(60);
        records += assert_same_answers((dealer.pool.attributes(), dealer.log));
    }
    assert!(records > 100_000);
}

#[test]
fn cells_answer_alike_on_dealt_logs_and_cases() {
    for logs in [
        dealt_logs().collect::<Vec<_>>(),
        dealt_case_logs().collect(),
    ] {
        let short = logs.into_iter().filter(|(_, log)| log.len() < 3_000);
        let records: usize = short.map(assert_same_answers).sum();
        assert!(records > 10_000, "{records}");
    }
}

#[test]
fn cells_answer_alike_on_edge_cases() {
    let cases = edge_cases();
    let logs = cases.iter().filter_map(|case| read_case(case));
    let short = logs.filter(|(_, log)| log.len() < 20_000);
    let records: usize = short
        .map(|(attributes, log)| assert_same_answers((attributes, log.to_vec())))
        .sum();
    assert!(records > 10_000, "{records}");
}
