//! Builds a log record by record and follows it on a pool, so that requests
//! can be chosen by the state they meet.

use crate::attributes::{Attributes, BY_PRIORITY, FIFO};
use crate::codes::E_OK;
use crate::kinds::Kinds;
use crate::log::{write_record, write_start, Record, Start};
use crate::pool::{Answer, Pool, BEST_PRIORITY, FOREVER, LEAST_PRIORITY, MAX_TASK};
use crate::queue::Order;
use crate::replay::apply;
use crate::rng::Rng;
use crate::runs::HEADER;

const WRONG_TASKS: [u32; 11] = [0, 33, 34, 63, 64, 65, 256, 257, 65_537, 1 << 31, u32::MAX];

/// Some of these are allowed once high bits are cut off.
const WRONG_PRIORITIES: [u32; 12] = [
    0,
    0,
    17,
    17,
    18,
    32,
    128,
    257,
    65_537,
    1 << 31,
    u32::MAX - 15,
    u32::MAX,
];

pub struct Dealer {
    pub rng: Rng,
    pub pool: Pool,
    pub log: Vec<u8>,
    /// Priorities of the gets and polls; without any all are records 1 and 2.
    priorities: Vec<u32>,
}

impl Dealer {
    /// A log of records 1 to 5 on a FIFO pool of `len` bytes, an allowed length.
    pub fn new(rng: Rng, len: u32) -> Dealer {
        Dealer::with(rng, len, Attributes::default())
    }

    /// The same on a pool with attributes that are allowed for its length.
    pub fn with(rng: Rng, len: u32, attributes: Attributes) -> Dealer {
        let pool = Pool::create(len, attributes).expect("length and attributes are allowed");
        let mut log = Vec::new();
        let order = attributes.order;
        write_start(&mut log, Start { len, order });
        Dealer {
            rng,
            pool,
            log,
            priorities: Vec::new(),
        }
    }

    /// A log on a pool of either order, most often with records 6 and 7 too.
    pub fn any(rng: Rng, len: u32) -> Dealer {
        Dealer::any_with(rng, len, Attributes::default())
    }

    /// The same on a pool with attributes but for their order.
    pub fn any_with(mut rng: Rng, len: u32, attributes: Attributes) -> Dealer {
        let (order, prioritized) = match rng.below(16) {
            0..=3 => (FIFO, false),
            4..=7 => (FIFO, true),
            8 => (BY_PRIORITY, false),
            _ => (BY_PRIORITY, true),
        };
        let dealer = Dealer::with(rng, len, attributes.with_order(order));
        if prioritized {
            dealer.with_priorities()
        } else {
            dealer
        }
    }

    /// Adds records 6 and 7, with priorities that are often equal.
    pub fn with_priorities(mut self) -> Dealer {
        let (any, other) = (self.any_priority(), self.any_priority());
        let next = any % LEAST_PRIORITY + 1;
        self.priorities = match self.rng.below(6) {
            0 | 1 => (BEST_PRIORITY..=LEAST_PRIORITY).collect(),
            2 => vec![BEST_PRIORITY, LEAST_PRIORITY],
            3 => vec![any, next],
            4 => vec![any, any, other],
            _ => vec![BEST_PRIORITY, any, other, LEAST_PRIORITY],
        };
        self
    }

    /// Appends a record and carries it out.
    pub fn put(&mut self, record: Record) -> Answer {
        write_record(&mut self.log, record);
        apply(&mut self.pool, record)
    }

    pub fn get(&mut self, task: u32, size: u32, limit: i32) -> Answer {
        match self.priority() {
            None => self.put(Record::Get { task, size, limit }),
            Some(priority) => self.get_with_priority(task, size, limit, priority),
        }
    }

    /// A get that no later request passes.
    pub fn get_first(&mut self, task: u32, size: u32, limit: i32) -> Answer {
        match self.pool.queue().order() {
            Order::Fifo => self.get(task, size, limit),
            Order::Priority => self.get_with_priority(task, size, limit, BEST_PRIORITY),
        }
    }

    pub fn get_with_priority(&mut self, task: u32, size: u32, limit: i32, priority: u32) -> Answer {
        self.put(Record::PriorityGet {
            task,
            size,
            limit,
            priority,
        })
    }

    pub fn poll(&mut self, task: u32, size: u32) -> Answer {
        match self.priority() {
            None => self.put(Record::Poll { task, size }),
            Some(priority) => self.poll_with_priority(task, size, priority),
        }
    }

    pub fn poll_with_priority(&mut self, task: u32, size: u32, priority: u32) -> Answer {
        self.put(Record::PriorityPoll {
            task,
            size,
            priority,
        })
    }

    pub fn release(&mut self, offset: u32) -> Answer {
        self.put(Record::Release { offset })
    }

    pub fn cancel(&mut self, task: u32) -> Answer {
        self.put(Record::Cancel { task })
    }

    pub fn tick(&mut self) -> Answer {
        self.put(Record::Tick)
    }

    /// Repeats a request until it is not granted; answers the offsets.
    pub fn fill(&mut self, mut request: impl FnMut(&mut Dealer) -> Answer) -> Vec<u32> {
        let mut offsets = Vec::new();
        loop {
            let answer = request(self);
            if answer.code != E_OK {
                return offsets;
            }
            offsets.push(answer.offset);
        }
    }

    /// All tasks in random order.
    pub fn shuffled_tasks(&mut self) -> Vec<u32> {
        let mut tasks: Vec<u32> = (1..=MAX_TASK).collect();
        self.rng.shuffle(&mut tasks);
        tasks
    }

    pub fn any_task(&mut self) -> u32 {
        self.rng.between(1, MAX_TASK)
    }

    /// Any allowed priority.
    pub fn any_priority(&mut self) -> u32 {
        self.rng.between(BEST_PRIORITY, LEAST_PRIORITY)
    }

    /// The priority of a get or poll; `None` for a record that has none.
    fn priority(&mut self) -> Option<u32> {
        if self.priorities.is_empty() || self.rng.chance(20) {
            return None;
        }
        Some(self.rng.pick(&self.priorities))
    }

    pub fn waiting_task(&mut self) -> Option<u32> {
        let place = self.rng.index(self.pool.queue().len());
        self.pool
            .queue()
            .iter()
            .nth(place)
            .map(|waiter| waiter.task)
    }

    /// The priority of some waiter or one next to it; any if nobody waits.
    pub fn priority_near_waiter(&mut self) -> u32 {
        let place = self.rng.index(self.pool.queue().len());
        let waiter = self.pool.queue().iter().nth(place).copied();
        let priority = waiter.map_or_else(|| self.any_priority(), |waiter| waiter.priority);
        let near = self
            .rng
            .pick(&[priority - 1, priority, priority, priority + 1]);
        near.clamp(BEST_PRIORITY, LEAST_PRIORITY)
    }

    /// A task that does not wait, if there is one.
    pub fn idle_task(&mut self) -> Option<u32> {
        let start = self.rng.below(MAX_TASK);
        let mut tasks = (0..MAX_TASK).map(|step| (start + step) % MAX_TASK + 1);
        tasks.find(|&task| !self.pool.queue().contains(task))
    }

    pub fn live_offset(&mut self) -> Option<u32> {
        let runs = self.pool.runs().as_slice();
        let start = self.rng.index(runs.len());
        let (before, after) = runs.split_at(start);
        let mut circle = after.iter().chain(before);
        circle.find(|run| !run.is_free()).map(|run| run.offset())
    }

    fn free_offset(&mut self) -> Option<u32> {
        let count = self.pool.runs().free().count();
        let index = self.rng.index(count);
        self.pool.runs().free().nth(index).map(|run| run.offset())
    }

    pub fn wrong_task(&mut self) -> u32 {
        self.rng.pick(&WRONG_TASKS)
    }

    pub fn wrong_priority(&mut self) -> u32 {
        self.rng.pick(&WRONG_PRIORITIES)
    }

    pub fn wrong_size(&mut self) -> u32 {
        let max = self.pool.max_size();
        if let Some(kinds) = self.pool.kinds() {
            // These are allowed if the top kind or N is taken for M.
            if self.rng.chance(50) {
                let above = [max, kinds.top() - 1, kinds.top(), self.pool.len() - HEADER];
                return self.rng.pick(&above).max(max + 1);
            }
        }
        let wrong = [0, 0, max + 1, max + 4, max + HEADER, max + 65_536, 65_537];
        let huge = [1 << 31, u32::MAX - 7, u32::MAX - 3, u32::MAX];
        if self.rng.chance(60) {
            self.rng.pick(&wrong)
        } else {
            self.rng.pick(&huge)
        }
    }

    /// An offset that is most likely not that of a live block.
    pub fn wrong_offset(&mut self) -> u32 {
        let len = self.pool.len();
        let live = self.live_offset().unwrap_or(HEADER);
        match self.rng.below(8) {
            0 => self.rng.below(13),
            1 => self.rng.between(len - 4, len + 12),
            2 => self.free_offset().unwrap_or(0),
            3 => self.rng.below(len / 4) * 4,
            4 => live + self.rng.between(1, 3),
            5 => live + 65_536,
            6 => live - self.rng.pick(&[4, 8]),
            _ => self.rng.pick(&[0, 1 << 31, u32::MAX - 3, u32::MAX]),
        }
    }

    /// An offset at a limit of the pool or of one of its runs.
    pub fn edge_offset(&mut self) -> u32 {
        let len = self.pool.len();
        if self.rng.chance(40) {
            return self.rng.pick(&[4, 7, 9, len - 4, len - 1, len, len + 8]);
        }
        let runs = self.pool.runs().as_slice();
        let run = runs[self.rng.index(runs.len())];
        let (start, end) = (run.start, run.end());
        let spots = [start, start + 4, start + 7, start + 12, end - 4, end - 1];
        self.rng.pick(&spots)
    }

    /// A size from 1 to the greatest allowed, often near a limit or a kind.
    pub fn size(&mut self) -> u32 {
        match self.pool.kinds() {
            None => self.size_near_limit(),
            Some(kinds) => self.size_near_kind(kinds),
        }
    }

    fn size_near_kind(&mut self, kinds: Kinds) -> u32 {
        let (max, kind) = (self.pool.max_size(), self.rng.pick(kinds.as_slice()));
        let size = match self.rng.below(10) {
            0 => 1,
            1 => max,
            2 | 3 => self.rng.between(1, max),
            4 | 5 => kind - 1,
            6 | 7 => kind,
            _ => kind + 1,
        };
        size.min(max)
    }

    fn size_near_limit(&mut self) -> u32 {
        let max = self.pool.max_size();
        match self.rng.below(10) {
            0..=3 => self.rng.between(1, max.min(40)),
            4 | 5 => self.rng.between(1, max),
            6 => max - self.rng.below(max.min(16)),
            _ => self.size_near_free_run().clamp(1, max),
        }
    }

    /// A size that leaves about 0 to 16 bytes of some free run.
    fn size_near_free_run(&mut self) -> u32 {
        let room = self.free_offset().map_or(0, |offset| self.room_at(offset));
        let rest = self.rng.pick(&[0, 4, 8, 12, 16]);
        (room + 1).saturating_sub(rest + self.rng.below(5))
    }

    fn room_at(&self, offset: u32) -> u32 {
        let mut free = self.pool.runs().free();
        free.find(|run| run.offset() == offset)
            .map_or(0, |run| run.len - HEADER)
    }

    /// A limit that makes a get wait.
    pub fn limit(&mut self) -> i32 {
        match self.rng.below(10) {
            0..=3 => FOREVER,
            4..=7 => self.rng.between(1, 4) as i32,
            8 => self.rng.between(5, 200) as i32,
            _ => i32::MAX,
        }
    }

    /// Appends a record of any kind, chosen by the present state.
    pub fn put_any(&mut self) -> Answer {
        if self.rng.chance(14) {
            return self.put_wrong();
        }
        let task = self.idle_task().unwrap_or(1);
        match self.rng.below(100) {
            0..=41 => {
                let (size, limit) = (self.size(), self.limit());
                self.get(task, size, limit)
            }
            42..=45 => {
                let size = self.size();
                self.get(task, size, 0)
            }
            46..=57 => {
                let size = self.size();
                self.poll(task, size)
            }
            58..=81 => {
                let offset = self.live_offset().unwrap_or(0);
                self.release(offset)
            }
            82..=89 => {
                let task = self.waiting_task().unwrap_or(task);
                self.cancel(task)
            }
            _ => self.tick(),
        }
    }

    /// Appends a record that is most likely refused.
    fn put_wrong(&mut self) -> Answer {
        if !self.priorities.is_empty() && self.rng.chance(25) {
            return self.put_wrong_priority();
        }
        let (task, size, limit) = (self.any_task(), self.size(), self.limit());
        let (wrong_task, wrong_size) = (self.wrong_task(), self.wrong_size());
        let waiting = self.waiting_task().unwrap_or(task);
        let offset = self.wrong_offset();
        match self.rng.below(12) {
            0 => self.get(wrong_task, size, limit),
            1 => self.poll(wrong_task, wrong_size),
            2 => self.cancel(wrong_task),
            3 => self.get(task, wrong_size, limit),
            4 => self.poll(task, wrong_size),
            5 => self.get(waiting, size, 0),
            6 => self.get(waiting, size, limit),
            7 => self.poll(waiting, wrong_size),
            8 => self.poll(waiting, size),
            9 => self.cancel(task),
            _ => self.release(offset),
        }
    }

    /// Appends a get or poll of a wrong priority by any task, also by one that
    /// waits or is wrong.
    fn put_wrong_priority(&mut self) -> Answer {
        let (any, wrong) = (self.any_task(), self.wrong_task());
        let waiting = self.waiting_task().unwrap_or(any);
        let task = self.rng.pick(&[any, any, waiting, waiting, wrong]);
        let (size, limit) = (self.size(), self.limit());
        let priority = self.wrong_priority();
        match self.rng.below(3) {
            0 => self.poll_with_priority(task, size, priority),
            1 => self.get_with_priority(task, size, 0, priority),
            _ => self.get_with_priority(task, size, limit, priority),
        }
    }

    pub fn put_many(&mut self, count: u32) {
        for _ in 0..count {
            self.put_any();
        }
    }
}
