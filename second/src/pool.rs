//! The pool and its calls.

use crate::attributes::Attributes;
use crate::codes::{E_CTX, E_ID, E_OBJ, E_OK, E_PAR, E_RLWAI, E_TMOUT, NO_REASON, WAITING};
use crate::kinds::Kinds;
use crate::queue::{Queue, Waiter};
use crate::runs::{Refusal, Runs, HEADER, MIN_RUN};

/// Tasks are numbered from 1 to this.
pub const MAX_TASK: u32 = 32;
/// The greatest pool length.
pub const MAX_LEN: u32 = 65_536;
/// Limit of a wait without end.
pub const FOREVER: i32 = -1;
/// Limit that makes a get a poll.
pub const POLLING: i32 = 0;
/// The best and the least priority.
pub const BEST_PRIORITY: u32 = 1;
pub const LEAST_PRIORITY: u32 = 16;

/// A task whose wait ended during a call.
#[derive(Clone, Copy, Debug, PartialEq, Eq)]
pub struct Woken {
    pub task: u32,
    pub code: i32,
    pub offset: u32,
}

/// What a call answers.
#[derive(Clone, Debug, PartialEq, Eq)]
pub struct Answer {
    pub code: i32,
    pub offset: u32,
    pub woken: Vec<Woken>,
    /// Why a release was refused, or 0.
    pub reason: u32,
    /// Place of the header that the reason speaks of, or 0.
    pub place: u32,
}

impl Answer {
    /// A code alone: all other numbers are 0, and nobody is woken.
    fn code(code: i32) -> Answer {
        Answer {
            code,
            offset: 0,
            woken: Vec::new(),
            reason: NO_REASON,
            place: 0,
        }
    }

    fn granted(offset: u32) -> Answer {
        Answer {
            offset,
            ..Answer::code(E_OK)
        }
    }

    fn woke(woken: Vec<Woken>) -> Answer {
        Answer {
            woken,
            ..Answer::code(E_OK)
        }
    }

    fn refused_release(Refusal { reason, place }: Refusal) -> Answer {
        Answer {
            reason,
            place,
            ..Answer::code(E_PAR)
        }
    }
}

/// What inquire answers beside code 0.
#[derive(Clone, Copy, Debug, PartialEq, Eq)]
pub struct Inquiry {
    /// Sum of the free runs' lengths, 8 bytes taken from each.
    pub free_total: u32,
    /// The greatest of these lengths, or 0.
    pub free_max: u32,
    /// The head's task, or 0.
    pub head_task: u32,
}

/// A pool with its waiting queue.
#[derive(Clone, Debug, PartialEq, Eq)]
pub struct Pool {
    len: u32,
    attributes: Attributes,
    kinds: Option<Kinds>,
    runs: Runs,
    queue: Queue,
}

impl Pool {
    /// Creates a pool of `len` bytes, or answers the refusing code.
    pub fn create(len: u32, attributes: Attributes) -> Result<Pool, i32> {
        if !(MIN_RUN..=MAX_LEN).contains(&len) || !len.is_multiple_of(4) {
            return Err(E_PAR);
        }
        Ok(Pool {
            len,
            attributes,
            kinds: attributes.kinds_in_use(len)?,
            runs: Runs::new(len),
            queue: Queue::new(attributes.queue_order()?),
        })
    }

    pub fn len(&self) -> u32 {
        self.len
    }

    /// Never: a pool has at least 12 bytes.
    pub fn is_empty(&self) -> bool {
        false
    }

    pub fn attributes(&self) -> Attributes {
        self.attributes
    }

    /// The kinds in use, or `None` in a pool without kinds.
    pub fn kinds(&self) -> Option<Kinds> {
        self.kinds
    }

    pub fn runs(&self) -> &Runs {
        &self.runs
    }

    pub fn queue(&self) -> &Queue {
        &self.queue
    }

    /// The greatest size a task may ask.
    pub fn max_size(&self) -> u32 {
        match self.kinds {
            None => self.len - HEADER,
            Some(_) => self.attributes.greatest,
        }
    }

    /// True if some free run fits a size that a task may ask.
    pub fn fits(&self, size: u32) -> bool {
        let need = self.need(size);
        self.runs.free().any(|run| run.len >= need)
    }

    /// Asks for a block with the least priority.
    pub fn get(&mut self, task: u32, size: u32, limit: i32) -> Answer {
        self.get_with_priority(task, size, limit, LEAST_PRIORITY)
    }

    /// Asks for a block. A limit of -1 waits without end, 0 polls, and n ends
    /// the wait in tick n + 1 after the call.
    pub fn get_with_priority(&mut self, task: u32, size: u32, limit: i32, priority: u32) -> Answer {
        if let Err(code) = self.test_request(task, size, limit, priority) {
            return Answer::code(code);
        }
        if !self.queue.holds_back(priority) {
            if let Some(offset) = self.grant(task, size) {
                return Answer::granted(offset);
            }
        }
        if limit == POLLING {
            return Answer::code(E_TMOUT);
        }
        self.queue.join(Waiter {
            task,
            size,
            priority,
            left: ticks(limit),
        });
        Answer::code(WAITING)
    }

    /// Asks for a block with the least priority, without waiting.
    pub fn poll(&mut self, task: u32, size: u32) -> Answer {
        self.poll_with_priority(task, size, LEAST_PRIORITY)
    }

    /// Asks for a block without waiting.
    pub fn poll_with_priority(&mut self, task: u32, size: u32, priority: u32) -> Answer {
        self.get_with_priority(task, size, POLLING, priority)
    }

    /// Frees the block at `offset`.
    pub fn release(&mut self, offset: u32) -> Answer {
        match self.runs.release(offset) {
            Ok(()) => Answer::woke(self.serve(Vec::new())),
            Err(refusal) => Answer::refused_release(refusal),
        }
    }

    /// Ends the wait of a task.
    pub fn cancel(&mut self, task: u32) -> Answer {
        if !is_task(task) {
            return Answer::code(E_ID);
        }
        if !self.queue.remove(task) {
            return Answer::code(E_OBJ);
        }
        Answer::woke(self.serve(vec![Woken {
            task,
            code: E_RLWAI,
            offset: 0,
        }]))
    }

    /// Lets one tick pass.
    pub fn tick(&mut self) -> Answer {
        let ended = |task| Woken {
            task,
            code: E_TMOUT,
            offset: 0,
        };
        let expired = self.queue.expire().into_iter().map(ended).collect();
        Answer::woke(self.serve(expired))
    }

    /// Tells what is free and who waits first.
    pub fn inquire(&self) -> Inquiry {
        let free = || self.runs.free().map(|run| run.len - HEADER);
        Inquiry {
            free_total: free().sum(),
            free_max: free().max().unwrap_or(0),
            head_task: self.queue.head().map_or(0, |waiter| waiter.task),
        }
    }

    /// The tests of get and poll, in the order of the codes.
    fn test_request(&self, task: u32, size: u32, limit: i32, priority: u32) -> Result<(), i32> {
        if !is_task(task) {
            return Err(E_ID);
        }
        if size == 0 || size > self.max_size() || limit < FOREVER || !is_priority(priority) {
            return Err(E_PAR);
        }
        if self.queue.contains(task) {
            return Err(E_CTX);
        }
        Ok(())
    }

    /// Grants a request that has passed the tests, if a run fits, and answers
    /// the offset.
    fn grant(&mut self, task: u32, size: u32) -> Option<u32> {
        self.runs.grant(task, self.need(size))
    }

    /// Bytes a request takes: its size rounded up, plus 8. Rounding is to a
    /// multiple of 4, or to the smallest kind in use.
    fn need(&self, size: u32) -> u32 {
        let rounded = match self.kinds {
            None => size.next_multiple_of(4),
            Some(kinds) => kinds
                .round_up(size)
                .expect("the top kind holds every allowed size"),
        };
        rounded + HEADER
    }

    /// Serves the queue from its head and stops at the first request that does
    /// not fit. Appends the served tasks to `woken`.
    fn serve(&mut self, mut woken: Vec<Woken>) -> Vec<Woken> {
        while let Some(&Waiter { task, size, .. }) = self.queue.head() {
            let Some(offset) = self.grant(task, size) else {
                break;
            };
            self.queue.pop_head();
            woken.push(Woken {
                task,
                code: E_OK,
                offset,
            });
        }
        woken
    }
}

fn is_task(task: u32) -> bool {
    (1..=MAX_TASK).contains(&task)
}

fn is_priority(priority: u32) -> bool {
    (BEST_PRIORITY..=LEAST_PRIORITY).contains(&priority)
}

/// Ticks an entry starts with, one more than the limit; a negative limit has
/// none.
fn ticks(limit: i32) -> Option<u32> {
    u32::try_from(limit).ok().map(|limit| limit + 1)
}
