//! The waiting queue, in one of two orders.

use std::collections::VecDeque;

/// The order in which requests wait.
#[derive(Clone, Copy, Debug, PartialEq, Eq)]
pub enum Order {
    /// First come, first served.
    Fifo,
    /// The best priority first, and first come, first served among equals.
    Priority,
}

/// A waiting request.
#[derive(Clone, Copy, Debug, PartialEq, Eq)]
pub struct Waiter {
    pub task: u32,
    /// Size as asked.
    pub size: u32,
    /// 1 to 16, 1 best; without effect in a FIFO queue.
    pub priority: u32,
    /// Ticks left, 1 to 2^31, or `None` for a wait without limit.
    pub left: Option<u32>,
}

/// Waiting requests, head first, at most one per task.
#[derive(Clone, Debug, PartialEq, Eq)]
pub struct Queue {
    order: Order,
    waiters: VecDeque<Waiter>,
}

impl Queue {
    /// An empty queue.
    pub fn new(order: Order) -> Queue {
        Queue {
            order,
            waiters: VecDeque::new(),
        }
    }

    pub fn order(&self) -> Order {
        self.order
    }

    pub fn len(&self) -> usize {
        self.waiters.len()
    }

    pub fn is_empty(&self) -> bool {
        self.waiters.is_empty()
    }

    pub fn head(&self) -> Option<&Waiter> {
        self.waiters.front()
    }

    pub fn iter(&self) -> impl Iterator<Item = &Waiter> {
        self.waiters.iter()
    }

    /// Place of a waiting task, counted from 0.
    pub fn place(&self, task: u32) -> Option<usize> {
        self.waiters.iter().position(|waiter| waiter.task == task)
    }

    pub fn contains(&self, task: u32) -> bool {
        self.place(task).is_some()
    }

    /// True if a request of this priority must wait though a run fits: some
    /// waiter comes before it.
    pub fn holds_back(&self, priority: u32) -> bool {
        self.waiters
            .iter()
            .any(|waiter| self.comes_before(waiter, priority))
    }

    /// Puts a request behind all waiters that come before it.
    pub fn join(&mut self, waiter: Waiter) {
        let last = self
            .waiters
            .iter()
            .rposition(|other| self.comes_before(other, waiter.priority));
        let place = last.map_or(0, |last| last + 1);
        self.waiters.insert(place, waiter);
    }

    /// True if a waiter comes before a newcomer of this priority: in a FIFO
    /// queue always, else if its own is better or equal.
    fn comes_before(&self, waiter: &Waiter, priority: u32) -> bool {
        match self.order {
            Order::Fifo => true,
            Order::Priority => waiter.priority <= priority,
        }
    }

    pub fn pop_head(&mut self) -> Option<Waiter> {
        self.waiters.pop_front()
    }

    /// Takes a task out; false if it does not wait.
    pub fn remove(&mut self, task: u32) -> bool {
        match self.place(task) {
            Some(place) => self.waiters.remove(place).is_some(),
            None => false,
        }
    }

    /// Takes one tick from every limited wait and removes those that have none
    /// left. Answers their tasks in queue order.
    pub fn expire(&mut self) -> Vec<u32> {
        let mut expired = Vec::new();
        self.waiters.retain_mut(|waiter| {
            let Some(left) = &mut waiter.left else {
                return true;
            };
            *left -= 1;
            if *left == 0 {
                expired.push(waiter.task);
            }
            *left > 0
        });
        expired
    }
}
