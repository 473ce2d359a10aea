//! The buffer as an ordered list of runs.

use crate::codes::{FREE_BLOCK, INSIDE_BLOCK, NOT_ALIGNED, OUTSIDE_POOL};

/// Bytes in front of every block.
pub const HEADER: u32 = 8;
/// The smallest run.
pub const MIN_RUN: u32 = 12;

/// A stretch of the buffer: a live block, or a free run.
#[derive(Clone, Copy, Debug, PartialEq, Eq)]
pub struct Run {
    /// Place of the run's first byte.
    pub start: u32,
    /// Length in bytes, the 8 header bytes included.
    pub len: u32,
    /// Owning task, or `None` for a free run.
    pub owner: Option<u32>,
}

impl Run {
    /// The offset handed to tasks.
    pub fn offset(&self) -> u32 {
        self.start + HEADER
    }

    pub fn is_free(&self) -> bool {
        self.owner.is_none()
    }

    /// Place of the first byte behind the run.
    pub fn end(&self) -> u32 {
        self.start + self.len
    }
}

/// Why an offset is not that of a live block.
#[derive(Clone, Copy, Debug, PartialEq, Eq)]
pub struct Refusal {
    pub reason: u32,
    /// Place of the header of the block that holds the offset, or 0.
    pub place: u32,
}

impl Refusal {
    fn new(reason: u32, place: u32) -> Refusal {
        Refusal { reason, place }
    }
}

/// Runs in order of place. They cover the buffer without gaps, and no two
/// neighbours are free.
#[derive(Clone, Debug, PartialEq, Eq)]
pub struct Runs {
    list: Vec<Run>,
}

impl Runs {
    /// One free run of `len` bytes.
    pub fn new(len: u32) -> Runs {
        let run = Run {
            start: 0,
            len,
            owner: None,
        };
        Runs { list: vec![run] }
    }

    pub fn as_slice(&self) -> &[Run] {
        &self.list
    }

    pub fn free(&self) -> impl Iterator<Item = &Run> {
        self.list.iter().filter(|run| run.is_free())
    }

    pub fn live(&self) -> impl Iterator<Item = &Run> {
        self.list.iter().filter(|run| !run.is_free())
    }

    /// Gives `task` the lowest free run of at least `need` bytes and answers
    /// its offset. A rest of `MIN_RUN` bytes or more stays free.
    pub fn grant(&mut self, task: u32, need: u32) -> Option<u32> {
        let index = self
            .list
            .iter()
            .position(|run| run.is_free() && run.len >= need)?;
        let run = &mut self.list[index];
        let rest = run.len - need;
        run.owner = Some(task);
        let offset = run.offset();
        if rest >= MIN_RUN {
            run.len = need;
            let behind = Run {
                start: run.end(),
                len: rest,
                owner: None,
            };
            self.list.insert(index + 1, behind);
        }
        Some(offset)
    }

    /// Frees the live block at `offset`.
    pub fn release(&mut self, offset: u32) -> Result<(), Refusal> {
        let index = self.live_index(offset)?;
        self.list[index].owner = None;
        self.join_next(index);
        if index > 0 {
            self.join_next(index - 1);
        }
        Ok(())
    }

    /// Index of the live block at `offset`.
    fn live_index(&self, offset: u32) -> Result<usize, Refusal> {
        if offset < HEADER || offset >= self.len() {
            return Err(Refusal::new(OUTSIDE_POOL, 0));
        }
        if !offset.is_multiple_of(4) {
            return Err(Refusal::new(NOT_ALIGNED, 0));
        }
        let index = self.holder_index(offset);
        let run = self.list[index];
        match (offset == run.offset(), run.is_free()) {
            (true, false) => Ok(index),
            (true, true) => Err(Refusal::new(FREE_BLOCK, run.start)),
            (false, _) => Err(Refusal::new(INSIDE_BLOCK, run.start)),
        }
    }

    /// Length of the buffer.
    fn len(&self) -> u32 {
        self.list.last().map_or(0, Run::end)
    }

    /// Index of the run that holds the byte at `place`, below the length.
    fn holder_index(&self, place: u32) -> usize {
        self.list.partition_point(|run| run.end() <= place)
    }

    /// Joins the run at `index` and the next one if both are free.
    fn join_next(&mut self, index: usize) {
        let Some(next) = self.list.get(index + 1).copied() else {
            return;
        };
        if self.list[index].is_free() && next.is_free() {
            self.list[index].len += next.len;
            self.list.remove(index + 1);
        }
    }
}
