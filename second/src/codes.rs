//! Codes of the calls, named as in the µITRON 4.0 specification, and reasons of
//! a refused release.
//!
//! E_SYS (-5) is missing: the state is private to the pool and always sound.

/// Success.
pub const E_OK: i32 = 0;
/// The request joined the waiting queue.
pub const WAITING: i32 = 1;
/// Parameter error.
pub const E_PAR: i32 = -17;
/// Task number out of range.
pub const E_ID: i32 = -18;
/// The calling task waits already.
pub const E_CTX: i32 = -25;
/// No room in a lent buffer.
pub const E_NOMEM: i32 = -33;
/// The task to be cancelled does not wait.
pub const E_OBJ: i32 = -41;
/// The wait was cancelled.
pub const E_RLWAI: i32 = -49;
/// Poll failed, or the time limit ran out.
pub const E_TMOUT: i32 = -50;

/// Reason of every answer but that of a refused release.
pub const NO_REASON: u32 = 0;
/// The offset is below 8, or at or past the pool's length.
pub const OUTSIDE_POOL: u32 = 1;
/// The offset is not a multiple of 4.
pub const NOT_ALIGNED: u32 = 2;
/// The offset is that of a free block.
pub const FREE_BLOCK: u32 = 3;
/// The offset is any other spot of a block.
pub const INSIDE_BLOCK: u32 = 4;
