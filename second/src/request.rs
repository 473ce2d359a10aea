//! Requests to write a log, and their replies, as programs exchange them.
//!
//! A request is made of words of 4 bytes, lowest byte first: the length of the
//! buffer, N, the order, the lengths of the columns, and the columns. A reply is
//! a line `CODE LENGTH` and the bytes of the buffer.

use crate::log::Start;
use crate::writer::{write_log, Columns, COLUMNS};

/// The greatest length of a buffer.
pub const MAX_BUFFER: usize = 86_100;
/// The greatest length of a column.
pub const MAX_COLUMN: usize = 4_100;
/// The greatest length of a request.
pub const MAX_REQUEST: usize = 4 * (3 + COLUMNS + COLUMNS * MAX_COLUMN);
/// Byte i of a buffer is i modulo this before the call.
const FILL: usize = 251;

/// A call of the writer.
#[derive(Clone, Debug, PartialEq, Eq)]
pub struct Request {
    pub buffer_len: usize,
    /// N and the order, of which any number can be given.
    pub start: Start,
    pub columns: Columns,
}

impl Request {
    /// Reads a request; `None` if the bytes do not have its form exactly.
    pub fn parse(bytes: &[u8]) -> Option<Request> {
        let mut words = Words { rest: bytes };
        let buffer_len = words.len(MAX_BUFFER)?;
        let (len, order) = (words.next()?, words.next()?);
        let mut lens = [0; COLUMNS];
        for len in &mut lens {
            *len = words.len(MAX_COLUMN)?;
        }
        let columns = words.columns(lens)?;
        words.rest.is_empty().then_some(Request {
            buffer_len,
            start: Start { len, order },
            columns,
        })
    }

    /// The bytes of the request, which has no length above its bound.
    pub fn to_bytes(&self) -> Vec<u8> {
        let columns = &self.columns;
        let mut words = vec![self.buffer_len as u32, self.start.len, self.start.order];
        words.extend(columns.lens().map(|len| len as u32));
        for column in [&columns.kinds, &columns.firsts, &columns.seconds] {
            words.extend_from_slice(column);
        }
        words.extend(columns.limits.iter().map(|&limit| limit as u32));
        words.extend_from_slice(&columns.priorities);
        words.into_iter().flat_map(u32::to_le_bytes).collect()
    }

    /// Calls the writer on a filled buffer and answers the reply.
    pub fn reply(&self) -> Vec<u8> {
        let mut buffer = filled(self.buffer_len);
        let written = write_log(self.start, &self.columns, &mut buffer);
        let mut reply = format!("{} {}\n", written.code, written.len).into_bytes();
        reply.append(&mut buffer);
        reply
    }
}

/// The reply to the bytes of a request, which is empty if they are none.
pub fn reply(bytes: &[u8]) -> Vec<u8> {
    Request::parse(bytes).map_or_else(Vec::new, |request| request.reply())
}

/// A buffer as it is before the call.
fn filled(len: usize) -> Vec<u8> {
    (0..len).map(|place| (place % FILL) as u8).collect()
}

/// Reads the words of a request.
struct Words<'a> {
    rest: &'a [u8],
}

impl Words<'_> {
    fn next(&mut self) -> Option<u32> {
        let (word, rest) = self.rest.split_first_chunk()?;
        self.rest = rest;
        Some(u32::from_le_bytes(*word))
    }

    /// A length, at most `most`.
    fn len(&mut self, most: usize) -> Option<usize> {
        let len = self.next()? as usize;
        (len <= most).then_some(len)
    }

    fn column(&mut self, len: usize) -> Option<Vec<u32>> {
        (0..len).map(|_| self.next()).collect()
    }

    fn columns(&mut self, lens: [usize; COLUMNS]) -> Option<Columns> {
        let [kinds, firsts, seconds, limits, priorities] = lens;
        Some(Columns {
            kinds: self.column(kinds)?,
            firsts: self.column(firsts)?,
            seconds: self.column(seconds)?,
            limits: self.limits(limits)?,
            priorities: self.column(priorities)?,
        })
    }

    fn limits(&mut self, len: usize) -> Option<Vec<i32>> {
        let words = self.column(len)?;
        Some(words.into_iter().map(|word| word as i32).collect())
    }
}
