//! Cases of pools with kinds to compare on.

use std::io;

use crate::attributes::Attributes;
use crate::compare::{Inputs, Logs};
use crate::kinds_case::case_bytes;
use crate::kinds_deal::{attributes_for, deal_case};
use crate::kinds_edges::edge_cases;
use crate::rng::Rng;

/// The edge cases, then dealt ones, then two for each log file: without kinds
/// and with them.
pub struct KindsCases {
    edges: Vec<Vec<u8>>,
    logs: Logs,
}

impl KindsCases {
    /// As many cases are dealt as there are dealt logs, which are not used.
    pub fn new(logs: Logs) -> KindsCases {
        let edges = edge_cases();
        KindsCases { edges, logs }
    }

    /// Case number `number` of those of the files.
    fn file_case(&self, number: u64) -> io::Result<Vec<u8>> {
        let log = self.logs.input(self.logs.count + number / 2)?;
        let attributes = if number.is_multiple_of(2) {
            Attributes::default()
        } else {
            attributes_for(&mut Rng::new(self.logs.seed, number), &log)
        };
        Ok(case_bytes(attributes, &log))
    }
}

impl Inputs for KindsCases {
    const NAME: &'static str = "case";

    fn total(&self) -> u64 {
        self.edges.len() as u64 + self.logs.count + 2 * self.logs.files.len() as u64
    }

    fn input(&self, index: u64) -> io::Result<Vec<u8>> {
        if let Some(edge) = self.edges.get(index as usize) {
            return Ok(edge.clone());
        }
        let number = index - self.edges.len() as u64;
        match number.checked_sub(self.logs.count) {
            None => Ok(deal_case(self.logs.seed, number)),
            Some(number) => self.file_case(number),
        }
    }
}
