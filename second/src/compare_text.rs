//! Texts and logs on which the two programs of the text form are compared.

use std::io;

use crate::compare::{Case, Cases, Difference, Inputs, Logs};
use crate::report::bytes_report;
use crate::text_deal::deal_text;
use crate::text_edges::edge_texts;
use crate::text_log_edges::edge_logs;
use crate::text_reader::log_from_text;
use crate::text_writer::{canonical_text, read_records};

/// The edge logs, then dealt ones and files.
pub struct TextLogs {
    edges: Vec<Vec<u8>>,
    logs: Logs,
}

impl TextLogs {
    pub fn new(logs: Logs) -> TextLogs {
        let edges = edge_logs();
        TextLogs { edges, logs }
    }
}

impl Inputs for TextLogs {
    const NAME: &'static str = "log";

    fn total(&self) -> u64 {
        self.edges.len() as u64 + self.logs.total()
    }

    fn input(&self, index: u64) -> io::Result<Vec<u8>> {
        match self.edges.get(index as usize) {
            Some(edge) => Ok(edge.clone()),
            None => self.logs.input(index - self.edges.len() as u64),
        }
    }
}

/// The edge texts, then dealt ones, then the text of each log.
pub struct TextCases<'a> {
    edges: Vec<Vec<u8>>,
    logs: &'a TextLogs,
}

impl TextCases<'_> {
    /// As many texts are dealt as logs.
    pub fn new(logs: &TextLogs) -> TextCases<'_> {
        let edges = edge_texts();
        TextCases { edges, logs }
    }

    /// Text number `index` of those behind the edges.
    fn behind_edges(&self, index: u64) -> io::Result<Option<Case>> {
        let Logs { seed, count, .. } = self.logs.logs;
        match index.checked_sub(count) {
            None => Ok(Some(text_case(deal_text(seed, index)))),
            Some(number) => Ok(log_case(self.logs.input(number)?)),
        }
    }
}

impl Cases for TextCases<'_> {
    fn total(&self) -> u64 {
        self.edges.len() as u64 + self.logs.logs.count + self.logs.total()
    }

    fn case(&self, index: u64) -> io::Result<Option<Case>> {
        match self.edges.get(index as usize) {
            Some(edge) => Ok(Some(text_case(edge.clone()))),
            None => self.behind_edges(index - self.edges.len() as u64),
        }
    }

    fn report(&self, difference: &Difference) -> String {
        bytes_report("text", difference)
    }
}

fn text_case(input: Vec<u8>) -> Case {
    let expected = log_from_text(&input);
    Case { input, expected }
}

/// The text of a log, which must give the log again; `None` if it has none.
pub fn log_case(log: Vec<u8>) -> Option<Case> {
    let (start, records) = read_records(&log).ok()?;
    Some(Case {
        input: canonical_text(start, &records).into_bytes(),
        expected: log,
    })
}
