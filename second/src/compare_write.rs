//! Requests to write a log, with the replies that a program must give.

use std::io;

use crate::compare::{Case, Cases, Difference, Inputs, Logs};
use crate::log::read_log;
use crate::report::bytes_report;
use crate::request::Request;
use crate::request_deal::{columns_of, deal_request};
use crate::request_edges::edge_requests;
use crate::rng::Rng;
use crate::writer::MAX_RECORDS;

/// The edge requests, then dealt ones, then one for each log.
pub struct Requests {
    edges: Vec<Request>,
    logs: Logs,
}

impl Requests {
    /// As many requests are dealt as logs.
    pub fn new(logs: Logs) -> Requests {
        let edges = edge_requests();
        Requests { edges, logs }
    }

    /// Request number `index` of those behind the edges.
    fn behind_edges(&self, index: u64) -> io::Result<Option<Case>> {
        let Logs { seed, count, .. } = self.logs;
        match index.checked_sub(count) {
            None => Ok(Some(request_case(&deal_request(seed, index)))),
            Some(number) => {
                let mut rng = Rng::new(seed, number);
                let log = self.logs.input(number)?;
                Ok(log_case(&mut rng, &log))
            }
        }
    }
}

impl Cases for Requests {
    fn total(&self) -> u64 {
        self.edges.len() as u64 + self.logs.count + self.logs.total()
    }

    fn case(&self, index: u64) -> io::Result<Option<Case>> {
        match self.edges.get(index as usize) {
            Some(request) => Ok(Some(request_case(request))),
            None => self.behind_edges(index - self.edges.len() as u64),
        }
    }

    fn report(&self, difference: &Difference) -> String {
        bytes_report("request", difference)
    }
}

fn request_case(request: &Request) -> Case {
    Case {
        input: request.to_bytes(),
        expected: request.reply(),
    }
}

/// The request to write a log again into a buffer of its length; `None` if the
/// log is not read whole or has too many records. The reply is made from the
/// log, not by the own writer.
pub fn log_case(rng: &mut Rng, log: &[u8]) -> Option<Case> {
    let (start, records) = read_log(log)?;
    if records.len() > MAX_RECORDS {
        return None;
    }
    let request = Request {
        buffer_len: log.len(),
        start,
        columns: columns_of(rng, &records),
    };
    let line = format!("0 {}\n", log.len());
    Some(Case {
        input: request.to_bytes(),
        expected: [line.as_bytes(), log].concat(),
    })
}
