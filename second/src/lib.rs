//! A variable-size memory pool with one waiting queue, kept as an ordered list
//! of runs without any header bytes, and tools that replay, write, deal and
//! compare logs of calls, also in a text form.

pub mod attributes;
pub mod check;
pub mod codes;
pub mod compare;
pub mod compare_kinds;
pub mod compare_text;
pub mod compare_write;
pub mod coverage;
pub mod damage;
pub mod deal;
pub mod dealer;
pub mod hex;
pub mod kinds;
pub mod kinds_case;
pub mod kinds_coverage;
pub mod kinds_deal;
pub mod kinds_edges;
pub mod large;
pub mod log;
pub mod number;
pub mod pool;
pub mod priority_coverage;
pub mod process;
pub mod queue;
pub mod replay;
pub mod report;
pub mod request;
pub mod request_deal;
pub mod request_edges;
pub mod rng;
pub mod runs;
pub mod shapes;
pub mod text_damage;
pub mod text_deal;
pub mod text_edges;
pub mod text_log_edges;
pub mod text_reader;
pub mod text_writer;
pub mod timing;
pub mod waits;
pub mod workload;
pub mod writer;
