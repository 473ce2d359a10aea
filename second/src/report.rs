//! Reports of differing outputs that are bytes.

use crate::compare::Difference;
use crate::hex::to_hex;

/// Bytes of an input, and of a line of an output, that a report has at most.
const SHOWN_INPUT: usize = 1_000;
const SHOWN_LINE: usize = 60;

/// Number, place of the first differing byte, input in hex, and the first line
/// of both outputs.
pub fn bytes_report(name: &str, difference: &Difference) -> String {
    let (expected, actual) = (&difference.case.expected, &difference.outcome.output);
    let bytes = expected.iter().zip(actual);
    format!(
        "{name} {} differs at byte {} ({})\n{name} in hex:\n{}\nexpected: {}\nprogram: {}",
        difference.index,
        bytes.take_while(|(a, b)| a == b).count(),
        difference.outcome.status,
        short_hex(&difference.case.input),
        first_line(expected),
        first_line(actual)
    )
}

fn short_hex(bytes: &[u8]) -> String {
    match bytes.len().checked_sub(SHOWN_INPUT) {
        None | Some(0) => to_hex(bytes),
        Some(more) => format!("{} and {more} more bytes", to_hex(&bytes[..SHOWN_INPUT])),
    }
}

/// The start of an output up to its first newline, shortened, as ASCII.
fn first_line(output: &[u8]) -> String {
    let line = output.split(|&byte| byte == b'\n').next().unwrap_or(output);
    line[..line.len().min(SHOWN_LINE)]
        .escape_ascii()
        .to_string()
}
