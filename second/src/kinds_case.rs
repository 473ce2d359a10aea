//! Cases of pools with kinds: the choice and M as numbers, then a log, which
//! has the order.

use crate::attributes::{Attributes, FIFO};
use crate::number::{read_number, write_number};
use crate::replay::{text_on, MAX_LOG};

/// The greatest length of a case whose log is not too long.
pub const MAX_CASE: usize = 2 * 5 + MAX_LOG;

/// Reads choice and M, and answers them with the log behind them. `None` if one
/// of the numbers is refused or cut off. The order is left FIFO.
pub fn read_case(case: &[u8]) -> Option<(Attributes, &[u8])> {
    let (kinds, len) = read_number(case).ok()?;
    let rest = &case[len..];
    let (greatest, len) = read_number(rest).ok()?;
    let attributes = Attributes {
        kinds,
        greatest,
        order: FIFO,
    };
    Some((attributes, &rest[len..]))
}

/// The case of a log on a pool with these attributes.
pub fn case_bytes(attributes: Attributes, log: &[u8]) -> Vec<u8> {
    let mut case = Vec::new();
    write_number(&mut case, attributes.kinds);
    write_number(&mut case, attributes.greatest);
    case.extend_from_slice(log);
    case
}

/// The text of a case's log on its pool; empty if the case cannot be read.
pub fn kinds_text(case: &[u8]) -> String {
    read_case(case).map_or_else(String::new, |(attributes, log)| text_on(attributes, log))
}
