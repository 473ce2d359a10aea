//! Fixed cases at the limits of pools with kinds.

use crate::attributes::{Attributes, BY_PRIORITY, FIFO, WITHOUT_KINDS};
use crate::damage::BAD_NUMBERS;
use crate::dealer::Dealer;
use crate::kinds::{Kinds, SIZES};
use crate::kinds_case::case_bytes;
use crate::log::{log_bytes, Record, Start};
use crate::pool::{Pool, FOREVER, MAX_LEN, MAX_TASK};
use crate::replay::MAX_LOG;
use crate::rng::Rng;
use crate::runs::HEADER;

/// Count of the kinds that a pool can have room for.
const USABLE: usize = 12;

/// All of them, always in the same order.
pub fn edge_cases() -> Vec<Vec<u8>> {
    [
        greatest_requests(),
        other_choices(),
        by_priority(),
        bad_prefixes(),
        short_cases(),
        long_logs(),
    ]
    .concat()
}

/// Each M at a kind or next above it, the kinds that are too large for every
/// pool left out but for the last; the ends, and document 000's first example.
fn edge_greatest() -> Vec<u32> {
    let kinds = SIZES[..USABLE].iter().chain(SIZES.last());
    let around = kinds.flat_map(|&kind| [kind, kind + 1]);
    around.chain([0, 1, 256, u32::MAX]).collect()
}

/// Each M on pools that its top kind just fits, that it misses, and that have
/// more room.
fn greatest_requests() -> Vec<Vec<u8>> {
    let mut cases = Vec::new();
    for greatest in edge_greatest() {
        let top = Kinds::up_to(greatest).map_or(12, |kinds| kinds.top());
        let fit = top + HEADER;
        let lens = [fit - 8, fit - 4, fit - 1, fit, fit + 1, fit + 4, fit + 8];
        let larger = [fit + 12, fit + 20, 2 * fit, MAX_LEN - 4, MAX_LEN];
        for len in lens.into_iter().chain(larger) {
            cases.push(case(Attributes::with_kinds(greatest), len));
        }
    }
    cases
}

/// Pools without kinds, and choices that are unknown.
fn other_choices() -> Vec<Vec<u8>> {
    let mut cases = Vec::new();
    for kinds in [WITHOUT_KINDS, 2, 3, 128, 257, u32::MAX] {
        for greatest in [0, 1, 12, 256, 49_140, u32::MAX] {
            for len in [20, 64, 380, MAX_LEN] {
                let attributes = Attributes {
                    kinds,
                    greatest,
                    order: FIFO,
                };
                cases.push(case(attributes, len));
            }
        }
    }
    cases
}

/// Priority pools with several M and without kinds, created and refused.
fn by_priority() -> Vec<Vec<u8>> {
    let with_kinds = [0, 12, 36, 256, 756, 49_140].map(Attributes::with_kinds);
    let mut cases = Vec::new();
    for attributes in with_kinds.into_iter().chain([Attributes::default()]) {
        for len in [8, 20, 44, 92, 380, 764, MAX_LEN] {
            cases.push(case(attributes.with_order(BY_PRIORITY), len));
        }
    }
    cases
}

/// A number that is refused or cut off as the choice and as M, with and without
/// bytes behind it.
fn bad_prefixes() -> Vec<Vec<u8>> {
    let (good, log) = (&[0x0C][..], edge_log(64, Attributes::with_kinds(12)));
    let mut cases = Vec::new();
    for bad in BAD_NUMBERS {
        cases.push(bad.to_vec());
        cases.push([bad, good, &log].concat());
        cases.push([&[0x01], bad].concat());
        cases.push([&[0x01], bad, &log].concat());
        cases.push([&[0x00], bad, &log].concat());
    }
    cases
}

/// Cases that end in front of M or of N, directly behind N, or soon after it.
fn short_cases() -> Vec<Vec<u8>> {
    let cases: [&[u8]; 12] = [
        &[],
        &[0x00],
        &[0x01],
        &[0x02],
        &[0x00, 0x00],
        &[0x01, 0x0C],
        &[0x01, 0x0C, 0x40],
        &[0x01, 0x00, 0x80],
        &[0x01, 0x0C, 0x40, 0x08],
        &[0x01, 0x0C, 0x40, 0x08, 0x08],
        &[0x01, 0x0C, 0x40, 0x05, 0x08],
        &[0x01, 0x00, 0x40, 0x08],
    ];
    cases.map(<[u8]>::to_vec).to_vec()
}

/// Logs of the greatest length and of one byte more, behind numbers of every
/// length that create takes or refuses, and behind one that is refused.
fn long_logs() -> Vec<Vec<u8>> {
    let mut cases = Vec::new();
    for len in [MAX_LOG, MAX_LOG + 1] {
        for greatest in [12, 372, 49_140, 201_326_580, u32::MAX] {
            let log = long_log(len, Attributes::with_kinds(greatest));
            cases.push(case_bytes(Attributes::with_kinds(greatest), &log));
        }
        let log = long_log(len, Attributes::default());
        let largest = Attributes {
            kinds: u32::MAX,
            greatest: u32::MAX,
            order: FIFO,
        };
        cases.push(case_bytes(largest, &log));
        cases.push([&[0x80, 0x00], &log[..]].concat());
    }
    cases
}

/// The log of a pool of 65,536 bytes, with ticks up to `len` bytes.
fn long_log(len: usize, attributes: Attributes) -> Vec<u8> {
    let mut log = edge_log(MAX_LEN, attributes);
    log.resize(len, 0x05);
    log
}

fn case(attributes: Attributes, len: u32) -> Vec<u8> {
    case_bytes(attributes, &edge_log(len, attributes))
}

/// Requests of every size next to a limit, if the pool is created.
fn edge_log(len: u32, attributes: Attributes) -> Vec<u8> {
    let Ok(pool) = Pool::create(len, attributes) else {
        let order = attributes.order;
        let records = [Record::Poll { task: 1, size: 1 }, Record::Tick];
        return log_bytes(Start { len, order }, &records);
    };
    let sizes = edge_sizes(&pool);
    let mut dealer = Dealer::with(Rng::new(0, 0), len, attributes);
    if attributes.order == BY_PRIORITY {
        dealer = dealer.with_priorities();
    }
    for &size in &sizes {
        try_size(&mut dealer, size);
    }
    for sizes in sizes.chunks(MAX_TASK as usize) {
        fill(&mut dealer);
        wait_for(&mut dealer, sizes);
        serve(&mut dealer);
    }
    dealer.log
}

/// Sizes next to 0, to each kind and to the greatest allowed.
fn edge_sizes(pool: &Pool) -> Vec<u32> {
    let max = pool.max_size();
    let mut sizes = vec![0, 1, max - 1, max, max + 1, pool.len() - HEADER, u32::MAX];
    if let Some(kinds) = pool.kinds() {
        let around = |&kind| [kind - 1, kind, kind + 1];
        sizes.extend(kinds.as_slice().iter().flat_map(around));
    }
    sizes
}

/// Asks for a size by get and by poll. A small block behind shows where the one
/// granted ends. Starts and ends with an empty pool.
fn try_size(dealer: &mut Dealer, size: u32) {
    let offset = dealer.get(1, size, FOREVER).offset;
    let behind = dealer.poll(2, 1).offset;
    dealer.release(behind);
    dealer.release(offset);
    let offset = dealer.poll(3, size).offset;
    let behind = dealer.get(4, 1, FOREVER).offset;
    dealer.release(offset);
    dealer.release(behind);
    dealer.cancel(4);
}

/// Fills the pool with blocks of the greatest size and then of the least.
fn fill(dealer: &mut Dealer) {
    let max = dealer.pool.max_size();
    dealer.fill(|dealer| dealer.poll(1, max));
    dealer.fill(|dealer| dealer.poll(2, 1));
}

/// Lets all tasks wait for the sizes in turn, some with a limit.
fn wait_for(dealer: &mut Dealer, sizes: &[u32]) {
    let limits = [FOREVER, 1, FOREVER, 3];
    for task in 1..=MAX_TASK {
        let place = task as usize;
        dealer.get(task, sizes[place % sizes.len()], limits[place % 4]);
        dealer.poll(task, sizes[(place + 1) % sizes.len()]);
    }
}

/// Releases blocks from the front, with ticks and cancels of the head between,
/// until nobody waits.
fn serve(dealer: &mut Dealer) {
    let mut round = 0;
    while let Some(&head) = dealer.pool.queue().head() {
        match round % 4 {
            1 => dealer.tick(),
            3 => dealer.cancel(head.task),
            _ => {
                let first = dealer.pool.runs().live().next();
                let offset = first.map_or(0, |run| run.offset());
                dealer.release(offset)
            }
        };
        round += 1;
    }
}
