//! Size kinds: the table, the kinds in use, create, rounding and service.

mod common;

use common::{answer, blocks, create, create_with_kinds, need, times_left, waiting, woke};
use second::attributes::Attributes;
use second::kinds::{Kinds, SIZES};
use second::pool::{Inquiry, Pool, FOREVER, MAX_LEN};

/// The kinds in use for an M.
fn in_use(greatest: u32) -> Option<&'static [u32]> {
    Kinds::up_to(greatest).map(|kinds| kinds.as_slice())
}

fn create_of(len: u32, kinds: u32, greatest: u32) -> Result<Pool, i32> {
    let attributes = Attributes {
        kinds,
        greatest,
        order: 0,
    };
    Pool::create(len, attributes)
}

#[test]
fn sizes_follow_their_rule() {
    assert_eq!(SIZES.len(), 24);
    for (number, size) in (1..).zip(SIZES) {
        assert_eq!(size, 24 * 2_u32.pow(number - 1) - 12, "number {number}");
    }
    assert_eq!(&SIZES[..4], &[12, 36, 84, 180]);
    assert_eq!(SIZES[23], 201_326_580);
}

/// The examples of document 000; the first goes on to the kind that holds M.
#[test]
fn kinds_of_the_documents_examples() {
    assert_eq!(in_use(256), Some(&[12, 36, 84, 180, 372][..]));
    let twelve = [
        84, 180, 372, 756, 1_524, 3_060, 6_132, 12_276, 24_564, 49_140, 98_292, 196_596,
    ];
    assert_eq!(in_use(131_072), Some(&twelve[..]));
}

#[test]
fn the_top_kind_is_at_least_m() {
    for (greatest, top) in [
        (1, 12),
        (11, 12),
        (12, 12),
        (13, 36),
        (36, 36),
        (37, 84),
        (180, 180),
        (181, 372),
        (372, 372),
        (373, 756),
        (24_564, 24_564),
        (24_565, 49_140),
        (49_140, 49_140),
        (49_141, 98_292),
        (100_663_284, 100_663_284),
        (100_663_285, 201_326_580),
        (201_326_579, 201_326_580),
        (201_326_580, 201_326_580),
    ] {
        let kinds = in_use(greatest).expect("some kinds");
        assert_eq!(kinds.last(), Some(&top), "M {greatest}");
    }
    for greatest in [0, 201_326_581, 1 << 31, u32::MAX] {
        assert_eq!(in_use(greatest), None, "M {greatest}");
    }
}

#[test]
fn twelve_kinds_or_all_below() {
    for (greatest, least, count) in [
        (1, 12, 1),
        (13, 12, 2),
        (24_564, 12, 11),
        (24_565, 12, 12),
        (49_140, 12, 12),
        (49_141, 36, 12),
        (98_293, 84, 12),
        (201_326_580, 98_292, 12),
    ] {
        let kinds = in_use(greatest).expect("some kinds");
        assert_eq!((kinds[0], kinds.len()), (least, count), "M {greatest}");
    }
}

/// Each M with the least length that its top kind fits.
#[test]
fn create_needs_room_for_the_top_kind() {
    for (greatest, least) in [
        (1, 20),
        (12, 20),
        (13, 44),
        (36, 44),
        (37, 92),
        (84, 92),
        (256, 380),
        (372, 380),
        (373, 764),
        (24_564, 24_572),
        (24_565, 49_148),
        (49_140, 49_148),
    ] {
        for len in [least, least + 4, 65_536] {
            let pool = create_of(len, 1, greatest).expect("the top kind fits");
            assert_eq!(blocks(&pool), [(len, 0)]);
            assert_eq!(waiting(&pool), []);
            assert_eq!(pool.attributes(), Attributes::with_kinds(greatest));
        }
        for len in [12, least - 8, least - 4] {
            assert_eq!(create_of(len, 1, greatest), Err(-17), "{greatest} on {len}");
        }
    }
}

#[test]
fn create_refuses_other_m() {
    for greatest in [0, 49_141, 98_292, 201_326_580, 201_326_581, u32::MAX] {
        for len in [12, 20, 64, 49_148, 65_536] {
            assert_eq!(create_of(len, 1, greatest), Err(-17), "{greatest} on {len}");
        }
    }
    for len in [98_300, 65_540, 22, 21] {
        for greatest in [12, 49_141] {
            assert_eq!(create_of(len, 1, greatest), Err(-17), "{greatest} on {len}");
        }
    }
}

#[test]
fn other_choices() {
    for len in [12, 64, 65_536] {
        assert_eq!(create_of(len, 0, 0), Ok(create(len)));
        for greatest in [1, 4, 12, 372, 201_326_581, u32::MAX] {
            assert_eq!(create_of(len, 0, greatest), Err(-17), "M {greatest}");
        }
        for kinds in [2, 3, 128, 257, 1 << 31, u32::MAX] {
            for greatest in [0, 1, 12, 372] {
                assert_eq!(create_of(len, kinds, greatest), Err(-17), "choice {kinds}");
            }
        }
    }
}

/// Every M of a pool with twelve kinds or fewer, on the least length and on one
/// that is short by 4.
#[test]
fn every_m_has_its_least_length() {
    for greatest in 1..=49_140 {
        let least = need(Attributes::with_kinds(1), greatest);
        let pool = create_with_kinds(least, greatest);
        assert_eq!((pool.len(), pool.max_size()), (least, greatest));
        assert_eq!(create_of(least - 4, 1, greatest), Err(-17));
    }
}

/// The length of the block that a request on a fresh pool of 65,536 bytes has.
fn block_for(greatest: u32, size: u32) -> u32 {
    let mut pool = create_with_kinds(MAX_LEN, greatest);
    assert_eq!(pool.get(1, size, FOREVER), answer(0, 8), "size {size}");
    let list = blocks(&pool);
    assert_eq!(list, [(list[0].0, 1), (65_536 - list[0].0, 0)]);
    list[0].0
}

#[test]
fn requests_round_to_a_kind() {
    for (size, block) in [
        (1, 20),
        (11, 20),
        (12, 20),
        (13, 44),
        (36, 44),
        (37, 92),
        (84, 92),
        (85, 188),
        (180, 188),
        (181, 380),
        (372, 380),
        (373, 764),
        (756, 764),
        (757, 1_532),
        (1_524, 1_532),
        (1_525, 3_068),
        (3_060, 3_068),
        (3_061, 6_140),
        (6_132, 6_140),
        (6_133, 12_284),
        (12_276, 12_284),
        (12_277, 24_572),
        (24_564, 24_572),
        (24_565, 49_148),
        (49_140, 49_148),
    ] {
        assert_eq!(block_for(49_140, size), block, "size {size}");
        if size <= 256 {
            assert_eq!(block_for(256, size), block, "size {size}");
        }
    }
    assert_eq!(block_for(256, 256), 380);
}

#[test]
fn every_size_rounds_to_its_kind() {
    for size in 1..=49_140 {
        let block = need(Attributes::with_kinds(1), size);
        assert_eq!(block_for(49_140, size), block, "size {size}");
    }
}

/// A size above M is refused, also where the top kind would hold it.
#[test]
fn sizes_go_to_m() {
    for (greatest, len) in [
        (1, 20),
        (12, 20),
        (13, 44),
        (256, 380),
        (256, 65_536),
        (372, 65_536),
        (49_139, 49_148),
        (49_140, 65_536),
    ] {
        let fresh = create_with_kinds(len, greatest);
        for size in [0, greatest + 1, greatest + 4, len, 1 << 31, u32::MAX] {
            let mut pool = fresh.clone();
            assert_eq!(pool.get(1, size, FOREVER), answer(-17, 0), "size {size}");
            assert_eq!(pool.get(1, size, 0), answer(-17, 0), "size {size}");
            assert_eq!(pool.poll(1, size), answer(-17, 0), "size {size}");
            assert_eq!(pool, fresh);
        }
        for size in [1, greatest] {
            assert_eq!(fresh.clone().get(1, size, FOREVER), answer(0, 8));
            assert_eq!(fresh.clone().poll(32, size), answer(0, 8));
        }
    }
}

#[test]
fn order_of_the_tests() {
    let mut pool = create_with_kinds(20, 12);
    assert_eq!(pool.get(1, 12, FOREVER), answer(0, 8));
    assert_eq!(pool.get(2, 12, FOREVER), answer(1, 0));
    assert_eq!(pool.get(0, 13, -2), answer(-18, 0));
    assert_eq!(pool.poll(33, 13), answer(-18, 0));
    assert_eq!(pool.get(2, 13, FOREVER), answer(-17, 0));
    assert_eq!(pool.get(2, 12, -2), answer(-17, 0));
    assert_eq!(pool.poll(2, 12), answer(-25, 0));
    assert_eq!(pool.poll(3, 12), answer(-50, 0));
}

/// A rest of 4 or 8 bytes goes with the block, one of 12 is a free run that no
/// request fits.
#[test]
fn rests_behind_a_kind() {
    for (len, expected) in [
        (20, &[(20, 1)][..]),
        (24, &[(24, 1)]),
        (28, &[(28, 1)]),
        (32, &[(20, 1), (12, 0)]),
        (36, &[(20, 1), (16, 0)]),
    ] {
        let mut pool = create_with_kinds(len, 12);
        assert_eq!(pool.get(1, 1, FOREVER), answer(0, 8));
        assert_eq!(blocks(&pool), expected);
        assert_eq!(pool.poll(2, 1), answer(-50, 0));
        assert_eq!(pool.release(8), woke(&[]));
        assert_eq!(pool, create_with_kinds(len, 12));
    }
}

/// A pool of 92 bytes with kinds 12, 36 and 84: task 1 holds 20 bytes, task 2
/// waits for 37 bytes, which take 92, and task 3 for 13, which take 44.
fn with_waiters(limit: i32) -> Pool {
    let mut pool = create_with_kinds(92, 84);
    assert_eq!(pool.get(1, 1, FOREVER), answer(0, 8));
    assert_eq!(pool.poll(2, 37), answer(-50, 0));
    assert_eq!(pool.get(2, 37, limit), answer(1, 0));
    assert_eq!(pool.get(3, 13, FOREVER), answer(1, 0));
    assert_eq!(pool.poll(4, 1), answer(-50, 0));
    assert_eq!(blocks(&pool), [(20, 1), (72, 0)]);
    assert_eq!(waiting(&pool), [2, 3]);
    pool
}

/// What a waiting task asked is kept as asked.
#[test]
fn waiters_keep_their_sizes() {
    let pool = with_waiters(5);
    let sizes: Vec<u32> = pool.queue().iter().map(|waiter| waiter.size).collect();
    assert_eq!(sizes, [37, 13]);
    assert_eq!(times_left(&pool), [Some(6), None]);
    let inquiry = Inquiry {
        free_total: 64,
        free_max: 64,
        head_task: 2,
    };
    assert_eq!(pool.inquire(), inquiry);
}

#[test]
fn a_release_serves_by_kinds() {
    let mut pool = with_waiters(FOREVER);
    assert_eq!(pool.release(8), woke(&[(2, 0, 8)]));
    assert_eq!(blocks(&pool), [(92, 2)]);
    assert_eq!(waiting(&pool), [3]);
    assert_eq!(pool.get(4, 84, FOREVER), answer(1, 0));
    assert_eq!(pool.release(8), woke(&[(3, 0, 8)]));
    assert_eq!(blocks(&pool), [(44, 3), (48, 0)]);
    assert_eq!(pool.release(8), woke(&[(4, 0, 8)]));
    assert_eq!(blocks(&pool), [(92, 4)]);
}

#[test]
fn a_cancel_serves_by_kinds() {
    let mut pool = with_waiters(FOREVER);
    assert_eq!(pool.cancel(2), woke(&[(2, -49, 0), (3, 0, 28)]));
    assert_eq!(blocks(&pool), [(20, 1), (44, 3), (28, 0)]);
    assert_eq!(pool.poll(4, 13), answer(-50, 0));
    assert_eq!(pool.poll(4, 12), answer(0, 72));
    assert_eq!(blocks(&pool), [(20, 1), (44, 3), (28, 4)]);
}

#[test]
fn a_tick_serves_by_kinds() {
    let mut pool = with_waiters(1);
    assert_eq!(pool.tick(), woke(&[]));
    assert_eq!(pool.tick(), woke(&[(2, -50, 0), (3, 0, 28)]));
    assert_eq!(blocks(&pool), [(20, 1), (44, 3), (28, 0)]);
}

/// Pools that differ in M alone are not equal, though they answer alike.
#[test]
fn m_is_kept_with_the_queue() {
    assert_ne!(create_with_kinds(64, 13), create_with_kinds(64, 36));
    let mut pool = with_waiters(FOREVER);
    for record in [pool.cancel(3), pool.release(8), pool.release(8)] {
        assert_eq!(record.code, 0);
    }
    assert_eq!(pool, create_with_kinds(92, 84));
}
