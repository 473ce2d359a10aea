//! The bench examples of the specification.

mod common;

use common::{
    after_b, after_c, after_e, answer, blocks, create, refused, times_left, waiting, woke,
};
use second::attributes::Attributes;
use second::pool::{Inquiry, Pool, FOREVER};

#[test]
fn example_a() {
    let pool = create(64);
    assert_eq!(blocks(&pool), [(64, 0)]);
    assert_eq!(waiting(&pool), []);
}

#[test]
fn example_b() {
    let mut pool = create(64);
    assert_eq!(pool.get(1, 10, FOREVER), answer(0, 8));
    assert_eq!(blocks(&pool), [(20, 1), (44, 0)]);
}

#[test]
fn example_c() {
    let mut pool = after_b();
    assert_eq!(pool.get(2, 20, FOREVER), answer(0, 28));
    assert_eq!(blocks(&pool), [(20, 1), (28, 2), (16, 0)]);
    assert_eq!(pool.runs().as_slice()[2].start, 48);
}

#[test]
fn example_d() {
    let mut pool = after_c();
    assert_eq!(pool.get(3, 12, FOREVER), answer(1, 0));
    assert_eq!(waiting(&pool), [3]);
    assert_eq!(blocks(&pool), blocks(&after_c()));
}

#[test]
fn example_e() {
    let mut pool = after_c();
    pool.get(3, 12, FOREVER);
    assert_eq!(pool.get(4, 4, FOREVER), answer(1, 0));
    assert_eq!(waiting(&pool), [3, 4]);
    assert_eq!(blocks(&pool), blocks(&after_c()));
}

#[test]
fn example_f() {
    let mut pool = after_e();
    assert_eq!(pool.poll(5, 4), answer(-50, 0));
    assert_eq!(pool, after_e());
}

#[test]
fn example_g() {
    let mut pool = after_e();
    assert_eq!(pool.cancel(3), woke(&[(3, -49, 0), (4, 0, 56)]));
    assert_eq!(blocks(&pool), [(20, 1), (28, 2), (16, 4)]);
    assert_eq!(waiting(&pool), []);
}

#[test]
fn example_h() {
    let mut pool = after_e();
    assert_eq!(pool.release(8), woke(&[(3, 0, 8), (4, 0, 56)]));
    assert_eq!(blocks(&pool), [(20, 3), (28, 2), (16, 4)]);
}

#[test]
fn example_i() {
    let mut pool = after_c();
    assert_eq!(pool.release(28), woke(&[]));
    assert_eq!(blocks(&pool), [(20, 1), (44, 0)]);
    assert_eq!(pool.runs().as_slice()[1].start, 20);
}

#[test]
fn example_j() {
    let mut pool = after_c();
    assert_eq!(pool.release(12), refused(4, 0));
    assert_eq!(pool, after_c());
    assert_eq!(pool.release(8), woke(&[]));
    let before = pool.clone();
    assert_eq!(pool.release(8), refused(3, 0));
    assert_eq!(pool, before);
}

#[test]
fn example_k() {
    assert_eq!(create(64).get(1, 56, FOREVER), answer(0, 8));
    assert_eq!(create(64).get(1, 57, FOREVER), answer(-17, 0));
    assert_eq!(create(12).get(1, 4, FOREVER), answer(0, 8));
    assert_eq!(create(12).get(1, 5, FOREVER), answer(-17, 0));
}

#[test]
fn example_l() {
    let mut pool = after_c();
    assert_eq!(pool.get(3, 12, 1), answer(1, 0));
    assert_eq!(pool.get(4, 4, FOREVER), answer(1, 0));
    assert_eq!(pool.tick(), woke(&[]));
    assert_eq!(waiting(&pool), [3, 4]);
    assert_eq!(pool.tick(), woke(&[(3, -50, 0), (4, 0, 56)]));
    assert_eq!(waiting(&pool), []);
}

#[test]
fn lengths() {
    let create_plain = |len| Pool::create(len, Attributes::default());
    for len in [0, 8, 14, 65_540] {
        assert_eq!(create_plain(len), Err(-17), "length {len}");
    }
    for len in [12, 16, 65_532, 65_536] {
        assert_eq!(blocks(&create(len)), [(len, 0)]);
    }
    for len in [1, 4, 11, 13, 65_534, 65_535, 65_537, u32::MAX] {
        assert_eq!(create_plain(len), Err(-17), "length {len}");
    }
}

#[test]
fn limits() {
    let mut pool = after_c();
    assert_eq!(pool.get(3, 12, i32::MIN), answer(-17, 0));
    assert_eq!(pool.get(3, 12, -2), answer(-17, 0));
    assert_eq!(pool.get(3, 12, 0), answer(-50, 0));
    assert_eq!(pool, after_c());
    assert_eq!(pool.get(3, 12, -1), answer(1, 0));
    assert_eq!(pool.get(4, 12, 1), answer(1, 0));
    assert_eq!(pool.get(5, 12, i32::MAX), answer(1, 0));
    assert_eq!(times_left(&pool), [None, Some(2), Some(2_147_483_648)]);
    assert_eq!(pool.tick(), woke(&[]));
    assert_eq!(times_left(&pool), [None, Some(1), Some(2_147_483_647)]);
    assert_eq!(pool.tick(), woke(&[(4, -50, 0)]));
    assert_eq!(times_left(&pool), [None, Some(2_147_483_646)]);
}

#[test]
fn expiries_come_before_service() {
    let mut pool = after_c();
    pool.get(3, 12, 2);
    pool.get(4, 4, FOREVER);
    pool.get(5, 50, 2);
    pool.get(6, 4, 3);
    assert_eq!(pool.tick(), woke(&[]));
    assert_eq!(pool.tick(), woke(&[]));
    assert_eq!(pool.tick(), woke(&[(3, -50, 0), (5, -50, 0), (4, 0, 56)]));
    assert_eq!(pool.tick(), woke(&[(6, -50, 0)]));
}

#[test]
fn order_of_tests() {
    let mut pool = after_e();
    assert_eq!(pool.get(0, 0, -2), answer(-18, 0));
    assert_eq!(pool.get(33, 0, -2), answer(-18, 0));
    assert_eq!(pool.poll(33, 4), answer(-18, 0));
    assert_eq!(pool.get(3, 0, -1), answer(-17, 0));
    assert_eq!(pool.get(3, 4, -2), answer(-17, 0));
    assert_eq!(pool.poll(3, 57), answer(-17, 0));
    assert_eq!(pool.get(3, 4, 0), answer(-25, 0));
    assert_eq!(pool.poll(3, 4), answer(-25, 0));
    assert_eq!(pool.get(32, 4, 0), answer(-50, 0));
    assert_eq!(pool.cancel(0), answer(-18, 0));
    assert_eq!(pool.cancel(33), answer(-18, 0));
    assert_eq!(pool.cancel(1), answer(-41, 0));
    assert_eq!(pool, after_e());
}

#[test]
fn rests_below_12_bytes_stay_with_the_block() {
    for (size, expected) in [
        (56, vec![(64, 1)]),
        (52, vec![(64, 1)]),
        (48, vec![(64, 1)]),
        (45, vec![(64, 1)]),
        (44, vec![(52, 1), (12, 0)]),
        (41, vec![(52, 1), (12, 0)]),
        (40, vec![(48, 1), (16, 0)]),
    ] {
        let mut pool = create(64);
        assert_eq!(pool.get(1, size, FOREVER), answer(0, 8));
        assert_eq!(blocks(&pool), expected, "size {size}");
    }
}

#[test]
fn release_joins_behind_and_before() {
    let mut pool = create(64);
    for task in 1..=4 {
        pool.get(task, 8, FOREVER);
    }
    assert_eq!(blocks(&pool), [(16, 1), (16, 2), (16, 3), (16, 4)]);
    pool.release(8);
    pool.release(40);
    assert_eq!(blocks(&pool), [(16, 0), (16, 2), (16, 0), (16, 4)]);
    pool.release(24);
    assert_eq!(blocks(&pool), [(48, 0), (16, 4)]);
    pool.release(56);
    assert_eq!(blocks(&pool), [(64, 0)]);
}

#[test]
fn inquire_sums_free_runs() {
    let pool = create(64);
    let fresh = Inquiry {
        free_total: 56,
        free_max: 56,
        head_task: 0,
    };
    assert_eq!(pool.inquire(), fresh);
    let mut pool = after_e();
    let waiting = Inquiry {
        free_total: 8,
        free_max: 8,
        head_task: 3,
    };
    assert_eq!(pool.inquire(), waiting);
    pool.cancel(3);
    let full = Inquiry {
        free_total: 0,
        free_max: 0,
        head_task: 0,
    };
    assert_eq!(pool.inquire(), full);
    pool.release(8);
    pool.release(56);
    let two = Inquiry {
        free_total: 20,
        free_max: 12,
        head_task: 0,
    };
    assert_eq!(pool.inquire(), two);
}
