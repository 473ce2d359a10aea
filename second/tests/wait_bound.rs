//! How long a wait can last: with L live blocks, the task at place k of the
//! queue is served in or before the successful release L + k - 1 from then on,
//! unless its wait is cancelled or expires. In a priority pool this holds while
//! no task of better priority asks.

mod common;

use std::collections::{BTreeMap, BTreeSet};

use common::{
    after_e, answer, blocks, create, create_by_priority, create_with_kinds, dealt_case_logs,
    dealt_logs, is_by_priority, logs_with_ticks, random_fifo_state, random_kinds_state,
    random_priority_state, random_state, waiting, woke, PoolLog,
};
use second::log::Record;
use second::pool::{Answer, Pool, Woken, FOREVER, MAX_TASK};
use second::replay::{apply, Replay, Step};

/// Each waiting task, head first, and its bound L + k - 1.
fn bounds(pool: &Pool) -> Vec<(u32, usize)> {
    let live = pool.runs().live().count();
    let places = (1..).zip(waiting(pool));
    places.map(|(k, task)| (task, live + k - 1)).collect()
}

/// The last release of a run in which a wait may be served.
#[derive(Clone, Copy, Debug, PartialEq, Eq)]
struct Deadline {
    /// Number of the release, successful ones counted from 1.
    release: usize,
    /// The bound at the first point that gave this deadline.
    bound: usize,
}

/// A wait that ended with code 0.
#[derive(Clone, Copy, Debug, PartialEq, Eq)]
struct Served {
    deadline: Deadline,
    /// Successful releases of the run when the wait ended.
    releases: usize,
}

impl Served {
    fn is_at_deadline(&self) -> bool {
        self.releases == self.deadline.release
    }
}

/// Follows the waits of a run and checks them against their deadlines. The
/// deadline of a wait is the least that any point of the run so far has given,
/// in a priority pool since a task of better priority last asked.
#[derive(Default)]
struct Observer {
    /// Successful releases so far.
    releases: usize,
    /// Deadlines of the waiting tasks.
    deadlines: BTreeMap<u32, Deadline>,
    served: Vec<Served>,
}

impl Observer {
    /// Starts with a pool in any state.
    fn new(pool: &Pool) -> Observer {
        let mut observer = Observer::default();
        observer.note(pool);
        observer
    }

    /// Takes the next record and its answer, and the pool after it.
    fn follow(&mut self, record: Record, answer: &Answer, pool: &Pool) {
        if matches!(record, Record::Release { .. }) && answer.code == 0 {
            self.releases += 1;
        }
        for &woken in &answer.woken {
            self.end(woken);
        }
        self.forget(record, answer, pool);
        self.note(pool);
    }

    /// Forgets the deadlines of those that a request of better priority may
    /// delay. One that is refused delays nobody.
    fn forget(&mut self, record: Record, answer: &Answer, pool: &Pool) {
        let Some(asked) = record.asked() else {
            return;
        };
        if is_by_priority(pool) && answer.code >= 0 {
            let worse = pool.queue().iter();
            for waiter in worse.filter(|waiter| waiter.priority > asked.priority) {
                self.deadlines.remove(&waiter.task);
            }
        }
    }

    /// Ends a wait. It must not be served after its deadline; with another code
    /// it is dropped.
    fn end(&mut self, Woken { task, code, .. }: Woken) {
        let deadline = self.deadlines.remove(&task);
        let deadline = deadline.expect("a woken task has waited");
        if code == 0 {
            let releases = self.releases;
            assert!(
                releases <= deadline.release,
                "task {task} is served at {releases}, {deadline:?}"
            );
            self.served.push(Served { deadline, releases });
        }
    }

    /// Notes the bounds of all waits, none of which may have come to its
    /// deadline. A wait must not end without being woken.
    fn note(&mut self, pool: &Pool) {
        let releases = self.releases;
        for (task, bound) in bounds(pool) {
            let release = releases + bound;
            let noted = Deadline { release, bound };
            let deadline = self.deadlines.entry(task).or_insert(noted);
            if noted.release < deadline.release {
                *deadline = noted;
            }
            assert!(
                releases < deadline.release,
                "task {task} waits at {releases}, {deadline:?}"
            );
        }
        assert_eq!(self.deadlines.len(), pool.queue().len());
    }
}

/// A wait of this bound at the start of a run, served after so many releases.
fn served(bound: usize, releases: usize) -> Served {
    let deadline = Deadline {
        release: bound,
        bound,
    };
    Served { deadline, releases }
}

/// Makes the call of a record, and the observer follows it.
fn call(pool: &mut Pool, observer: &mut Observer, record: Record) -> Answer {
    let answer = apply(pool, record);
    observer.follow(record, &answer, pool);
    answer
}

/// Counts of the served waits of several runs.
#[derive(Debug, Default)]
struct Tally {
    served: usize,
    at_deadline: usize,
    /// Those at a deadline that a bound of 2 or more gave.
    after_several: usize,
    /// Lengths of the pools in which a wait was served.
    lengths: BTreeSet<u32>,
}

impl Tally {
    fn add(&mut self, served: &[Served], len: u32) {
        let at_deadline = || served.iter().filter(|served| served.is_at_deadline());
        let several = at_deadline().filter(|served| served.deadline.bound >= 2);
        self.served += served.len();
        self.at_deadline += at_deadline().count();
        self.after_several += several.count();
        if !served.is_empty() {
            self.lengths.insert(len);
        }
    }

    /// Checks every wait of a log, if it can be started.
    fn add_log(&mut self, (attributes, log): PoolLog) {
        let Ok(mut replay) = Replay::start(attributes, &log) else {
            return;
        };
        let mut observer = Observer::new(replay.pool());
        while let Step::Done(record, answer) = replay.step() {
            observer.follow(record, &answer, replay.pool());
        }
        self.add(&observer.served, replay.pool().len());
    }

    /// Checks that the counts are above these, that of the lengths last.
    fn assert_above(&self, least: [usize; 4]) {
        let counts = [
            self.served,
            self.at_deadline,
            self.after_several,
            self.lengths.len(),
        ];
        let mut pairs = counts.iter().zip(&least);
        assert!(pairs.all(|(count, least)| count > least), "{counts:?}");
    }
}

/// Checks every wait of several logs.
fn tally(logs: impl Iterator<Item = PoolLog>) -> Tally {
    let mut tally = Tally::default();
    logs.for_each(|log| tally.add_log(log));
    tally
}

#[test]
fn every_wait_is_served_within_its_bound() {
    tally(logs_with_ticks(random_state)).assert_above([17_000, 7_500, 5_000, 350]);
}

#[test]
fn every_wait_with_a_priority_is_served_within_its_bound() {
    tally(logs_with_ticks(random_fifo_state)).assert_above([15_000, 7_000, 3_500, 350]);
    tally(logs_with_ticks(random_priority_state)).assert_above([15_000, 7_000, 3_500, 350]);
}

#[test]
fn every_wait_with_kinds_is_served_within_its_bound() {
    tally(logs_with_ticks(random_kinds_state)).assert_above([11_500, 1_400, 1_000, 950]);
}

#[test]
fn every_wait_of_a_dealt_log_is_served_within_its_bound() {
    tally(dealt_logs()).assert_above([9_000, 450, 280, 130]);
}

#[test]
fn every_wait_of_a_dealt_case_is_served_within_its_bound() {
    tally(dealt_case_logs()).assert_above([10_000, 250, 180, 90]);
}

/// The task that joins at a place of the queue, the head being at 1. No task has
/// the number of its place.
fn task_at(place: u32) -> u32 {
    MAX_TASK + 1 - place
}

/// The lengths of the smallest block without kinds and with them.
const PLAIN: u32 = 12;
const FIRST_KIND: u32 = 20;

/// The offset of a block, counted from 1, if all before it have this length.
fn offset_of(block: u32, block_len: u32) -> u32 {
    block_len * (block - 1) + 8
}

/// Fills a fresh pool with `live` blocks of this length, the last one a little
/// larger where bytes are left, and lets as many tasks as `waiters` wait for the
/// greatest size, which takes the whole pool.
fn filled(mut pool: Pool, block_len: u32, live: u32, waiters: u32) -> Pool {
    for block in 1..=live {
        let offset = offset_of(block, block_len);
        assert_eq!(pool.get(1, block_len - 8, FOREVER), answer(0, offset));
    }
    let whole = pool.max_size();
    for place in 1..=waiters {
        assert_eq!(pool.get(task_at(place), whole, FOREVER), answer(1, 0));
    }
    pool
}

/// Releases the blocks from the front, then the one at 8 again and again. The
/// release `live` serves the head, each one after it the next waiter.
fn assert_bound_is_reached(fresh: &Pool, block_len: u32, live: u32, place: u32) {
    let mut pool = filled(fresh.clone(), block_len, live, place);
    assert_eq!(pool.runs().free().count(), 0);
    let mut observer = Observer::new(&pool);
    let (last, mut expected) = (live + place - 1, Vec::new());
    for release in 1..=last {
        let block = if release <= live { release } else { 1 };
        let offset = offset_of(block, block_len);
        let answer = call(&mut pool, &mut observer, Record::Release { offset });
        if release < live {
            assert_eq!(answer, woke(&[]), "release {release} of {last}");
        } else {
            let task = task_at(release - live + 1);
            assert_eq!(answer, woke(&[(task, 0, 8)]), "release {release} of {last}");
            expected.push(served(release as usize, release as usize));
        }
    }
    assert_eq!(waiting(&pool), []);
    assert_eq!(observer.served, expected);
}

#[test]
fn the_bound_is_reached_exactly() {
    for live in 1..=20 {
        for place in 1..=MAX_TASK {
            for rest in [0, 4, 8] {
                for fresh in [create, create_by_priority] {
                    assert_bound_is_reached(&fresh(12 * live + rest), PLAIN, live, place);
                }
            }
        }
    }
}

/// Lengths that blocks of the first kind fill, and that a block of the top kind
/// fills too.
#[test]
fn the_bound_is_reached_exactly_with_kinds() {
    for (live, greatest, lens) in [
        (1, 12, &[20, 24, 28][..]),
        (2, 36, &[44, 48]),
        (9, 180, &[188]),
        (19, 372, &[380, 384, 388]),
        (38, 756, &[764, 768]),
    ] {
        for &len in lens {
            let fresh = create_with_kinds(len, greatest);
            for place in 1..=MAX_TASK {
                assert_bound_is_reached(&fresh, FIRST_KIND, live, place);
            }
        }
    }
}

/// All others ask for less than the head and would fit before it.
#[test]
fn smaller_requests_do_not_delay_the_head() {
    for live in 2..=20 {
        let mut pool = filled(create(12 * live), PLAIN, live, 1);
        for place in 2..=MAX_TASK {
            assert_eq!(pool.get(task_at(place), 4, FOREVER), answer(1, 0));
        }
        let mut observer = Observer::new(&pool);
        for release in 1..=live {
            let offset = offset_of(release, PLAIN);
            call(&mut pool, &mut observer, Record::Release { offset });
            assert_eq!(waiting(&pool).contains(&task_at(1)), release < live);
        }
        let bound = live as usize;
        assert_eq!(observer.served, [served(bound, bound)]);
    }
}

/// A call after example e, whose tasks 3 and 4 have the bounds 2 and 3. Answers
/// what it answered, the blocks after it and the waits that it served.
fn call_after_e(record: Record) -> (Answer, Vec<(u32, u32)>, Vec<Served>) {
    let mut pool = after_e();
    assert_eq!(pool.runs().live().count(), 2);
    assert_eq!(bounds(&pool), [(3, 2), (4, 3)]);
    let mut observer = Observer::new(&pool);
    let answer = call(&mut pool, &mut observer, record);
    assert_eq!(waiting(&pool), []);
    (answer, blocks(&pool), observer.served)
}

/// The first is example h.
#[test]
fn a_release_after_example_e_serves_both() {
    let both = vec![served(2, 1), served(3, 1)];
    let release = |offset| call_after_e(Record::Release { offset });
    let answer = woke(&[(3, 0, 8), (4, 0, 56)]);
    let after = vec![(20, 3), (28, 2), (16, 4)];
    assert_eq!(release(8), (answer, after, both.clone()));
    let answer = woke(&[(3, 0, 28), (4, 0, 48)]);
    let after = vec![(20, 1), (20, 3), (12, 4), (12, 0)];
    assert_eq!(release(28), (answer, after, both));
}

/// Example g: task 4 is served without a release.
#[test]
fn a_cancel_after_example_e_serves_the_second() {
    let answer = woke(&[(3, -49, 0), (4, 0, 56)]);
    let after = vec![(20, 1), (28, 2), (16, 4)];
    let expected = (answer, after, vec![served(3, 0)]);
    assert_eq!(call_after_e(Record::Cancel { task: 3 }), expected);
}

/// A priority pool of 64 bytes in which task 1 holds 20 bytes, and task 2 waits
/// with priority 9 for the whole pool, so that its bound is 1.
fn with_waiter() -> Pool {
    let mut pool = create_by_priority(64);
    assert_eq!(pool.get(1, 10, FOREVER), answer(0, 8));
    assert_eq!(pool.get_with_priority(2, 56, FOREVER, 9), answer(1, 0));
    assert_eq!(bounds(&pool), [(2, 1)]);
    pool
}

/// Tasks of equal and of worse priority ask, and the bound holds.
#[test]
fn equal_and_worse_requests_do_not_break_the_bound() {
    let mut pool = with_waiter();
    for (task, priority) in [(3, 9), (4, 10), (5, 16)] {
        assert_eq!(
            pool.get_with_priority(task, 4, FOREVER, priority),
            answer(1, 0)
        );
        assert_eq!(pool.poll_with_priority(6, 4, priority), answer(-50, 0));
    }
    assert_eq!(bounds(&pool), [(2, 1), (3, 2), (4, 3), (5, 4)]);
    assert_eq!(pool.release(8), woke(&[(2, 0, 8)]));
}

/// A task of better priority waits in front and is served by the release.
#[test]
fn a_better_waiter_breaks_the_bound() {
    let mut pool = with_waiter();
    assert_eq!(pool.get_with_priority(3, 56, FOREVER, 8), answer(1, 0));
    assert_eq!(pool.release(8), woke(&[(3, 0, 8)]));
    assert_eq!(waiting(&pool), [2]);
    assert_eq!(pool.release(8), woke(&[(2, 0, 8)]));
}

/// A task of better priority has a block at once, which keeps task 2 out.
#[test]
fn a_better_block_breaks_the_bound() {
    let mut pool = with_waiter();
    assert_eq!(pool.poll_with_priority(3, 4, 8), answer(0, 28));
    assert_eq!(pool.release(8), woke(&[]));
    assert_eq!(waiting(&pool), [2]);
    assert_eq!(pool.release(28), woke(&[(2, 0, 8)]));
}

/// The better request begins a new bound for those it may delay.
#[test]
fn after_a_better_request_the_bound_holds_anew() {
    let mut pool = with_waiter();
    let mut observer = Observer::new(&pool);
    let better = Record::PriorityGet {
        task: 3,
        size: 56,
        limit: FOREVER,
        priority: 8,
    };
    assert_eq!(call(&mut pool, &mut observer, better), answer(1, 0));
    assert_eq!(bounds(&pool), [(3, 1), (2, 2)]);
    for _ in 0..2 {
        call(&mut pool, &mut observer, Record::Release { offset: 8 });
    }
    assert_eq!(observer.served, [served(1, 1), served(2, 2)]);
}
