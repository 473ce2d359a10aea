//! Properties of random runs, on pools of both orders, without kinds and with
//! them.

mod common;

use common::{is_by_priority, need, woke, State, STATES};
use second::dealer::Dealer;
use second::pool::{Answer, Pool, Woken, MAX_TASK};

/// A get as (task, size, limit, priority).
type Get = (u32, u32, i32, u32);

fn assert_runs_sound(pool: &Pool) {
    let runs = pool.runs().as_slice();
    let mut place = 0;
    for run in runs {
        assert_eq!(run.start, place);
        assert!(run.len >= 12 && run.len.is_multiple_of(4));
        assert!(run
            .owner
            .is_none_or(|owner| (1..=MAX_TASK).contains(&owner)));
        place += run.len;
    }
    assert_eq!(place, pool.len());
    assert!(runs
        .windows(2)
        .all(|pair| !(pair[0].is_free() && pair[1].is_free())));
    if let Some(kinds) = pool.kinds() {
        for run in pool.runs().live() {
            let holds = |&kind: &u32| (kind + 8..=kind + 16).contains(&run.len);
            assert!(kinds.as_slice().iter().any(holds), "{run:?}");
        }
    }
}

fn assert_queue_sound(pool: &Pool) {
    let mut tasks: Vec<u32> = pool.queue().iter().map(|waiter| waiter.task).collect();
    tasks.sort_unstable();
    assert!(tasks.windows(2).all(|pair| pair[0] < pair[1]));
    assert!(tasks.iter().all(|task| (1..=MAX_TASK).contains(task)));
    for waiter in pool.queue().iter() {
        assert!((1..=pool.max_size()).contains(&waiter.size));
        assert!(waiter
            .left
            .is_none_or(|left| (1..=2_147_483_648).contains(&left)));
        assert!((1..=16).contains(&waiter.priority));
    }
    if is_by_priority(pool) {
        let priorities = pool.queue().iter().map(|waiter| waiter.priority);
        assert!(priorities.is_sorted());
    }
    if let Some(head) = pool.queue().head() {
        let need = need(pool.attributes(), head.size);
        assert!(pool.runs().free().all(|run| run.len < need));
    }
}

#[test]
fn every_state_is_sound() {
    STATES.into_iter().for_each(assert_states_sound);
}

fn assert_states_sound(state: State) {
    for index in 0..300 {
        let mut dealer = state(11, index);
        for _ in 0..60 {
            dealer.put_any();
            assert_runs_sound(&dealer.pool);
            assert_queue_sound(&dealer.pool);
        }
    }
}

#[test]
fn refusals_change_nothing() {
    STATES.into_iter().for_each(assert_refusals_change_nothing);
}

fn assert_refusals_change_nothing(state: State) {
    let mut refused = 0;
    for index in 0..300 {
        let mut dealer = state(12, index);
        for _ in 0..40 {
            let before = dealer.pool.clone();
            let answer = dealer.put_any();
            if answer.code < 0 {
                refused += 1;
                assert_eq!((answer.offset, answer.woken), (0, Vec::new()));
                assert_eq!(dealer.pool, before);
            }
        }
    }
    assert!(refused > 1_000);
}

#[test]
fn a_get_that_waits_changes_the_queue_only() {
    STATES.into_iter().for_each(assert_waits_change_the_queue);
}

fn assert_waits_change_the_queue(state: State) {
    for index in 0..300 {
        let mut dealer = state(13, index);
        for _ in 0..40 {
            let before = dealer.pool.clone();
            let answer = dealer.put_any();
            if answer.code == 1 {
                assert_eq!(answer, common::answer(1, 0));
                assert_eq!(dealer.pool.runs(), before.runs());
                assert_eq!(dealer.pool.queue().len(), before.queue().len() + 1);
            }
        }
    }
}

/// A request of any sort, refused ones included, with any limit but 0. Its
/// priority is the given one, or any.
fn any_get(dealer: &mut Dealer, task: u32, priority: Option<u32>) -> Get {
    let most_small = dealer.pool.max_size().min(12);
    let size = match dealer.rng.below(10) {
        0 => dealer.wrong_size(),
        1..=4 => dealer.size(),
        _ => dealer.rng.between(1, most_small),
    };
    let limit = if dealer.rng.chance(10) {
        -2
    } else {
        dealer.limit()
    };
    let any = match dealer.rng.below(10) {
        0 => dealer.wrong_priority(),
        _ => dealer.any_priority(),
    };
    (task, size, limit, priority.unwrap_or(any))
}

/// Gets of other tasks than `first`, no task twice, also of wrong tasks.
fn any_list(dealer: &mut Dealer, first: u32, priority: Option<u32>) -> Vec<Get> {
    let mut tasks = dealer.shuffled_tasks();
    tasks.extend([0, 33, 64, u32::MAX]);
    tasks.retain(|&task| task != first);
    dealer.rng.shuffle(&mut tasks);
    let count = dealer.rng.below(20) as usize;
    tasks.truncate(count);
    tasks
        .into_iter()
        .map(|task| any_get(dealer, task, priority))
        .collect()
}

fn run_list(pool: &mut Pool, list: &[Get]) -> Vec<Answer> {
    list.iter()
        .map(|&(task, size, limit, priority)| pool.get_with_priority(task, size, limit, priority))
        .collect()
}

/// Tasks whose gets answered 0, as a cancel wakes them.
fn granted(list: &[Get], answers: &[Answer]) -> Vec<Woken> {
    let pairs = list
        .iter()
        .zip(answers)
        .filter(|(_, answer)| answer.code == 0);
    pairs
        .map(|(get, answer)| Woken {
            task: get.0,
            code: 0,
            offset: answer.offset,
        })
        .collect()
}

/// The refused gets with their codes.
fn refused(list: &[Get], answers: &[Answer]) -> Vec<(u32, i32)> {
    let pairs = list
        .iter()
        .zip(answers)
        .filter(|(_, answer)| answer.code < 0);
    pairs.map(|(get, answer)| (get.0, answer.code)).collect()
}

fn empty_queue(dealer: &mut Dealer) {
    while let Some(&head) = dealer.pool.queue().head() {
        dealer.cancel(head.task);
    }
}

/// In a priority pool all gets of the list have the first one's priority.
#[test]
fn a_cancelled_wait_leaves_no_mark() {
    STATES.into_iter().for_each(assert_cancels_leave_no_mark);
}

fn assert_cancels_leave_no_mark(state: State) {
    let (mut cases, mut served, mut refusals) = (0, 0, 0);
    for index in 0..6_000 {
        let mut dealer = state(14, index);
        if index % 2 == 0 {
            empty_queue(&mut dealer);
        }
        let first = dealer.any_task();
        let (size, limit) = (dealer.size(), dealer.limit());
        let priority = dealer.any_priority();
        let mut without = dealer.pool.clone();
        let mut with = dealer.pool.clone();
        if with.get_with_priority(first, size, limit, priority).code != 1 {
            continue;
        }
        let same = is_by_priority(&with).then_some(priority);
        let list = any_list(&mut dealer, first, same);
        let answers_with = run_list(&mut with, &list);
        let answers = run_list(&mut without, &list);
        let cancelled = with.cancel(first);
        let mut expected = woke(&[(first, -49, 0)]);
        expected.woken.extend(granted(&list, &answers));
        assert_eq!(cancelled, expected);
        assert_eq!(with, without);
        assert_eq!(refused(&list, &answers_with), refused(&list, &answers));
        cases += 1;
        served += cancelled.woken.len() - 1;
        refusals += refused(&list, &answers).len();
    }
    assert!(
        cases > 2_000 && served > 500 && refusals > 1_000,
        "{cases} {served} {refusals}"
    );
}

#[test]
fn a_release_at_once_restores_the_state() {
    let past = STATES.map(assert_releases_restore);
    assert_eq!(past[..2], [0, 0]);
    assert!(past[2] > 150 && past[3] > 50, "{past:?}");
}

/// Answers how many of the blocks were granted though somebody waits.
fn assert_releases_restore(state: State) -> usize {
    let (mut cases, mut past) = (0, 0);
    for index in 0..4_000 {
        let mut dealer = state(15, index);
        let before = dealer.pool.clone();
        let (task, size) = (dealer.any_task(), dealer.size());
        let limit = dealer.limit();
        let answer = if index % 2 == 0 {
            dealer.get(task, size, limit)
        } else {
            dealer.poll(task, size)
        };
        if answer.code != 0 {
            continue;
        }
        assert_eq!(dealer.release(answer.offset), woke(&[]));
        assert_eq!(dealer.pool, before);
        cases += 1;
        past += usize::from(!before.queue().is_empty());
    }
    assert!(cases > 500, "{cases}");
    past
}

/// The greatest size that a run with this room holds, or 0.
fn greatest_held(pool: &Pool, room: u32) -> u32 {
    let Some(kinds) = pool.kinds() else {
        return room;
    };
    let held = kinds.as_slice().iter().rev().find(|&&kind| kind <= room);
    held.map_or(0, |&kind| kind.min(pool.max_size()))
}

#[test]
fn inquire_changes_nothing_and_matches_poll() {
    STATES.into_iter().for_each(assert_inquire_matches_poll);
}

fn assert_inquire_matches_poll(state: State) {
    for index in 0..1_000 {
        let mut dealer = state(16, index);
        let before = dealer.pool.clone();
        let inquiry = dealer.pool.inquire();
        assert_eq!(dealer.pool, before);
        let Some(task) = dealer.idle_task() else {
            continue;
        };
        let held = greatest_held(&before, inquiry.free_max);
        if inquiry.head_task == 0 && held > 0 {
            assert_eq!(dealer.pool.poll(task, held).code, 0);
        }
        let mut again = before;
        if inquiry.head_task != 0 || held < again.max_size() {
            let size = (held + 1).min(again.max_size());
            assert_eq!(again.poll(task, size).code, -50);
        }
    }
}
