//! Threads that take spares out at once: each spare is with one of them, and a stopped one holds nobody up.

use super::*;
use crate::pass::{Pass, Shared};
use std::sync::atomic::AtomicBool;
use std::sync::Arc;
use std::thread;
use std::time::Duration;

/// The first pass of a new cache.
fn first() -> raw::Pass {
    let mut first = raw::Pass::blank();
    // SAFETY: the pass is blank, and no other thread has its address.
    assert_eq!(unsafe { raw::gb_cache_new(1, 10, &mut first) }, 0);
    first
}

fn made(count: usize) -> Spares {
    let spares = Spares::of(first(), count - 1);
    assert_eq!(counts(&spares), [count; 3]);
    spares
}

fn counts(spares: &Spares) -> [usize; 3] {
    [&spares.held, &spares.free, &spares.kept].map(|count| count.load(SeqCst))
}

fn opened(spares: &Spares) -> raw::Pass {
    let mut pass = raw::Pass::blank();
    assert_eq!(spares.open(&mut pass), 0);
    pass
}

/// A call on a pass that two threads have is answered otherwise, if it isn't answered at all.
fn answers(pass: &mut raw::Pass) -> bool {
    let mut clock = 1;
    // SAFETY: the pass is open, if it is with this thread alone, and the clock is this function's.
    unsafe { raw::gb_learn(pass, 0, &mut clock) == 0 && clock == 0 }
}

#[test]
fn each_is_with_one_thread() {
    const THREADS: usize = 8;
    const TURNS: usize = 20_000;
    let spares = made(3);
    let turn = |_| match spares.take() {
        Some((mut spare, free)) => {
            assert!((1..=3).contains(&free));
            assert!(answers(&mut spare));
            spares.put(spare);
            1
        }
        None => 0,
    };
    let turns = || (0..TURNS).map(turn).sum::<usize>();
    let all: usize = thread::scope(|threads| {
        let taking: Vec<_> = (0..THREADS).map(|_| threads.spawn(turns)).collect();
        taking.into_iter().map(|it| it.join().unwrap()).sum()
    });
    assert!(all > 0);
    assert_eq!(counts(&spares), [3; 3]);
}

#[test]
fn a_stopped_thread_holds_nobody_up() {
    let spares = made(3);
    let stopped = [spares.take(), spares.take()].map(Option::unwrap);
    for _ in 0..100 {
        close(opened(&spares));
    }
    let last = spares.take().unwrap();
    assert_eq!(last.1, 1);
    let mut pass = raw::Pass::blank();
    assert_eq!(spares.open(&mut pass), raw::BUSY);
    for (spare, _) in stopped.into_iter().chain([last]) {
        spares.put(spare);
        close(opened(&spares));
    }
    assert_eq!(counts(&spares), [3; 3]);
}

/// A pass that was given is handed out again, and none beyond the most is kept.
#[test]
fn passes_are_handed_out_again() {
    let spares = made(1);
    let pass = opened(&spares);
    spares.give(pass);
    assert_eq!(counts(&spares), [2, 2, 1]);
    let passes: Vec<_> = (0..2 * MOST).map(|_| opened(&spares)).collect();
    assert_eq!(counts(&spares), [1, 1, 1]);
    for pass in passes {
        spares.give(pass);
    }
    assert_eq!(counts(&spares), [MOST, MOST, 1]);
    for left in (1..MOST).rev() {
        let mut pass = opened(&spares);
        assert!(answers(&mut pass));
        close(pass);
        assert_eq!(counts(&spares), [left, left, 1]);
    }
}

#[test]
fn no_more_than_the_most_are_kept() {
    let spares = made(MOST);
    let mut pass = opened(&spares);
    spares.keep_one_more(&mut pass);
    spares.give(pass);
    assert_eq!(counts(&spares), [MOST; 3]);
}

/// A thread that asks while none is free sleeps until another one wakes it.
fn waits<T>(shared: &Arc<Shared>, wake: impl FnOnce() -> T) -> T {
    let asked = AtomicBool::new(false);
    thread::scope(|threads| {
        threads.spawn(|| {
            let pass = Pass::spare(shared);
            asked.store(true, SeqCst);
            drop(pass);
        });
        thread::sleep(Duration::from_millis(50));
        assert!(!asked.load(SeqCst));
        wake()
    })
}

/// It is woken as a pass is dropped, and as another thread gets one; each time one more is kept.
#[test]
fn a_thread_waits_for_one() {
    let shared = Arc::new(Shared::of(first(), 0));
    let pass = Pass::spare(&shared).unwrap();
    let mut out = vec![shared.spares.take().unwrap()];
    waits(&shared, || drop(pass));
    assert_eq!(counts(&shared.spares), [4, 3, 2]);
    out.extend((0..3).map(|_| shared.spares.take().unwrap()));
    let pass = waits(&shared, || {
        shared.spares.put(out.pop().unwrap().0);
        Pass::spare(&shared)
    });
    assert_eq!(counts(&shared.spares), [6, 3, 3]);
    drop(pass);
    for (spare, _) in out {
        shared.spares.put(spare);
    }
}
