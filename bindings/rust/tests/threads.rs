//! Passes of several threads: how they begin, what they do at once, and how they end.

use gigbewu::{Cache, Error, Follow, Pass, ROOT};
use std::sync::{Arc, Barrier};
use std::thread;

const THREADS: usize = 4;

#[test]
fn what_may_move_and_be_shared() {
    fn moves<T: Send>() {}
    fn is_shared<T: Send + Sync>() {}
    moves::<Pass>();
    is_shared::<Cache>();
    is_shared::<Error>();
}

/// Threads that ask one cache for passes at once all get theirs, and each is a pass of its own.
#[test]
fn threads_ask_for_passes() -> Result<(), Error> {
    const ASKING: u64 = 8;
    const PASSES: u64 = 100;
    let cache = Cache::new(1_024, 2_000)?;
    let begin = Barrier::new(ASKING as usize);
    let ask = |thread| {
        begin.wait();
        let passes = (0..PASSES).map(|_| cache.pass()).collect::<Result<_, _>>();
        let mut passes: Vec<Pass> = passes.unwrap();
        begin.wait();
        for (number, pass) in passes.iter_mut().enumerate() {
            pass.create(ROOT, format!("{thread}_{number}")).unwrap();
        }
    };
    thread::scope(|threads| {
        for thread in 0..ASKING {
            let ask = &ask;
            threads.spawn(move || ask(thread));
        }
    });
    assert_eq!(cache.pass()?.learn(0)?, ASKING * PASSES);
    assert_eq!(cache.pass()?.list(ROOT, "/")?.iter().count(), 800);
    Ok(())
}

/// Passes that are taken and dropped over and over, on caches that are new each time.
#[test]
fn threads_take_passes_and_drop_them() -> Result<(), Error> {
    const ASKING: usize = 8;
    for _ in 0..20 {
        let cache = Cache::new(64, 100)?;
        cache.pass()?.mkdir(ROOT, "/a")?;
        let begin = Barrier::new(ASKING);
        let ask = || {
            begin.wait();
            for _ in 0..500 {
                let found = cache.pass().unwrap().look(ROOT, "/a", Follow::Yes);
                assert_eq!(found.map(|it| (it.number, it.at)), Ok((2, 1)));
            }
        };
        thread::scope(|threads| (0..ASKING).for_each(|_| drop(threads.spawn(ask))));
    }
    Ok(())
}

/// Threads that take the lock at once get all their changes done.
#[test]
fn threads_change() -> Result<(), Error> {
    let cache = Cache::new(256, 100)?;
    thread::scope(|threads| {
        for name in ["a", "b", "c", "d"] {
            let mut pass = cache.pass().unwrap();
            threads.spawn(move || {
                for _ in 0..5_000 {
                    pass.create(ROOT, name).unwrap();
                    pass.unlink(ROOT, name).unwrap();
                }
            });
        }
    });
    assert_eq!(cache.pass()?.learn(0)?, 40_000);
    Ok(())
}

/// Passes end in any order, in threads that nobody waits for, and one of them takes the cache with it.
#[test]
fn passes_end_in_any_order() -> Result<(), Error> {
    for round in 0..200 {
        let cache = Arc::new(Cache::new(1, 10)?);
        let begin = Arc::new(Barrier::new(THREADS + 1));
        for thread in 0..THREADS {
            let (cache, begin) = (cache.clone(), begin.clone());
            thread::spawn(move || {
                let mut pass = cache.pass().unwrap();
                begin.wait();
                drop(cache);
                pass.create(ROOT, [b'a' + thread as u8]).unwrap();
            });
        }
        let mut last = cache.pass()?;
        begin.wait();
        drop(cache);
        assert!(last.learn(0)? <= THREADS as u64, "round {round}");
    }
    Ok(())
}

/// A joined pass ends; one of another cache is given back, and is as it was.
#[test]
fn passes_are_joined() -> Result<(), Error> {
    let cache = Cache::new(1, 2)?;
    let mut pass = cache.pass()?;
    let foreign = Cache::new(1, 1)?.pass()?;
    assert!(pass.join(cache.pass()?).is_ok());
    let mut foreign = pass.join(foreign).expect_err("a pass of another cache");
    assert_eq!(foreign.look(ROOT, "/", Follow::Yes)?.number, ROOT);
    Ok(())
}
