//! Four threads look /p/d/f up while a fifth renames. There is never a /p/d/f: the file is made and unlinked while p is
//! named q. Prints the same whatever the schedule.

use gigbewu::{Cache, Error, Follow, Pass, Replace, ROOT};
use std::sync::atomic::{AtomicUsize, Ordering::SeqCst};
use std::thread;

const LOOKERS: usize = 4;
const LOOKS: usize = 100_000;
const ENOENT: i32 = 2;

fn look(pass: &mut Pass) -> bool {
    let found = match pass.look_fast(ROOT, "/p/d/f", Follow::Yes) {
        Err(Error::Again(_)) => pass.look(ROOT, "/p/d/f", Follow::Yes),
        found => found,
    };
    found.map_err(|why| why.errno()) != Err(Some(ENOENT))
}

fn look_often(mut pass: Pass, looking: &AtomicUsize) -> usize {
    let wrong = (0..LOOKS).filter(|_| look(&mut pass)).count();
    looking.fetch_sub(1, SeqCst);
    wrong
}

fn rename_to_and_fro(pass: &mut Pass) -> Result<(), Error> {
    pass.rename(ROOT, "/p", "/q", Replace::Yes)?;
    pass.create(ROOT, "/q/d/f")?;
    pass.unlink(ROOT, "/q/d/f")?;
    pass.rename(ROOT, "/q", "/p", Replace::Yes)?;
    Ok(())
}

fn main() -> Result<(), Box<dyn std::error::Error>> {
    let cache = Cache::new(1_024, 1_000)?;
    let mut renamer = cache.pass()?;
    renamer.mkdir(ROOT, "/p")?;
    renamer.mkdir(ROOT, "/p/d")?;
    let passes = (0..LOOKERS)
        .map(|_| cache.pass())
        .collect::<Result<Vec<_>, _>>()?;
    let looking = &AtomicUsize::new(LOOKERS);
    let wrong = thread::scope(|threads| {
        let start = |pass| threads.spawn(move || look_often(pass, looking));
        let lookers: Vec<_> = passes.into_iter().map(start).collect();
        while looking.load(SeqCst) > 0 {
            rename_to_and_fro(&mut renamer)?;
        }
        Ok::<usize, Error>(
            lookers
                .into_iter()
                .map(|looker| looker.join().unwrap_or(LOOKS))
                .sum(),
        )
    })?;
    println!(
        "{} look-ups of a path that never was: {wrong} found it",
        LOOKERS * LOOKS
    );
    if wrong > 0 {
        return Err("a look-up found a path that never was".into());
    }
    Ok(())
}
