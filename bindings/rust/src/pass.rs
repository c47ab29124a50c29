//! A thread's way into a cache: how it begins, what it learns, and how it ends.

use crate::answer::{Done, Looks, Made};
use crate::error::Error;
use crate::gate::Gate;
use crate::raw;
use crate::spares::Spares;
use std::os::raw::{c_char, c_int};
use std::sync::Arc;
use std::{fmt, mem};

/// How many rows [`Pass::shrink`] empties under one hold of the lock, as the header's `GB_PORTION`.
const PORTION: u64 = 1024;

/// What a cache shares with its passes. Each keeps it until its last call has returned: so all calls come before its end.
pub(crate) struct Shared {
    pub(crate) gate: Gate,
    pub(crate) spares: Spares,
}

impl Shared {
    /// With the first pass of a cache, and `more`.
    pub(crate) fn of(first: raw::Pass, more: usize) -> Shared {
        Shared {
            gate: Gate::default(),
            spares: Spares::of(first, more),
        }
    }

    /// Opens a blank pass. A thread that finds no spare waits for one, and makes one more, since that many ask at once.
    fn open(&self, blank: &mut raw::Pass) -> c_int {
        let mut answer = self.spares.open(blank);
        if answer == raw::BUSY {
            answer = self.gate.answer(|| self.spares.open(blank));
            if answer == 0 {
                self.spares.keep_one_more(blank);
            }
        }
        self.gate.call();
        answer
    }

    fn end(&self, pass: raw::Pass) {
        self.spares.give(pass);
        self.gate.call();
    }
}

/// A thread's way into a cache. It may move to another thread.
///
/// A new one takes 43 KB and 20 to 70 microseconds: keep one for each thread.
///
/// # How it ends
///
/// A pass that is dropped goes back to its cache, which hands it to the next thread that [asks](crate::Cache::pass). If the
/// cache has 64 of them already, the pass is closed.
///
/// Once the [`Cache`](crate::Cache) and all passes are dropped, the cache ends: the passes that came back are closed, and
/// the tree and all memory are freed. What threads did with the cache has to come before that, also if nobody waits for
/// these threads. It does: a call borrows its pass, and a pass keeps the cache from ending until it is dropped. A pass that
/// is [joined](Pass::join) is closed before the pass that takes it in is.
///
/// ```
/// use gigbewu::{Cache, ROOT};
/// use std::thread;
///
/// let cache = Cache::new(64, 100)?;
/// for name in ["a", "b", "c"] {
///     let mut pass = cache.pass()?;
///     thread::spawn(move || pass.create(ROOT, name)); // drops its pass at any time, maybe as the last
/// }
/// drop(cache);
/// # Ok::<(), gigbewu::Error>(())
/// ```
pub struct Pass {
    raw: raw::Pass,
    pub(crate) looks: Looks,
    shared: Arc<Shared>,
}

// SAFETY: any thread may call with an open pass, one at a time, which `&mut` says, and a move hands it over by what threads
// hand values over by. The rest is `Send` by itself.
unsafe impl Send for Pass {}

pub(crate) fn text(bytes: &[u8]) -> *const c_char {
    bytes.as_ptr().cast()
}

pub(crate) fn done(answer: c_int, found: raw::Found) -> Result<raw::Found, Error> {
    if answer == 0 {
        Ok(found)
    } else {
        Err(Error::of(answer, &found))
    }
}

impl Pass {
    fn blank(shared: &Arc<Shared>) -> Pass {
        Pass {
            raw: raw::Pass::blank(),
            looks: Looks::default(),
            shared: shared.clone(),
        }
    }

    /// A pass that no other thread has.
    pub(crate) fn spare(shared: &Arc<Shared>) -> Result<Pass, Error> {
        let mut pass = Pass::blank(shared);
        let answer = shared.open(&mut pass.raw);
        done(answer, raw::Found::default()).map(|_| pass)
    }

    /// Makes a call once. `call` hands pointers on that are good for its length.
    pub(crate) fn ask_once(
        &mut self,
        call: impl FnOnce(*mut raw::Pass, *mut raw::Found) -> c_int,
    ) -> Result<raw::Found, Error> {
        let mut found = raw::Found::default();
        let answer = call(&mut self.raw, &mut found);
        done(answer, found)
    }

    /// Makes a call until the lock doesn't keep it off. `call` hands pointers on that are good for its length.
    pub(crate) fn ask(
        &mut self,
        mut call: impl FnMut(*mut raw::Pass, *mut raw::Found) -> c_int,
    ) -> Result<raw::Found, Error> {
        let mut found = raw::Found::default();
        let answer = self.shared.gate.answer(|| call(&mut self.raw, &mut found));
        done(answer, found)
    }

    /// Whether a call that takes the lock waits, since a thread was passed over.
    pub(crate) fn is_held_back(&self) -> bool {
        self.shared.gate.next().is_some()
    }

    /// A change that makes or links.
    pub(crate) fn make(
        &mut self,
        call: impl FnMut(*mut raw::Pass, *mut raw::Found) -> c_int,
    ) -> Result<Made, Error> {
        self.ask(call).map(Made::of)
    }

    /// A change that takes away.
    pub(crate) fn take(
        &mut self,
        mut call: impl FnMut(*mut raw::Pass, *mut raw::Found, *mut raw::Gone) -> c_int,
    ) -> Result<Done, Error> {
        let mut gone = raw::Gone::default();
        let found = self.ask(|pass, found| call(pass, found, &mut gone))?;
        Ok(Done::of(found, gone))
    }

    /// Another pass of this cache, for another thread. It has seen what this one has, and gets no older answer. Takes no
    /// lock.
    ///
    /// ```
    /// # use gigbewu::{Cache, Follow, ROOT};
    /// let mut pass = Cache::new(64, 100)?.pass()?;
    /// pass.mkdir(ROOT, "/a")?;
    /// let mut other = pass.split()?;
    /// let looked = std::thread::spawn(move || other.look(ROOT, "/a", Follow::Yes));
    /// assert_eq!(looked.join().unwrap()?.number, 2);
    /// # Ok::<(), gigbewu::Error>(())
    /// ```
    pub fn split(&mut self) -> Result<Pass, Error> {
        let mut other = Pass::blank(&self.shared);
        // SAFETY: this pass is open and the other one blank; both are borrowed alone.
        let answer = unsafe { raw::gb_pass_split(&mut self.raw, &mut other.raw) };
        done(answer, raw::Found::default())?;
        Ok(other)
    }

    /// Ends another pass of this cache: this one has then seen what either has seen. A pass of another cache is given back
    /// and is as it was, unless passes of that cache are being joined in another thread at that moment: then it may end all
    /// the same.
    ///
    /// ```
    /// # use gigbewu::{Cache, Follow, ROOT};
    /// let cache = Cache::new(64, 100)?;
    /// let (mut pass, mut other) = (cache.pass()?, cache.pass()?);
    /// other.mkdir(ROOT, "/a")?;
    /// assert!(pass.join(other).is_ok());
    /// assert!(pass.look(ROOT, "/a", Follow::Yes).is_ok());
    ///
    /// let foreign = Cache::new(64, 100)?.pass()?;
    /// assert!(pass.join(foreign).is_err());
    /// # Ok::<(), gigbewu::Error>(())
    /// ```
    pub fn join(&mut self, mut other: Pass) -> Result<(), Pass> {
        // SAFETY: both passes are open and borrowed alone.
        match unsafe { raw::gb_pass_join(&mut self.raw, &mut other.raw) } {
            0 => Ok(()),
            _ => Err(other),
        }
    }

    /// How many changes were made, if at least `at` were. No later answer of this pass is older. So a thread that is told
    /// of a change made at `at` learns `at + 1`, and then sees it. Takes no lock, and never waits.
    ///
    /// ```
    /// # use gigbewu::{Cache, Error, ROOT};
    /// let cache = Cache::new(64, 100)?;
    /// let made = cache.pass()?.mkdir(ROOT, "/a")?;
    /// let mut pass = cache.pass()?;
    /// assert_eq!(pass.learn(made.at + 1), Ok(1));
    /// assert_eq!(pass.learn(2), Err(Error::NotYet(1)));
    /// # Ok::<(), gigbewu::Error>(())
    /// ```
    pub fn learn(&mut self, at: u64) -> Result<u64, Error> {
        let mut clock = 0;
        // SAFETY: the pass is open and borrowed alone, and the clock is this function's.
        match unsafe { raw::gb_learn(&mut self.raw, at, &mut clock) } {
            0 => Ok(clock),
            raw::NOT_YET => Err(Error::NotYet(clock)),
            answer => Err(Error::Other(answer)),
        }
    }

    /// Empties up to `most` rows, the least recently used first, and answers how many. No later answer depends on it. It
    /// gives the lock back after each 1,024 rows, which take some 0.8 ms, so that others needn't wait for all of them.
    ///
    /// ```
    /// # use gigbewu::{Cache, Follow, ROOT};
    /// # let mut pass = Cache::new(64, 100)?.pass()?;
    /// pass.mkdir(ROOT, "/a")?;
    /// pass.look(ROOT, "/a", Follow::Yes)?;
    /// assert_eq!(pass.shrink(100)?, 1); // the row of "a" in the root
    /// # Ok::<(), gigbewu::Error>(())
    /// ```
    pub fn shrink(&mut self, most: u64) -> Result<u64, Error> {
        let mut all = 0;
        loop {
            let portion = PORTION.min(most - all);
            let mut emptied = 0;
            // SAFETY: the pass is open and borrowed alone, and the number is this function's.
            self.ask(|pass, _| unsafe { raw::gb_try_shrink(pass, portion, &mut emptied) })?;
            all += emptied;
            if emptied < portion || all >= most {
                return Ok(all);
            }
        }
    }

    /// How many rows have lost their name to another one since the cache was made, [shrinking](Pass::shrink) aside. If the
    /// number keeps growing, the cache has too few buckets.
    ///
    /// ```
    /// # use gigbewu::{Cache, Follow, ROOT};
    /// let mut pass = Cache::new(1, 100)?.pass()?; // four rows
    /// for name in ["a", "b", "c", "d", "e"] {
    ///     assert!(pass.look(ROOT, name, Follow::Yes).is_err());
    /// }
    /// assert_eq!(pass.evictions()?, 1);
    /// # Ok::<(), gigbewu::Error>(())
    /// ```
    pub fn evictions(&mut self) -> Result<u64, Error> {
        let mut evictions = 0;
        // SAFETY: the pass is open and borrowed alone, and the number is this function's.
        let answer = unsafe { raw::gb_counts(&mut self.raw, &mut evictions) };
        done(answer, raw::Found::default()).map(|_| evictions)
    }

    /// How many rows tell of a name, or of a link's text, at the moment. A cache has four rows for each of its buckets.
    /// Takes no lock, and never waits.
    ///
    /// ```
    /// # use gigbewu::{Cache, Follow, ROOT};
    /// let mut pass = Cache::new(64, 100)?.pass()?;
    /// assert!(pass.look(ROOT, "/a", Follow::Yes).is_err()); // fills a row: there is no such name
    /// assert_eq!(pass.rows_in_use()?, 1);
    /// pass.shrink(u64::MAX)?;
    /// assert_eq!(pass.rows_in_use()?, 0);
    /// # Ok::<(), gigbewu::Error>(())
    /// ```
    pub fn rows_in_use(&mut self) -> Result<u64, Error> {
        let mut rows = 0;
        // SAFETY: the pass is open and borrowed alone, and the number is this function's.
        let answer = unsafe { raw::gb_rows_in_use(&mut self.raw, &mut rows) };
        done(answer, raw::Found::default()).map(|_| rows)
    }

    /// How many calls of [`look`](Pass::look) and [`look_fast`](Pass::look_fast) of this pass the rows answered, and how
    /// many the tree, under the lock. A pass counts for itself, from 0: so threads share no number for it, and their sum is
    /// yours to make. If many are answered under the lock, look at the [evictions](Pass::evictions).
    pub fn looks(&self) -> Looks {
        self.looks
    }
}

impl fmt::Debug for Pass {
    fn fmt(&self, f: &mut fmt::Formatter<'_>) -> fmt::Result {
        f.debug_struct("Pass").finish_non_exhaustive()
    }
}

impl Drop for Pass {
    fn drop(&mut self) {
        let pass = mem::replace(&mut self.raw, raw::Pass::blank());
        // One that was joined to another is blank.
        if !pass.at.is_null() {
            self.shared.end(pass);
        }
    }
}
