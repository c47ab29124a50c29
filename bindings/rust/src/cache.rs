//! A cache, of which threads get their passes.

use crate::error::Error;
use crate::pass::{done, Pass, Shared};
use crate::raw;
use std::num::NonZeroUsize;
use std::os::raw::c_int;
use std::sync::Arc;
use std::{fmt, thread};

/// A cache begins with no more spare passes than this.
const FIRST_SPARES: usize = 16;

/// A cache, which threads share. It ends with its last pass, or with itself if that comes later.
///
/// ```
/// use gigbewu::{Cache, ROOT};
/// use std::thread;
///
/// let cache = Cache::new(256, 65_536)?;
/// thread::scope(|threads| {
///     for name in ["a", "b"] {
///         let cache = &cache;
///         threads.spawn(move || cache.pass()?.mkdir(ROOT, name));
///     }
/// });
/// assert_eq!(cache.pass()?.read_dir(ROOT, "/")?.count(), 2);
/// # Ok::<(), gigbewu::Error>(())
/// ```
pub struct Cache {
    shared: Arc<Shared>,
}

impl Cache {
    /// `buckets`, of four rows each, is a power of two from 1 to 4,194,304; a row takes 387 bytes at once. `inodes` is how
    /// many may live at once, the root among them, from 1 to 4,294,967,296; each takes memory when it is made. A name that
    /// is looked up takes a row: have two to four times as many rows as names. There may be twice as many names as inodes,
    /// in all directories together.
    ///
    /// ```
    /// use gigbewu::{Cache, Error};
    ///
    /// assert!(Cache::new(1_024, 1_000).is_ok());
    /// assert_eq!(Cache::new(1_000, 1_000).unwrap_err(), Error::BadSize);
    /// ```
    pub fn new(buckets: u64, inodes: u64) -> Result<Cache, Error> {
        // SAFETY: the pass is blank, and no other thread has its address.
        Cache::made(|first| unsafe { raw::gb_cache_new(buckets, inodes, first) })
    }

    /// A cache as [`Cache::new`] makes it, with at most `names` names: a make or a [link](Pass::link) past that is
    /// [`Error::NoMemory`] and changes nothing. A file may have 65,000 names, so a limit of inodes alone bounds no memory.
    ///
    /// ```
    /// use gigbewu::{Cache, Error, ROOT};
    ///
    /// let mut pass = Cache::with_names(64, 100, 1)?.pass()?;
    /// pass.create(ROOT, "/a")?;
    /// assert_eq!(pass.link(ROOT, "/a", "/b").unwrap_err(), Error::NoMemory);
    /// # Ok::<(), Error>(())
    /// ```
    pub fn with_names(buckets: u64, inodes: u64, names: u64) -> Result<Cache, Error> {
        // SAFETY: as in `new`.
        Cache::made(|first| unsafe { raw::gb_cache_with_names(buckets, inodes, names, first) })
    }

    /// The cache whose first pass a call opens.
    fn made(open: impl FnOnce(*mut raw::Pass) -> c_int) -> Result<Cache, Error> {
        let mut first = raw::Pass::blank();
        done(open(&mut first), raw::Found::default())?;
        let threads = thread::available_parallelism().map_or(1, NonZeroUsize::get);
        let more = threads.min(FIRST_SPARES) - 1;
        Ok(Cache {
            shared: Arc::new(Shared::of(first, more)),
        })
    }

    /// A pass for one thread. Any number of threads may ask at once, and there is no lock among them: a cache has several
    /// spare passes, and each thread takes one of them out by an atomic exchange. If there are more than the cache keeps,
    /// as passes were dropped, the thread has this one. Else it splits it and puts it back, which takes 20 to 70
    /// microseconds.
    ///
    /// No thread waits for another while fewer ask at the same moment than the cache keeps spares. At first it keeps as
    /// many as the machine runs threads at once, up to 16. A thread that finds none waits for one, and then the cache keeps
    /// one more, up to 64.
    ///
    /// ```
    /// use gigbewu::Cache;
    ///
    /// fn share<T: Send + Sync>(_: &T) {}
    ///
    /// let cache = Cache::new(64, 100)?;
    /// share(&cache);
    /// let pass = cache.pass()?;
    /// std::thread::spawn(move || drop(pass));
    /// # Ok::<(), gigbewu::Error>(())
    /// ```
    pub fn pass(&self) -> Result<Pass, Error> {
        Pass::spare(&self.shared)
    }
}

impl fmt::Debug for Cache {
    fn fmt(&self, f: &mut fmt::Formatter<'_>) -> fmt::Result {
        f.debug_struct("Cache").finish_non_exhaustive()
    }
}
