//! What calls answer.

use crate::raw;

/// What an inode number names.
///
/// ```
/// # use gigbewu::{Cache, Follow, Kind, ROOT};
/// # let mut pass = Cache::new(64, 100)?.pass()?;
/// assert_eq!(pass.look(ROOT, "/", Follow::Yes)?.kind, Kind::Dir);
/// # Ok::<(), gigbewu::Error>(())
/// ```
#[derive(Clone, Copy, Debug, PartialEq, Eq, Hash)]
pub enum Kind {
    /// A directory.
    Dir,
    /// A file.
    File,
    /// A symbolic link.
    Link,
}

impl Kind {
    pub(crate) fn of(code: u32) -> Kind {
        match code {
            1 => Kind::Dir,
            2 => Kind::File,
            _ => Kind::Link,
        }
    }
}

/// How the look-ups of a pass were answered ([`Pass::looks`](crate::Pass::looks)).
///
/// ```
/// # use gigbewu::{Cache, Follow, Looks, ROOT};
/// # let mut pass = Cache::new(64, 100)?.pass()?;
/// pass.mkdir(ROOT, "/a")?;
/// pass.look(ROOT, "/a", Follow::Yes)?; // fills a row
/// pass.look(ROOT, "/a", Follow::Yes)?;
/// assert_eq!(pass.looks(), Looks { by_rows: 1, under_lock: 1 });
/// # Ok::<(), gigbewu::Error>(())
/// ```
#[derive(Clone, Copy, Debug, Default, PartialEq, Eq, Hash)]
pub struct Looks {
    /// By the rows alone.
    pub by_rows: u64,
    /// Under the lock.
    pub under_lock: u64,
}

/// What a path leads to.
///
/// ```
/// # use gigbewu::{Cache, Found, Follow, Kind, ROOT};
/// # let mut pass = Cache::new(64, 100)?.pass()?;
/// pass.create(ROOT, "/f")?;
/// let found = Found { number: 2, kind: Kind::File, at: 1 };
/// assert_eq!(pass.look(ROOT, "/f", Follow::Yes), Ok(found));
/// # Ok::<(), gigbewu::Error>(())
/// ```
#[derive(Clone, Copy, Debug, PartialEq, Eq, Hash)]
pub struct Found {
    /// Its inode number. Numbers are never used again.
    pub number: u64,
    /// What that number names.
    pub kind: Kind,
    /// How many changes came before the moment of this answer.
    pub at: u64,
}

impl Found {
    pub(crate) fn of(found: raw::Found) -> Found {
        Found {
            number: found.number,
            kind: Kind::of(found.kind),
            at: found.at,
        }
    }
}

/// What a path leads to, and how many names that has.
///
/// ```
/// # use gigbewu::{Cache, Stat, Kind, ROOT};
/// # let mut pass = Cache::new(64, 100)?.pass()?;
/// pass.create(ROOT, "/f")?;
/// pass.link(ROOT, "/f", "/g")?;
/// let two_names = Stat { number: 2, kind: Kind::File, count: 2, at: 2 };
/// assert_eq!(pass.stat(ROOT, "/g"), Ok(two_names));
/// # Ok::<(), gigbewu::Error>(())
/// ```
#[derive(Clone, Copy, Debug, PartialEq, Eq, Hash)]
pub struct Stat {
    /// Its inode number.
    pub number: u64,
    /// What that number names.
    pub kind: Kind,
    /// How many names it has, or of a directory how many entries.
    pub count: u64,
    /// How many changes came before the moment of this answer.
    pub at: u64,
}

impl Stat {
    pub(crate) fn of(found: raw::Found) -> Stat {
        Stat {
            number: found.number,
            kind: Kind::of(found.kind),
            count: found.count,
            at: found.at,
        }
    }
}

/// A change that made an inode, or gave one a further name.
///
/// ```
/// # use gigbewu::{Cache, Made, ROOT};
/// # let mut pass = Cache::new(64, 100)?.pass()?;
/// assert_eq!(pass.mkdir(ROOT, "/d"), Ok(Made { number: 2, at: 0 }));
/// # Ok::<(), gigbewu::Error>(())
/// ```
#[derive(Clone, Copy, Debug, PartialEq, Eq, Hash)]
pub struct Made {
    /// The inode's number.
    pub number: u64,
    /// How many changes came before this one.
    pub at: u64,
}

impl Made {
    pub(crate) fn of(found: raw::Found) -> Made {
        Made {
            number: found.number,
            at: found.at,
        }
    }
}

/// A change that took a name away, or gave what it named another one.
///
/// ```
/// # use gigbewu::{Cache, Done, Replace, ROOT};
/// # let mut pass = Cache::new(64, 100)?.pass()?;
/// pass.mkdir(ROOT, "/d")?;
/// let moved = pass.rename(ROOT, "/d", "/e", Replace::Yes);
/// assert_eq!(moved, Ok(Done { at: 1, gone: None }));
/// # Ok::<(), gigbewu::Error>(())
/// ```
#[derive(Clone, Copy, Debug, PartialEq, Eq, Hash)]
pub struct Done {
    /// How many changes came before this one.
    pub at: u64,
    /// What went. A rename takes nothing away if nothing stood at the new name, if it exchanges two names, and if both
    /// name one inode.
    pub gone: Option<Gone>,
}

impl Done {
    pub(crate) fn of(found: raw::Found, gone: raw::Gone) -> Done {
        let told = Gone {
            number: gone.number,
            kind: Kind::of(gone.kind),
            last: gone.last != 0,
        };
        Done {
            at: found.at,
            gone: (gone.number != 0).then_some(told),
        }
    }
}

/// What a change took away, so that the caller can let go of what it keeps by inode number.
///
/// ```
/// # use gigbewu::{Cache, Gone, Kind, ROOT};
/// # let mut pass = Cache::new(64, 100)?.pass()?;
/// pass.create(ROOT, "/f")?;
/// let gone = pass.unlink(ROOT, "/f")?.gone;
/// assert_eq!(gone, Some(Gone { number: 2, kind: Kind::File, last: true }));
/// # Ok::<(), gigbewu::Error>(())
/// ```
#[derive(Clone, Copy, Debug, PartialEq, Eq, Hash)]
pub struct Gone {
    /// The number of what stood at the name.
    pub number: u64,
    /// What that number named.
    pub kind: Kind,
    /// Whether that name was its last one. Numbers are never used again.
    pub last: bool,
}
