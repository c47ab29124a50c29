//! Why a call did not do what it was asked for.

use crate::raw;
use std::os::raw::c_int;
use std::{error, fmt, io};

/// Why the rows have no answer.
///
/// ```
/// # use gigbewu::{Cache, Error, Follow, Why, ROOT};
/// # let mut pass = Cache::new(64, 100)?.pass()?;
/// // Nobody has looked it up yet, so no row says that there is no such name.
/// assert_eq!(pass.look_fast(ROOT, "/a", Follow::Yes), Err(Error::Again(Why::Miss)));
/// # Ok::<(), gigbewu::Error>(())
/// ```
#[derive(Clone, Copy, Debug, PartialEq, Eq, Hash)]
pub enum Why {
    /// No row tells of a name that is asked for.
    Miss,
    /// A row was being changed.
    Busy,
    /// A row that was used has changed since.
    Changed,
    /// More rows would be used than can be noted.
    Long,
    /// No row has the text of a link.
    Link,
}

impl Why {
    fn of(code: u32) -> Why {
        match code {
            1 => Why::Miss,
            3 => Why::Changed,
            4 => Why::Long,
            5 => Why::Link,
            _ => Why::Busy,
        }
    }
}

impl fmt::Display for Why {
    fn fmt(&self, f: &mut fmt::Formatter<'_>) -> fmt::Result {
        f.write_str(match self {
            Why::Miss => "no row tells of a name",
            Why::Busy => "a row was being changed",
            Why::Changed => "a row has changed since",
            Why::Long => "more rows than can be noted",
            Why::Link => "no row has the text of a link",
        })
    }
}

/// Why a call did not do what it was asked for. The tree is then as it was.
///
/// It becomes an [`io::Error`], so `?` takes it where that is what a function answers. A refusal has the kind that the
/// operating system's error of this number has.
///
/// ```
/// use gigbewu::{Cache, ROOT};
/// use std::io;
///
/// fn make_twice() -> io::Result<()> {
///     let mut pass = Cache::new(64, 100)?.pass()?;
///     pass.mkdir(ROOT, "/a")?;
///     pass.mkdir(ROOT, "/a")?;
///     Ok(())
/// }
/// assert_eq!(make_twice().unwrap_err().kind(), io::ErrorKind::AlreadyExists);
/// ```
#[derive(Clone, Copy, Debug, PartialEq, Eq, Hash)]
pub enum Error {
    /// The tree refuses it.
    Refused {
        /// Linux's number of the error: `ENOENT` is 2.
        errno: i32,
        /// How many changes came before the moment of this answer.
        at: u64,
    },
    /// The rows don't answer; the call that may take the lock does, such as [`Pass::look`](crate::Pass::look).
    Again(Why),
    /// Out of memory.
    NoMemory,
    /// 2^62 changes were made, and no more can be. Look-ups go on.
    Spent,
    /// A cache may not have these numbers of buckets or inodes.
    BadSize,
    /// Fewer changes have been made: this many.
    NotYet(u64),
    /// An answer that this crate's types leave no way to.
    Other(i32),
}

impl Error {
    pub(crate) fn of(answer: c_int, found: &raw::Found) -> Error {
        match answer {
            1.. => Error::Refused {
                errno: answer,
                at: found.at,
            },
            raw::AGAIN => Error::Again(Why::of(found.why)),
            raw::NO_MEMORY => Error::NoMemory,
            raw::SPENT => Error::Spent,
            raw::BAD_SIZE => Error::BadSize,
            _ => Error::Other(answer),
        }
    }

    /// The number of a refusal.
    ///
    /// ```
    /// # use gigbewu::{Cache, Follow, ROOT};
    /// # let mut pass = Cache::new(64, 100)?.pass()?;
    /// const ENOENT: i32 = 2;
    /// let refused = pass.look(ROOT, "/none", Follow::Yes).unwrap_err();
    /// assert_eq!(refused.errno(), Some(ENOENT));
    /// # Ok::<(), gigbewu::Error>(())
    /// ```
    pub fn errno(&self) -> Option<i32> {
        match self {
            Error::Refused { errno, .. } => Some(*errno),
            _ => None,
        }
    }
}

impl fmt::Display for Error {
    fn fmt(&self, f: &mut fmt::Formatter<'_>) -> fmt::Result {
        match self {
            Error::Refused { errno, .. } => write!(f, "{}", io::Error::from_raw_os_error(*errno)),
            Error::Again(why) => write!(f, "the rows don't answer: {why}"),
            Error::NoMemory => write!(f, "out of memory"),
            Error::Spent => write!(f, "no more changes can be made"),
            Error::BadSize => write!(
                f,
                "buckets are a power of two up to 4,194,304, inodes 1 to 4,294,967,296"
            ),
            Error::NotYet(clock) => write!(f, "only {clock} changes were made"),
            Error::Other(answer) => write!(f, "answer {answer}"),
        }
    }
}

impl error::Error for Error {}

impl From<Error> for io::Error {
    fn from(error: Error) -> io::Error {
        let kind = match error {
            Error::Refused { errno, .. } => return io::Error::from_raw_os_error(errno),
            Error::NoMemory => return io::ErrorKind::OutOfMemory.into(),
            Error::Again(_) | Error::NotYet(_) => io::ErrorKind::WouldBlock,
            Error::BadSize => io::ErrorKind::InvalidInput,
            Error::Spent | Error::Other(_) => io::ErrorKind::Other,
        };
        io::Error::new(kind, error)
    }
}
