//! The names in a directory.

use std::ffi::OsString;
use std::iter::FusedIterator;
use std::os::unix::ffi::OsStringExt;
use std::slice;

/// The names in a directory at one moment, in the order of their bytes, in one piece of memory, as
/// [`Pass::list`](crate::Pass::list) answers them.
///
/// ```
/// # use gigbewu::{Cache, ROOT};
/// # let mut pass = Cache::new(64, 100)?.pass()?;
/// pass.create(ROOT, "/f")?;
/// let names = pass.list(ROOT, "/")?;
/// for name in &names {
///     assert_eq!(name, b"f");
/// }
/// # Ok::<(), gigbewu::Error>(())
/// ```
#[derive(Clone, Debug, PartialEq, Eq)]
pub struct Names {
    /// Each name with a zero byte behind it.
    ended: Vec<u8>,
    at: u64,
}

impl Names {
    pub(crate) fn new(ended: Vec<u8>, at: u64) -> Names {
        Names { ended, at }
    }

    /// Each name, without taking memory.
    ///
    /// ```
    /// # use gigbewu::{Cache, ROOT};
    /// # let mut pass = Cache::new(64, 100)?.pass()?;
    /// pass.mkdir(ROOT, "/tmp")?;
    /// assert!(pass.list(ROOT, "/")?.iter().any(|name| name == b"tmp"));
    /// # Ok::<(), gigbewu::Error>(())
    /// ```
    pub fn iter(&self) -> Iter<'_> {
        Iter(self.ended.split_inclusive(is_end as fn(&u8) -> bool))
    }

    /// Whether the directory was empty.
    ///
    /// ```
    /// # use gigbewu::{Cache, ROOT};
    /// # let mut pass = Cache::new(64, 100)?.pass()?;
    /// assert!(pass.list(ROOT, "/")?.is_empty());
    /// # Ok::<(), gigbewu::Error>(())
    /// ```
    pub fn is_empty(&self) -> bool {
        self.ended.is_empty()
    }

    /// How many changes came before the moment of this answer.
    ///
    /// ```
    /// # use gigbewu::{Cache, ROOT};
    /// # let mut pass = Cache::new(64, 100)?.pass()?;
    /// pass.create(ROOT, "/f")?;
    /// assert_eq!(pass.list(ROOT, "/")?.at(), 1);
    /// # Ok::<(), gigbewu::Error>(())
    /// ```
    pub fn at(&self) -> u64 {
        self.at
    }
}

impl<'a> IntoIterator for &'a Names {
    type Item = &'a [u8];
    type IntoIter = Iter<'a>;

    fn into_iter(self) -> Iter<'a> {
        self.iter()
    }
}

fn is_end(byte: &u8) -> bool {
    *byte == 0
}

/// The names of [`Names`], as bytes.
///
/// ```
/// # use gigbewu::{Cache, ROOT};
/// # let mut pass = Cache::new(64, 100)?.pass()?;
/// pass.create(ROOT, "/f")?;
/// let names = pass.list(ROOT, "/")?;
/// let mut each: gigbewu::Iter = names.iter();
/// assert_eq!((each.next(), each.next()), (Some(&b"f"[..]), None));
/// # Ok::<(), gigbewu::Error>(())
/// ```
#[derive(Clone, Debug)]
pub struct Iter<'a>(slice::SplitInclusive<'a, u8, fn(&u8) -> bool>);

impl<'a> Iterator for Iter<'a> {
    type Item = &'a [u8];

    fn next(&mut self) -> Option<&'a [u8]> {
        let ended = self.0.next()?;
        Some(&ended[..ended.len() - 1])
    }
}

impl FusedIterator for Iter<'_> {}

/// The names in a directory at one moment, in the order of their bytes and each owned, as
/// [`Pass::read_dir`](crate::Pass::read_dir) answers them. Changes that come later don't touch it.
///
/// ```
/// # use gigbewu::{Cache, ROOT};
/// # let mut pass = Cache::new(64, 100)?.pass()?;
/// pass.create(ROOT, "/f")?;
/// for name in pass.read_dir(ROOT, "/")? {
///     pass.unlink(ROOT, &name)?; // a relative path, from the root
/// }
/// assert_eq!(pass.read_dir(ROOT, "/")?.next(), None);
/// # Ok::<(), gigbewu::Error>(())
/// ```
#[derive(Clone, Debug)]
pub struct ReadDir {
    names: Names,
    from: usize,
}

impl ReadDir {
    pub(crate) fn new(names: Names) -> ReadDir {
        ReadDir { names, from: 0 }
    }
}

impl Iterator for ReadDir {
    type Item = OsString;

    fn next(&mut self) -> Option<OsString> {
        let rest = &self.names.ended[self.from..];
        let name = &rest[..rest.iter().position(is_end)?];
        self.from += name.len() + 1;
        Some(OsString::from_vec(name.to_vec()))
    }
}

impl FusedIterator for ReadDir {}
