//! The entries of a directory, some at a time.

use crate::answer::Kind;
use crate::error::Error;
use crate::pass::{text, Pass};
use crate::path::AsPathBytes;
use crate::raw;
use std::ffi::OsString;
use std::iter::FusedIterator;
use std::os::unix::ffi::OsStringExt;

/// How many entries are asked for at a time: 17 KB of them.
const PAGE: usize = 64;

/// An entry of a directory, as [`Pass::entries`](crate::Pass::entries) tells it.
///
/// ```
/// # use gigbewu::{Cache, Entry, Kind, ROOT};
/// # let mut pass = Cache::new(64, 100)?.pass()?;
/// pass.create(ROOT, "/f")?;
/// let entry = Entry { name: "f".into(), number: 2, kind: Kind::File };
/// assert_eq!(pass.entries(ROOT, "/")?.next(), Some(Ok(entry)));
/// # Ok::<(), gigbewu::Error>(())
/// ```
#[derive(Clone, Debug, PartialEq, Eq, Hash)]
pub struct Entry {
    /// Its name.
    pub name: OsString,
    /// The inode number that the name leads to.
    pub number: u64,
    /// What that number names.
    pub kind: Kind,
}

impl Entry {
    fn of(entry: &raw::Entry) -> Entry {
        Entry {
            name: OsString::from_vec(entry.bytes().to_vec()),
            number: entry.number,
            kind: Kind::of(entry.kind),
        }
    }
}

/// The entries of a directory, read some at a time. See [`Pass::entries`](crate::Pass::entries).
///
/// ```
/// # use gigbewu::{Cache, ROOT};
/// # let mut pass = Cache::new(64, 1_000)?.pass()?;
/// for i in 0..200 {
///     pass.mkdir(ROOT, format!("/{i}"))?;
/// }
/// let mut names = 0;
/// for entry in pass.entries(ROOT, "/")? {
///     assert!(entry?.number > ROOT);
///     names += 1;
/// }
/// assert_eq!(names, 200);
/// # Ok::<(), gigbewu::Error>(())
/// ```
#[derive(Debug)]
pub struct Entries<'a> {
    pass: &'a mut Pass,
    directory: u64,
    page: Vec<raw::Entry>,
    /// How many of the page were told.
    told: usize,
    is_last: bool,
}

/// Reads the page behind a name, and answers the number of its directory.
fn read(
    pass: &mut Pass,
    base: u64,
    path: &[u8],
    after: &[u8],
    page: &mut Vec<raw::Entry>,
) -> Result<u64, Error> {
    page.resize(PAGE, raw::Entry::EMPTY);
    let to = page.as_mut_ptr();
    let (from, from_len) = (text(after), after.len());
    let found = pass.ask(|pass, found| unsafe {
        raw::gb_try_entries(
            pass,
            base,
            text(path),
            path.len(),
            from,
            from_len,
            to,
            PAGE,
            found,
        )
    })?;
    page.truncate(found.count as usize);
    Ok(found.number)
}

impl Entries<'_> {
    /// Goes on to the next page.
    fn turn(&mut self) -> Result<(), Error> {
        let last = self.page.last().copied().unwrap_or(raw::Entry::EMPTY);
        read(
            self.pass,
            self.directory,
            b".",
            last.bytes(),
            &mut self.page,
        )?;
        self.told = 0;
        self.is_last = self.page.len() < PAGE;
        Ok(())
    }
}

impl Iterator for Entries<'_> {
    type Item = Result<Entry, Error>;

    fn next(&mut self) -> Option<Result<Entry, Error>> {
        if self.told == self.page.len() && !self.is_last {
            if let Err(error) = self.turn() {
                self.page.clear();
                self.told = 0;
                self.is_last = true;
                return Some(Err(error));
            }
        }
        let entry = self.page.get(self.told)?;
        self.told += 1;
        Some(Ok(Entry::of(entry)))
    }
}

impl FusedIterator for Entries<'_> {}

impl Pass {
    /// The entries of a directory with their numbers and kinds, in the order of the bytes of their names, without dot
    /// and dot-dot. They are read some at a time, so that nobody waits for all of a large directory: those that are
    /// read at once are of one moment, and each name that stands there throughout is listed once. Later ones are read
    /// from the same directory even if it was renamed; if it was taken away, the answer is ENOENT.
    ///
    /// ```
    /// # use gigbewu::{Cache, Kind, ROOT};
    /// # let mut pass = Cache::new(64, 100)?.pass()?;
    /// pass.mkdir(ROOT, "/a")?;
    /// pass.symlink(ROOT, "f", "/a/l")?;
    /// let entries: Result<Vec<_>, _> = pass.entries(ROOT, "/a")?.collect();
    /// assert_eq!(entries?[0].kind, Kind::Link);
    /// # Ok::<(), gigbewu::Error>(())
    /// ```
    pub fn entries<P: AsPathBytes>(&mut self, base: u64, path: P) -> Result<Entries<'_>, Error> {
        let mut page = Vec::new();
        let directory = read(self, base, path.as_path_bytes(), b"", &mut page)?;
        let is_last = page.len() < PAGE;
        Ok(Entries {
            pass: self,
            directory,
            page,
            told: 0,
            is_last,
        })
    }
}
