//! The calls that change the tree.

use crate::answer::{Done, Made};
use crate::error::Error;
use crate::pass::{text, Pass};
use crate::path::AsPathBytes;
use crate::raw;

/// What a rename does if something stands at the new name.
///
/// ```
/// # use gigbewu::{Cache, Replace, ROOT};
/// # let mut pass = Cache::new(64, 100)?.pass()?;
/// pass.create(ROOT, "/f")?;
/// pass.create(ROOT, "/g")?;
/// const EEXIST: i32 = 17;
/// let refused = pass.rename(ROOT, "/f", "/g", Replace::No).unwrap_err();
/// assert_eq!(refused.errno(), Some(EEXIST));
/// assert_eq!(pass.rename(ROOT, "/f", "/g", Replace::Exchange)?.gone, None);
/// assert_eq!(pass.rename(ROOT, "/f", "/g", Replace::Yes)?.gone.unwrap().number, 2);
/// # Ok::<(), gigbewu::Error>(())
/// ```
#[derive(Clone, Copy, Debug, PartialEq, Eq, Hash)]
pub enum Replace {
    /// It replaces it.
    Yes = 0,
    /// It is refused.
    No = 1,
    /// The two names swap what they name. Both have to be there.
    Exchange = 2,
}

// SAFETY of each call below: the pass is open and borrowed alone, as `ask` says, and each path leads to as many bytes as is
// said, which are borrowed.
/// The seven changes. Each takes effect at one moment, whole or not at all, and waits for the lock. A last link is never
/// followed.
impl Pass {
    /// Makes an empty directory.
    ///
    /// ```
    /// # use gigbewu::{Cache, Kind, ROOT};
    /// # let mut pass = Cache::new(64, 100)?.pass()?;
    /// pass.mkdir(ROOT, "/a")?;
    /// assert_eq!(pass.stat(ROOT, "/a")?.kind, Kind::Dir);
    /// # Ok::<(), gigbewu::Error>(())
    /// ```
    pub fn mkdir<P: AsPathBytes>(&mut self, base: u64, path: P) -> Result<Made, Error> {
        let path = path.as_path_bytes();
        self.make(|pass, found| unsafe {
            raw::gb_try_mkdir(pass, base, text(path), path.len(), found)
        })
    }

    /// Makes a file.
    ///
    /// ```
    /// # use gigbewu::{Cache, Kind, ROOT};
    /// # let mut pass = Cache::new(64, 100)?.pass()?;
    /// pass.create(ROOT, "/f")?;
    /// assert_eq!(pass.stat(ROOT, "/f")?.kind, Kind::File);
    /// # Ok::<(), gigbewu::Error>(())
    /// ```
    pub fn create<P: AsPathBytes>(&mut self, base: u64, path: P) -> Result<Made, Error> {
        let path = path.as_path_bytes();
        self.make(|pass, found| unsafe {
            raw::gb_try_create(pass, base, text(path), path.len(), found)
        })
    }

    /// Makes a symbolic link at `path` with the text `to`, which is tested as a path is.
    ///
    /// ```
    /// # use gigbewu::{Cache, Follow, ROOT};
    /// # let mut pass = Cache::new(64, 100)?.pass()?;
    /// pass.symlink(ROOT, "/", "/l")?;
    /// assert_eq!(pass.look(ROOT, "/l", Follow::Yes)?.number, ROOT);
    /// # Ok::<(), gigbewu::Error>(())
    /// ```
    pub fn symlink<T: AsPathBytes, P: AsPathBytes>(
        &mut self,
        base: u64,
        to: T,
        path: P,
    ) -> Result<Made, Error> {
        let (to, path) = (to.as_path_bytes(), path.as_path_bytes());
        self.make(|pass, found| unsafe {
            raw::gb_try_symlink(
                pass,
                base,
                text(to),
                to.len(),
                text(path),
                path.len(),
                found,
            )
        })
    }

    /// Gives the file or symbolic link that `old` names one more name, of up to 65,000.
    ///
    /// ```
    /// # use gigbewu::{Cache, ROOT};
    /// # let mut pass = Cache::new(64, 100)?.pass()?;
    /// let file = pass.create(ROOT, "/f")?.number;
    /// assert_eq!(pass.link(ROOT, "/f", "/g")?.number, file);
    /// # Ok::<(), gigbewu::Error>(())
    /// ```
    pub fn link<O: AsPathBytes, P: AsPathBytes>(
        &mut self,
        base: u64,
        old: O,
        path: P,
    ) -> Result<Made, Error> {
        let (old, path) = (old.as_path_bytes(), path.as_path_bytes());
        self.make(|pass, found| unsafe {
            raw::gb_try_link(
                pass,
                base,
                text(old),
                old.len(),
                text(path),
                path.len(),
                found,
            )
        })
    }

    /// Takes a name of a file or symbolic link away, and answers what it named.
    ///
    /// ```
    /// # use gigbewu::{Cache, ROOT};
    /// # let mut pass = Cache::new(64, 100)?.pass()?;
    /// pass.create(ROOT, "/f")?;
    /// assert!(pass.unlink(ROOT, "/f")?.gone.unwrap().last);
    /// # Ok::<(), gigbewu::Error>(())
    /// ```
    pub fn unlink<P: AsPathBytes>(&mut self, base: u64, path: P) -> Result<Done, Error> {
        let path = path.as_path_bytes();
        self.take(|pass, found, gone| unsafe {
            raw::gb_try_unlink(pass, base, text(path), path.len(), found, gone)
        })
    }

    /// Takes an empty directory away, and answers which.
    ///
    /// ```
    /// # use gigbewu::{Cache, ROOT};
    /// # let mut pass = Cache::new(64, 100)?.pass()?;
    /// let directory = pass.mkdir(ROOT, "/a")?.number;
    /// assert_eq!(pass.rmdir(ROOT, "/a")?.gone.unwrap().number, directory);
    /// # Ok::<(), gigbewu::Error>(())
    /// ```
    pub fn rmdir<P: AsPathBytes>(&mut self, base: u64, path: P) -> Result<Done, Error> {
        let path = path.as_path_bytes();
        self.take(|pass, found, gone| unsafe {
            raw::gb_try_rmdir(pass, base, text(path), path.len(), found, gone)
        })
    }

    /// Gives what `old` names the new path for its name, and answers what stood there and was replaced.
    ///
    /// ```
    /// # use gigbewu::{Cache, Follow, Replace, ROOT};
    /// # let mut pass = Cache::new(64, 100)?.pass()?;
    /// let directory = pass.mkdir(ROOT, "/a")?.number;
    /// pass.rename(ROOT, "/a", "/b", Replace::Yes)?;
    /// assert_eq!(pass.look(ROOT, "/b", Follow::Yes)?.number, directory);
    /// # Ok::<(), gigbewu::Error>(())
    /// ```
    pub fn rename<O: AsPathBytes, P: AsPathBytes>(
        &mut self,
        base: u64,
        old: O,
        path: P,
        replace: Replace,
    ) -> Result<Done, Error> {
        let (old, path) = (old.as_path_bytes(), path.as_path_bytes());
        self.take(|pass, found, gone| unsafe {
            raw::gb_try_rename(
                pass,
                base,
                text(old),
                old.len(),
                text(path),
                path.len(),
                replace as u32,
                found,
                gone,
            )
        })
    }
}
