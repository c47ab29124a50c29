//! The calls that look.

use crate::answer::{Found, Stat};
use crate::error::Error;
use crate::names::{Names, ReadDir};
use crate::pass::{text, Pass};
use crate::path::AsPathBytes;
use crate::raw;
use std::ffi::OsString;
use std::os::raw::{c_char, c_int};
use std::os::unix::ffi::OsStringExt;
use std::path::PathBuf;

const LONGEST_TEXT: usize = 4_095;
const FIRST_ROOM: usize = 4_096;
const FIRST_PLACES: usize = 16;

/// What becomes of a symbolic link at a path's end. Links before the end are always followed.
///
/// ```
/// # use gigbewu::{Cache, Follow, Kind, ROOT};
/// # let mut pass = Cache::new(64, 100)?.pass()?;
/// pass.create(ROOT, "/f")?;
/// pass.symlink(ROOT, "f", "/l")?;
/// assert_eq!(pass.look(ROOT, "/l", Follow::Yes)?.kind, Kind::File);
/// assert_eq!(pass.look(ROOT, "/l", Follow::No)?.kind, Kind::Link);
/// const ENOTDIR: i32 = 20;
/// let refused = pass.look(ROOT, "/l", Follow::Directory).unwrap_err();
/// assert_eq!(refused.errno(), Some(ENOTDIR));
/// # Ok::<(), gigbewu::Error>(())
/// ```
#[derive(Clone, Copy, Debug, PartialEq, Eq, Hash)]
pub enum Follow {
    /// It is followed.
    Yes = 0,
    /// It is kept, unless a slash is behind it.
    No = 1,
    /// It is followed, and has to lead to a directory.
    Directory = 2,
}

/// How long the trail is of a call that gave this answer, or none if it has too few places. A refusal has a trail, too.
fn length_of(answer: c_int, found: &raw::Found) -> Option<usize> {
    (answer != raw::NO_ROOM).then_some(found.count as usize)
}

/// Makes a call that writes a trail, each time with twice as many places, until they are enough. `call` is handed the places
/// and how many these are, and says by `length_of` how many it took.
fn with_places(
    trail: &mut Vec<u64>,
    mut call: impl FnMut(*mut u64, usize, &mut Option<usize>) -> Result<raw::Found, Error>,
) -> Result<Found, Error> {
    trail.resize(trail.capacity().max(FIRST_PLACES), 0);
    loop {
        let (places, mut length) = (trail.len(), None);
        let answered = call(trail.as_mut_ptr(), places, &mut length);
        if let Some(length) = length {
            trail.truncate(length);
            return answered.map(Found::of);
        }
        trail.resize(2 * places, 0);
    }
}

// SAFETY of each call below: the pass is open and borrowed alone, as `ask` and `ask_once` say, and each other pointer leads
// to as many bytes as is said, which nobody else writes meanwhile: they are borrowed, or this function's.
impl Pass {
    /// Looks a path up by the rows alone, without a lock and without memory, and never waits. If it answers
    /// [`Error::Again`], [`Pass::look`] answers.
    ///
    /// ```
    /// # use gigbewu::{Cache, Error, Follow, Why, ROOT};
    /// # let mut pass = Cache::new(64, 100)?.pass()?;
    /// let miss = Err(Error::Again(Why::Miss));
    /// assert_eq!(pass.look_fast(ROOT, "/a", Follow::Yes), miss);
    /// let refused = pass.look(ROOT, "/a", Follow::Yes); // which fills rows
    /// assert_eq!(pass.look_fast(ROOT, "/a", Follow::Yes), refused);
    /// # Ok::<(), gigbewu::Error>(())
    /// ```
    pub fn look_fast<P: AsPathBytes>(
        &mut self,
        base: u64,
        path: P,
        follow: Follow,
    ) -> Result<Found, Error> {
        let answered = self.ask_rows(base, path.as_path_bytes(), follow);
        if !matches!(answered, Err(Error::Again(_))) {
            self.looks.by_rows += 1;
        }
        answered
    }

    fn ask_rows(&mut self, base: u64, path: &[u8], follow: Follow) -> Result<Found, Error> {
        self.ask_once(|pass, found| unsafe {
            raw::gb_look_fast(pass, base, text(path), path.len(), follow as u32, found)
        })
        .map(Found::of)
    }

    /// Looks a path up: by the rows, or if these don't answer under the lock, which fills them.
    ///
    /// ```
    /// # use gigbewu::{Cache, Follow, ROOT};
    /// # let mut pass = Cache::new(64, 100)?.pass()?;
    /// let directory = pass.mkdir(ROOT, "/a")?.number;
    /// assert_eq!(pass.look(ROOT, "/a/..", Follow::Yes)?.number, ROOT);
    /// assert_eq!(pass.look(directory, ".", Follow::Yes)?.number, directory);
    /// # Ok::<(), gigbewu::Error>(())
    /// ```
    pub fn look<P: AsPathBytes>(
        &mut self,
        base: u64,
        path: P,
        follow: Follow,
    ) -> Result<Found, Error> {
        let path = path.as_path_bytes();
        match self.look_fast(base, path, follow) {
            Err(Error::Again(_)) => {}
            answered => return answered,
        }
        self.looks.under_lock += 1;
        self.ask(|pass, found| unsafe {
            raw::gb_try_look(pass, base, text(path), path.len(), follow as u32, found)
        })
        .map(Found::of)
    }

    /// Looks a path up as [`Pass::look`] does, in one call of the library. If the rows don't answer it is quicker: those
    /// that tell of the first names needn't be asked anew under the lock. If they do, it takes a little longer. It isn't
    /// counted among the [`looks`](Pass::looks).
    ///
    /// ```
    /// # use gigbewu::{Cache, Follow, ROOT};
    /// # let mut pass = Cache::new(64, 100)?.pass()?;
    /// pass.mkdir(ROOT, "/a")?;
    /// let found = pass.resolve(ROOT, "/a", Follow::Yes)?; // which fills rows
    /// assert_eq!(pass.look_fast(ROOT, "/a", Follow::Yes), Ok(found));
    /// # Ok::<(), gigbewu::Error>(())
    /// ```
    pub fn resolve<P: AsPathBytes>(
        &mut self,
        base: u64,
        path: P,
        follow: Follow,
    ) -> Result<Found, Error> {
        let path = path.as_path_bytes();
        // What the rows answer doesn't wait for a thread that was passed over.
        if self.is_held_back() {
            match self.ask_rows(base, path, follow) {
                Err(Error::Again(_)) => {}
                answered => return answered,
            }
        }
        self.ask(|pass, found| unsafe {
            raw::gb_try_resolve(pass, base, text(path), path.len(), follow as u32, found)
        })
        .map(Found::of)
    }

    /// Looks a path up, by the rows, or if these don't answer under the lock, which fills them; and tells its trail: the
    /// directories in which the path asks for a name or for dot-dot, up to where it ends, each once, in the order in
    /// which they are first asked.
    /// `trail` has that and nothing else then, also if the path is refused; after another error it is empty. A relative
    /// path first asks whether `base` lives, so its trail begins with `base`. It isn't counted among the
    /// [`looks`](Pass::looks).
    ///
    /// It is for a caller that keeps modes by inode number, and tests search permission in each of these directories
    /// before it tells the answer. If one may not be searched, POSIX wants EACCES, even if the tree refuses the path for a
    /// name further on. If the rows don't answer, all others wait until the trail is found: through 40 links whose texts
    /// have 4,090 bytes each a path may ask in 80,000 directories, which takes seconds.
    ///
    /// ```
    /// # use gigbewu::{Cache, Follow, ROOT};
    /// # let mut pass = Cache::new(64, 100)?.pass()?;
    /// let directory = pass.mkdir(ROOT, "/a")?.number;
    /// let mut trail = Vec::new();
    /// let missing = pass.look_along(ROOT, "/a/b/c", Follow::Yes, &mut trail);
    /// assert_eq!(trail, [ROOT, directory]);
    /// let may_search = |number: &u64| *number == ROOT;
    /// assert!(!trail.iter().all(may_search)); // so the answer is EACCES,
    /// const ENOENT: i32 = 2;
    /// assert_eq!(missing.unwrap_err().errno(), Some(ENOENT)); // and not this
    /// # Ok::<(), gigbewu::Error>(())
    /// ```
    pub fn look_along<P: AsPathBytes>(
        &mut self,
        base: u64,
        path: P,
        follow: Follow,
        trail: &mut Vec<u64>,
    ) -> Result<Found, Error> {
        let path = path.as_path_bytes();
        match self.look_fast_along(base, path, follow, trail) {
            Err(Error::Again(_)) => {}
            answered => return answered,
        }
        with_places(trail, |to, places, length| {
            self.ask(|pass, found| unsafe {
                let (from, len, how) = (text(path), path.len(), follow as u32);
                let answer = raw::gb_try_look_along(pass, base, from, len, how, to, places, found);
                *length = length_of(answer, &*found);
                answer
            })
        })
    }

    /// Looks a path up by the rows alone, and tells its trail, as [`Pass::look_along`] does. It takes no lock and never
    /// waits, and takes memory only if `trail` has too little room. If it answers [`Error::Again`], [`Pass::look_along`]
    /// answers.
    ///
    /// ```
    /// # use gigbewu::{Cache, Error, Follow, Why, ROOT};
    /// # let mut pass = Cache::new(64, 100)?.pass()?;
    /// let directory = pass.mkdir(ROOT, "/a")?.number;
    /// let mut trail = Vec::new();
    /// let miss = Err(Error::Again(Why::Miss));
    /// assert_eq!(pass.look_fast_along(ROOT, "/a/b", Follow::Yes, &mut trail), miss);
    /// let refused = pass.look_along(ROOT, "/a/b", Follow::Yes, &mut trail); // which fills rows
    /// assert_eq!(pass.look_fast_along(ROOT, "/a/b", Follow::Yes, &mut trail), refused);
    /// assert_eq!(trail, [ROOT, directory]);
    /// # Ok::<(), gigbewu::Error>(())
    /// ```
    pub fn look_fast_along<P: AsPathBytes>(
        &mut self,
        base: u64,
        path: P,
        follow: Follow,
        trail: &mut Vec<u64>,
    ) -> Result<Found, Error> {
        let path = path.as_path_bytes();
        with_places(trail, |to, places, length| {
            self.ask_once(|pass, found| unsafe {
                let (from, len, how) = (text(path), path.len(), follow as u32);
                let answer = raw::gb_look_fast_along(pass, base, from, len, how, to, places, found);
                *length = length_of(answer, &*found);
                answer
            })
        })
    }

    /// What a path leads to, a last link followed, and how many names it has, or a directory entries.
    ///
    /// ```
    /// # use gigbewu::{Cache, ROOT};
    /// # let mut pass = Cache::new(64, 100)?.pass()?;
    /// pass.mkdir(ROOT, "/a")?;
    /// pass.mkdir(ROOT, "/a/b")?;
    /// assert_eq!(pass.stat(ROOT, "/a")?.count, 1);
    /// # Ok::<(), gigbewu::Error>(())
    /// ```
    pub fn stat<P: AsPathBytes>(&mut self, base: u64, path: P) -> Result<Stat, Error> {
        let path = path.as_path_bytes();
        self.ask(|pass, found| unsafe {
            raw::gb_try_stat(pass, base, text(path), path.len(), found)
        })
        .map(Stat::of)
    }

    /// What the rows alone tell of a [`readlink`](Pass::readlink), without a lock and without memory: its refusal, or the
    /// link that the path leads to.
    ///
    /// ```
    /// # use gigbewu::{Cache, Follow, ROOT};
    /// # let mut pass = Cache::new(64, 100)?.pass()?;
    /// pass.create(ROOT, "/f")?;
    /// pass.look(ROOT, "/f", Follow::Yes)?;
    /// const EINVAL: i32 = 22;
    /// let no_link = pass.readlink_fast(ROOT, "/f").unwrap_err();
    /// assert_eq!(no_link.errno(), Some(EINVAL));
    /// # Ok::<(), gigbewu::Error>(())
    /// ```
    pub fn readlink_fast<P: AsPathBytes>(&mut self, base: u64, path: P) -> Result<Found, Error> {
        let path = path.as_path_bytes();
        self.ask_once(|pass, found| unsafe {
            raw::gb_readlink_fast(pass, base, text(path), path.len(), found)
        })
        .map(Found::of)
    }

    /// The text of a symbolic link. If the path leads to none, the rows may tell, without the lock.
    ///
    /// ```
    /// # use gigbewu::{Cache, ROOT};
    /// # use std::path::Path;
    /// # let mut pass = Cache::new(64, 100)?.pass()?;
    /// pass.symlink(ROOT, "../a", "/l")?;
    /// assert_eq!(pass.readlink(ROOT, "/l")?, Path::new("../a"));
    /// # Ok::<(), gigbewu::Error>(())
    /// ```
    pub fn readlink<P: AsPathBytes>(&mut self, base: u64, path: P) -> Result<PathBuf, Error> {
        let path = path.as_path_bytes();
        match self.readlink_fast(base, path) {
            Ok(_) | Err(Error::Again(_)) => {}
            Err(refused) => return Err(refused),
        }
        let mut read = vec![0; LONGEST_TEXT];
        let to: *mut c_char = read.as_mut_ptr().cast();
        let found = self.ask(|pass, found| unsafe {
            raw::gb_try_readlink(pass, base, text(path), path.len(), to, LONGEST_TEXT, found)
        })?;
        read.truncate(found.count as usize);
        read.shrink_to_fit();
        Ok(OsString::from_vec(read).into())
    }

    /// Where a directory is: its path from the root at one moment, by names alone, as `getcwd` tells it. ENOENT if no
    /// directory has the number, ENAMETOOLONG if the path has more than 4,095 bytes. The lock is held while the names in
    /// each directory on the way are looked at, up to the one that leads on.
    ///
    /// ```
    /// # use gigbewu::{Cache, Replace, ROOT};
    /// # use std::path::Path;
    /// # let mut pass = Cache::new(64, 100)?.pass()?;
    /// pass.mkdir(ROOT, "/a")?;
    /// let directory = pass.mkdir(ROOT, "/a/b")?.number;
    /// pass.rename(ROOT, "/a", "/c", Replace::Yes)?;
    /// assert_eq!(pass.path_of(directory)?, Path::new("/c/b"));
    /// assert_eq!(pass.path_of(ROOT)?, Path::new("/"));
    /// # Ok::<(), gigbewu::Error>(())
    /// ```
    pub fn path_of(&mut self, number: u64) -> Result<PathBuf, Error> {
        let mut path = vec![0; LONGEST_TEXT];
        let to: *mut c_char = path.as_mut_ptr().cast();
        let found = self.ask(|pass, found| unsafe {
            raw::gb_try_path_of(pass, number, to, LONGEST_TEXT, found)
        })?;
        path.truncate(found.count as usize);
        path.shrink_to_fit();
        Ok(OsString::from_vec(path).into())
    }

    /// The names in a directory at one moment, in the order of their bytes, without dot and dot-dot, as bytes. All others
    /// wait until every name is read: with ten million names for seconds.
    ///
    /// ```
    /// # use gigbewu::{Cache, ROOT};
    /// # let mut pass = Cache::new(64, 100)?.pass()?;
    /// pass.create(ROOT, b"/\xff")?;
    /// assert_eq!(pass.list(ROOT, "/")?.iter().next(), Some(&b"\xff"[..]));
    /// # Ok::<(), gigbewu::Error>(())
    /// ```
    pub fn list<P: AsPathBytes>(&mut self, base: u64, path: P) -> Result<Names, Error> {
        let path = path.as_path_bytes();
        let mut names = vec![0; FIRST_ROOM];
        loop {
            let (to, room): (*mut c_char, _) = (names.as_mut_ptr().cast(), names.len());
            let found = self.ask(|pass, found| unsafe {
                raw::gb_try_list(pass, base, text(path), path.len(), to, room, found)
            })?;
            let size = found.count as usize;
            if size <= room {
                names.truncate(size);
                return Ok(Names::new(names, found.at));
            }
            // Names may come meanwhile, so there is room for more.
            names.resize(2 * size, 0);
        }
    }

    /// The same, each name owned, as what it is called with elsewhere.
    ///
    /// ```
    /// # use gigbewu::{Cache, ROOT};
    /// # let mut pass = Cache::new(64, 100)?.pass()?;
    /// pass.mkdir(ROOT, "/a")?;
    /// pass.create(ROOT, "/a/f")?;
    /// let names: Vec<_> = pass.read_dir(ROOT, "/a")?.collect();
    /// assert_eq!(names, ["f"]);
    /// # Ok::<(), gigbewu::Error>(())
    /// ```
    pub fn read_dir<P: AsPathBytes>(&mut self, base: u64, path: P) -> Result<ReadDir, Error> {
        self.list(base, path).map(ReadDir::new)
    }
}
