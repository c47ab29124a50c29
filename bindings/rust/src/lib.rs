//! A cache of directory entries in front of a tree of names in memory, by the proved library `gigbewu`.
//!
//! ```
//! use gigbewu::{Cache, Follow, Kind, ROOT};
//!
//! let cache = Cache::new(256, 65_536)?; // buckets; inodes that may live
//! let mut pass = cache.pass()?; // one for each thread
//! let made = pass.mkdir(ROOT, "/a")?;
//! let found = pass.look(ROOT, "/a", Follow::Yes)?;
//! assert_eq!((found.number, found.kind, found.at), (made.number, Kind::Dir, 1));
//! assert_eq!(pass.look_fast(ROOT, "/a", Follow::Yes), Ok(found)); // without a lock
//! assert_eq!(pass.rmdir(ROOT, "/b").unwrap_err().errno(), Some(2)); // ENOENT
//! # Ok::<(), gigbewu::Error>(())
//! ```
//!
//! The tree has directories, files and symbolic links: names and inode numbers, no bytes of files. Each call takes effect
//! at one moment between its start and its return, and answers what the tree of that moment gives; `at` says how many
//! changes came before that moment. `base` is the number of the directory from which a relative path starts.
//!
//! # Building it
//!
//! The crate has no dependencies, but it links to the library, which has to be built first, and it asks `pkg-config` where
//! that is. On a machine with the Rattle kit, from the top of the repository:
//!
//! ```text
//! bindings/c/install ~/.local
//! export PKG_CONFIG_PATH=~/.local/lib/pkgconfig
//! ```
//!
//! This proves the library and builds it: some 20 minutes on 4 idle processors the first time; later only what has changed
//! is proved. A machine without the kit takes what another one has proved: `bindings/c/package` makes a Debian package
//! of it, `libgigbewu-dev`. The static library is linked to, unless `GIGBEWU_SHARED` is set in the environment of the
//! build. It is for Linux.
//!
//! # What it costs
//!
//! A cache of 1,024 buckets weighs 1.6 MB: a row takes 387 bytes, and 31 more once it is filled, and four rows are a
//! bucket. A [`Pass`] weighs 43 KB and takes 20 to 70 microseconds to make: keep one for each thread, not one for each
//! request. A cache keeps spare ones, which [`Cache::pass`] splits: from the start as many as the machine runs threads at
//! once, up to 16. Passes that were dropped are handed out again, which takes no split; no more than 64 are there at
//! once.
//!
//! Beside the call of the library, this crate copies the answer alone; [`Pass::readlink`], [`Pass::path_of`],
//! [`Pass::list`], [`Pass::read_dir`], [`Pass::entries`], [`Pass::look_along`] and [`Pass::look_fast_along`] take memory
//! for it. A call that may wait also loads two numbers before it and one after it, which tell whether threads sleep.
//!
//! # What can't be written
//!
//! Each call borrows its pass alone, so what a caller in C can get wrong is refused by the compiler: one pass in two threads
//! at once,
//!
//! ```compile_fail,E0499
//! let mut pass = gigbewu::Cache::new(1, 1).unwrap().pass().unwrap();
//! std::thread::scope(|threads| {
//!     threads.spawn(|| pass.learn(0));
//!     threads.spawn(|| pass.learn(0));
//! });
//! ```
//!
//! or shared by a reference,
//!
//! ```compile_fail,E0277
//! fn share<T: Sync>() {}
//! share::<gigbewu::Pass>();
//! ```
//!
//! or used after its end,
//!
//! ```compile_fail,E0382
//! let mut pass = gigbewu::Cache::new(1, 1).unwrap().pass().unwrap();
//! drop(pass);
//! pass.learn(0);
//! ```
//!
//! or closed before what other threads did with the cache (see [`Pass`]). What is proved is the library. Not proved is this
//! crate, whose `unsafe` code has to keep the rules that `gigbewu.h` has for callers in C.

#![deny(missing_docs, missing_debug_implementations)]

#[cfg(not(target_os = "linux"))]
compile_error!("gigbewu is for Linux: refusals have its numbers");

mod answer;
mod cache;
mod changes;
mod entries;
mod error;
mod gate;
mod looks;
mod names;
mod pass;
mod path;
mod raw;
mod spares;

pub use answer::{Done, Found, Gone, Kind, Looks, Made, Stat};
pub use cache::Cache;
pub use changes::Replace;
pub use entries::{Entries, Entry};
pub use error::{Error, Why};
pub use looks::Follow;
pub use names::{Iter, Names, ReadDir};
pub use pass::Pass;
pub use path::AsPathBytes;

/// The number of the root.
///
/// ```
/// # use gigbewu::{Cache, Follow, ROOT};
/// # let mut pass = Cache::new(64, 100)?.pass()?;
/// assert_eq!(pass.look(ROOT, "/", Follow::Yes)?.number, ROOT);
/// # Ok::<(), gigbewu::Error>(())
/// ```
pub const ROOT: u64 = 1;

#[cfg(doctest)]
#[doc = include_str!("../README.md")]
struct Readme;
