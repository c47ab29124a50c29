//! DashMap, a map of names with a lock for each of its shards, which is taken for one name after the other.
//!
//! Each step is right when it is made; of a path as a whole nothing is promised. A rename adds the new name before it
//! removes the old one, and readers can see both.

mod names;

use dashmap::mapref::entry::Entry;
use dashmap::DashMap;
use names::{last_of, Hash, Key, Path, Target, CAPACITY, ROOT};
use std::sync::atomic::{AtomicU64, Ordering};

const NAME: &str = "dashmap\0";

struct Tree {
    map: DashMap<Key, Target, Hash>,
    next_number: AtomicU64,
}

impl Tree {
    fn new() -> Tree {
        Tree {
            map: DashMap::with_capacity_and_hasher(CAPACITY, Hash::default()),
            next_number: AtomicU64::new(ROOT + 1),
        }
    }

    fn find(&self, key: &Key) -> Option<Target> {
        self.map.get(key).map(|target| *target)
    }

    fn last_of(&self, path: Path) -> Option<Key> {
        last_of(path, |key| self.find(key))
    }

    /// Has a name lead to something, unless it leads somewhere.
    fn add(&self, key: Option<Key>, target: Target) -> bool {
        match key.map(|key| self.map.entry(key)) {
            Some(Entry::Vacant(place)) => {
                place.insert(target);
                true
            }
            _ => false,
        }
    }

    fn look(&self, path: Path) -> bool {
        self.last_of(path).and_then(|key| self.find(&key)).is_some()
    }

    fn make(&self, path: Path, is_directory: bool) -> bool {
        let number = self.next_number.fetch_add(1, Ordering::Relaxed);
        self.add(self.last_of(path), Target { number, is_directory })
    }

    fn rename(&self, old: Path, new: Path) -> bool {
        let file = self.last_of(old).and_then(|key| self.find(&key)).filter(|target| !target.is_directory);
        match file {
            Some(target) => self.add(self.last_of(new), target) && self.unlink(old),
            None => false,
        }
    }

    fn unlink(&self, path: Path) -> bool {
        let key = self.last_of(path);
        key.and_then(|key| self.map.remove_if(&key, |_, target| !target.is_directory)).is_some()
    }
}
