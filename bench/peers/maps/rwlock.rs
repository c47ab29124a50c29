//! Rust's map of names behind its lock for readers and a writer, taken once for a path.

mod names;

use names::{last_of, Hash, Key, Path, Target, CAPACITY, ROOT};
use std::collections::HashMap;
use std::sync::{RwLock, RwLockReadGuard, RwLockWriteGuard};

const NAME: &str = "rwlock-rust\0";

struct Names {
    map: HashMap<Key, Target, Hash>,
    next_number: u64,
}

struct Tree(RwLock<Names>);

impl Names {
    fn find(&self, key: &Key) -> Option<Target> {
        self.map.get(key).copied()
    }

    fn last_of(&self, path: Path) -> Option<Key> {
        last_of(path, |key| self.find(key))
    }

    /// Has a name lead to something, unless it leads somewhere.
    fn add(&mut self, key: Option<Key>, target: Target) -> bool {
        match key {
            Some(key) if self.find(&key).is_none() => self.map.insert(key, target).is_none(),
            _ => false,
        }
    }

    /// Takes a file's name away.
    fn take(&mut self, path: Path) -> Option<(Key, Target)> {
        let key = self.last_of(path)?;
        match self.find(&key) {
            Some(target) if !target.is_directory => self.map.remove_entry(&key),
            _ => None,
        }
    }

    fn rename(&mut self, old: Path, new: Path) -> bool {
        let new = self.last_of(new);
        match self.take(old) {
            Some((_, target)) if self.add(new, target) => true,
            Some((key, target)) => {
                self.map.insert(key, target);
                false
            }
            None => false,
        }
    }
}

impl Tree {
    fn new() -> Tree {
        Tree(RwLock::new(Names {
            map: HashMap::with_capacity_and_hasher(CAPACITY, Hash::default()),
            next_number: ROOT + 1,
        }))
    }

    fn read(&self) -> RwLockReadGuard<'_, Names> {
        self.0.read().expect("a thread panicked")
    }

    fn write(&self) -> RwLockWriteGuard<'_, Names> {
        self.0.write().expect("a thread panicked")
    }

    fn look(&self, path: Path) -> bool {
        let names = self.read();
        names.last_of(path).and_then(|key| names.find(&key)).is_some()
    }

    fn make(&self, path: Path, is_directory: bool) -> bool {
        let mut names = self.write();
        let (number, key) = (names.next_number, names.last_of(path));
        names.next_number += 1;
        names.add(key, Target { number, is_directory })
    }

    fn rename(&self, old: Path, new: Path) -> bool {
        self.write().rename(old, new)
    }

    fn unlink(&self, path: Path) -> bool {
        self.write().take(path).is_some()
    }
}
