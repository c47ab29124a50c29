//! What the peers over Rust's maps share: names as keys, their hash, and the functions of peer.h over a tree of names.

use crate::{Tree, NAME};
use std::hash::{BuildHasherDefault, Hasher};
use std::os::raw::{c_char, c_int};
use std::ptr::null_mut;
use std::slice::from_raw_parts;
use std::sync::atomic::{AtomicPtr, Ordering};

pub const ROOT: u64 = 1;

/// How many names a map has room for at first.
pub const CAPACITY: usize = 4096;

/// The bytes of a path. They stay until the program ends, so that maps may keep names of them.
pub type Path = &'static [u8];

/// A directory's number, and a name in it.
pub type Key = (u64, Path);

/// What a name leads to.
#[derive(Clone, Copy)]
pub struct Target {
    pub number: u64,
    pub is_directory: bool,
}

/// The hash of hash.h.
#[derive(Default)]
pub struct EightBytes(u64);

pub type Hash = BuildHasherDefault<EightBytes>;

impl EightBytes {
    fn add(&mut self, word: u64) {
        self.0 = (self.0 ^ word).wrapping_mul(0xff51_afd7_ed55_8ccd);
        self.0 ^= self.0 >> 32;
    }
}

impl Hasher for EightBytes {
    fn write_u64(&mut self, number: u64) {
        self.0 = number.wrapping_mul(0x9e37_79b9_7f4a_7c15);
    }

    /// A slice's length, which comes before its bytes, and changes the hash by the last word.
    fn write_usize(&mut self, length: usize) {
        self.0 ^= (length as u64) << 56;
    }

    fn write(&mut self, bytes: &[u8]) {
        let words = bytes.chunks_exact(8);
        let rest = words.remainder();
        for word in words {
            let mut whole = [0; 8];
            whole.copy_from_slice(word);
            self.add(u64::from_le_bytes(whole));
        }
        self.add(rest.iter().rev().fold(0, |word, byte| word << 8 | u64::from(*byte)));
    }

    fn finish(&self) -> u64 {
        self.0
    }
}

/// The key of a path's last name, if the directories above it are there.
pub fn last_of(path: Path, find: impl Fn(&Key) -> Option<Target>) -> Option<Key> {
    let (mut parent, mut rest) = (ROOT, &path[1..]);
    while let Some(end) = rest.iter().position(|byte| *byte == b'/') {
        let target = find(&(parent, &rest[..end]))?;
        if !target.is_directory {
            return None;
        }
        parent = target.number;
        rest = &rest[end + 1..];
    }
    Some((parent, rest))
}

#[repr(transparent)]
pub struct Text(*const c_char);

// Nobody writes to the text.
unsafe impl Sync for Text {}

#[no_mangle]
#[allow(non_upper_case_globals)]
pub static peer_name: Text = Text(NAME.as_ptr().cast());

static TREE: AtomicPtr<Tree> = AtomicPtr::new(null_mut());

/// The tree, which `peer_begin` has made before, and nobody frees.
fn tree() -> &'static Tree {
    unsafe { &*TREE.load(Ordering::Acquire) }
}

fn bytes_of(path: *const c_char, length: usize) -> Path {
    unsafe { from_raw_parts(path.cast(), length) }
}

fn path_of(path: *const c_char) -> Path {
    unsafe { std::ffi::CStr::from_ptr(path) }.to_bytes()
}

#[no_mangle]
pub extern "C" fn peer_begin() {
    TREE.store(Box::into_raw(Box::new(Tree::new())), Ordering::Release);
}

#[no_mangle]
pub extern "C" fn peer_enter() {}

#[no_mangle]
pub extern "C" fn peer_leave() {}

#[no_mangle]
pub extern "C" fn peer_make(kind: c_char, path: *const c_char) -> c_int {
    tree().make(path_of(path), kind == b'd' as c_char).into()
}

#[no_mangle]
pub extern "C" fn peer_rename(old: *const c_char, new: *const c_char) -> c_int {
    tree().rename(path_of(old), path_of(new)).into()
}

#[no_mangle]
pub extern "C" fn peer_unlink(path: *const c_char) -> c_int {
    tree().unlink(path_of(path)).into()
}

#[no_mangle]
pub extern "C" fn peer_look(path: *const c_char, length: usize) -> c_int {
    tree().look(bytes_of(path, length)).into()
}

#[no_mangle]
pub extern "C" fn peer_end() {}
