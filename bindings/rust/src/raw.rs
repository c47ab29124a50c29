//! The functions and numbers of `gigbewu.h`.

use std::ffi::c_void;
use std::os::raw::{c_char, c_int};
use std::ptr;

pub const BUSY: c_int = -1;
pub const AGAIN: c_int = -2;
pub const NO_MEMORY: c_int = -3;
pub const SPENT: c_int = -4;
pub const BAD_SIZE: c_int = -5;
pub const NOT_YET: c_int = -8;
pub const NO_ROOM: c_int = -9;

#[repr(C)]
pub struct Pass {
    pub at: *mut c_void,
}

impl Pass {
    pub fn blank() -> Pass {
        let at = ptr::null_mut();
        Pass { at }
    }
}

#[repr(C)]
#[derive(Default)]
pub struct Found {
    pub number: u64,
    pub count: u64,
    pub at: u64,
    pub kind: u32,
    pub why: u32,
}

#[repr(C)]
#[derive(Clone, Copy, Debug)]
pub struct Entry {
    pub number: u64,
    pub kind: u32,
    pub length: u32,
    pub name: [u8; 256],
}

impl Entry {
    pub const EMPTY: Entry = Entry {
        number: 0,
        kind: 0,
        length: 0,
        name: [0; 256],
    };

    /// The bytes of its name.
    pub fn bytes(&self) -> &[u8] {
        &self.name[..self.length as usize]
    }
}

#[repr(C)]
#[derive(Default)]
pub struct Gone {
    pub number: u64,
    pub kind: u32,
    pub last: u32,
}

type Path = *const c_char;

extern "C" {
    pub fn gb_cache_new(buckets: u64, inodes: u64, blank: *mut Pass) -> c_int;
    pub fn gb_cache_with_names(buckets: u64, inodes: u64, names: u64, blank: *mut Pass) -> c_int;
    pub fn gb_pass_split(pass: *mut Pass, blank: *mut Pass) -> c_int;
    pub fn gb_pass_join(pass: *mut Pass, other: *mut Pass) -> c_int;
    pub fn gb_close(pass: *mut Pass) -> c_int;
    pub fn gb_look_fast(
        pass: *mut Pass,
        base: u64,
        path: Path,
        len: usize,
        follow: u32,
        found: *mut Found,
    ) -> c_int;
    pub fn gb_try_resolve(
        pass: *mut Pass,
        base: u64,
        path: Path,
        len: usize,
        follow: u32,
        found: *mut Found,
    ) -> c_int;
    pub fn gb_try_look(
        pass: *mut Pass,
        base: u64,
        path: Path,
        len: usize,
        follow: u32,
        found: *mut Found,
    ) -> c_int;
    pub fn gb_try_look_along(
        pass: *mut Pass,
        base: u64,
        path: Path,
        len: usize,
        follow: u32,
        trail: *mut u64,
        places: usize,
        found: *mut Found,
    ) -> c_int;
    pub fn gb_look_fast_along(
        pass: *mut Pass,
        base: u64,
        path: Path,
        len: usize,
        follow: u32,
        trail: *mut u64,
        places: usize,
        found: *mut Found,
    ) -> c_int;
    pub fn gb_try_stat(
        pass: *mut Pass,
        base: u64,
        path: Path,
        len: usize,
        found: *mut Found,
    ) -> c_int;
    pub fn gb_readlink_fast(
        pass: *mut Pass,
        base: u64,
        path: Path,
        len: usize,
        found: *mut Found,
    ) -> c_int;
    pub fn gb_try_readlink(
        pass: *mut Pass,
        base: u64,
        path: Path,
        len: usize,
        text: *mut c_char,
        room: usize,
        found: *mut Found,
    ) -> c_int;
    pub fn gb_try_list(
        pass: *mut Pass,
        base: u64,
        path: Path,
        len: usize,
        names: *mut c_char,
        room: usize,
        found: *mut Found,
    ) -> c_int;
    pub fn gb_try_path_of(
        pass: *mut Pass,
        number: u64,
        path: *mut c_char,
        room: usize,
        found: *mut Found,
    ) -> c_int;
    pub fn gb_try_entries(
        pass: *mut Pass,
        base: u64,
        path: Path,
        len: usize,
        after: Path,
        after_len: usize,
        entries: *mut Entry,
        room: usize,
        found: *mut Found,
    ) -> c_int;
    pub fn gb_try_mkdir(
        pass: *mut Pass,
        base: u64,
        path: Path,
        len: usize,
        found: *mut Found,
    ) -> c_int;
    pub fn gb_try_create(
        pass: *mut Pass,
        base: u64,
        path: Path,
        len: usize,
        found: *mut Found,
    ) -> c_int;
    pub fn gb_try_symlink(
        pass: *mut Pass,
        base: u64,
        text: Path,
        text_len: usize,
        path: Path,
        len: usize,
        found: *mut Found,
    ) -> c_int;
    pub fn gb_try_link(
        pass: *mut Pass,
        base: u64,
        old: Path,
        old_len: usize,
        path: Path,
        len: usize,
        found: *mut Found,
    ) -> c_int;
    pub fn gb_try_unlink(
        pass: *mut Pass,
        base: u64,
        path: Path,
        len: usize,
        found: *mut Found,
        gone: *mut Gone,
    ) -> c_int;
    pub fn gb_try_rmdir(
        pass: *mut Pass,
        base: u64,
        path: Path,
        len: usize,
        found: *mut Found,
        gone: *mut Gone,
    ) -> c_int;
    pub fn gb_try_rename(
        pass: *mut Pass,
        base: u64,
        old: Path,
        old_len: usize,
        path: Path,
        len: usize,
        flags: u32,
        found: *mut Found,
        gone: *mut Gone,
    ) -> c_int;
    pub fn gb_learn(pass: *mut Pass, at: u64, clock: *mut u64) -> c_int;
    pub fn gb_try_shrink(pass: *mut Pass, most: u64, emptied: *mut u64) -> c_int;
    pub fn gb_counts(pass: *mut Pass, evictions: *mut u64) -> c_int;
    pub fn gb_rows_in_use(pass: *mut Pass, rows: *mut u64) -> c_int;
}
