//! The passes of a cache that no thread has. Any number of threads take them out and put them back at once, by atomic
//! steps on the slots they lie in.
//!
//! The functions for C use a pass in one call at a time: so a thread that splits a spare has it alone meanwhile. There are
//! several, so that the next thread takes another.

use crate::raw;
use std::ffi::c_void;
use std::os::raw::c_int;
use std::ptr;
use std::sync::atomic::{AtomicPtr, AtomicUsize, Ordering::SeqCst};

/// There are no more spares than this.
pub(crate) const MOST: usize = 64;

pub(crate) struct Spares {
    /// Each is null, or has a spare.
    slots: Box<[AtomicPtr<c_void>]>,
    /// How many spares there are: in slots, or in the hands of threads that put them back.
    held: AtomicUsize,
    /// How many of those in slots no thread has a claim to.
    free: AtomicUsize,
    /// How many are to stay. A thread that finds no more than these free splits one of them and puts it back.
    kept: AtomicUsize,
}

/// Takes the spare out of a slot, if it has one.
fn taken(slot: &AtomicPtr<c_void>) -> Option<raw::Pass> {
    if slot.load(SeqCst).is_null() {
        return None;
    }
    let at = slot.swap(ptr::null_mut(), SeqCst);
    (!at.is_null()).then_some(raw::Pass { at })
}

fn close(mut pass: raw::Pass) {
    // SAFETY: nobody else has the pass. If it is the last one of its cache, all calls with others have returned: `drop`
    // alone closes the last one.
    unsafe { raw::gb_close(&mut pass) };
}

impl Spares {
    /// The first pass of a cache, and `more`, as far as there is memory.
    pub(crate) fn of(mut first: raw::Pass, more: usize) -> Spares {
        let spares = Spares {
            slots: (0..MOST).map(|_| AtomicPtr::default()).collect(),
            held: AtomicUsize::new(1),
            free: AtomicUsize::new(0),
            kept: AtomicUsize::new(1),
        };
        for _ in 0..more {
            spares.keep_one_more(&mut first);
        }
        spares.put(first);
        spares
    }

    /// Takes a spare out, and tells how many were free. `None` if none was: then a thread frees one later, as the last one
    /// is never let go.
    pub(crate) fn take(&self) -> Option<(raw::Pass, usize)> {
        let fewer = |free: usize| free.checked_sub(1);
        let free = self.free.fetch_update(SeqCst, SeqCst, fewer).ok()?;
        // Some slot has one for this thread at any moment. A search that finds none ran beside another thread that put one
        // into a slot behind it.
        loop {
            if let Some(spare) = self.slots.iter().find_map(taken) {
                return Some((spare, free));
            }
        }
    }

    /// Puts a spare into a slot, then frees it. Some slot is empty at any moment, as `held` counts this spare.
    pub(crate) fn put(&self, spare: raw::Pass) {
        let is_put = |slot: &AtomicPtr<c_void>| {
            let put = slot.compare_exchange(ptr::null_mut(), spare.at, SeqCst, SeqCst);
            put.is_ok()
        };
        while !self.slots.iter().any(is_put) {}
        self.free.fetch_add(1, SeqCst);
    }

    /// Opens a blank pass. `BUSY` if no spare is free: then as many threads have one as there are spares.
    pub(crate) fn open(&self, blank: &mut raw::Pass) -> c_int {
        let (mut spare, free) = match self.take() {
            Some(taken) => taken,
            None => return raw::BUSY,
        };
        if free > self.kept.load(SeqCst) {
            self.held.fetch_sub(1, SeqCst);
            *blank = spare;
            return 0;
        }
        // SAFETY: no other thread has this spare until it is put back, both by seq_cst steps; the other pass is blank.
        let answer = unsafe { raw::gb_pass_split(&mut spare, blank) };
        self.put(spare);
        answer
    }

    /// Makes a spare of a pass that its thread needs no more. It is closed if there are enough of them.
    pub(crate) fn give(&self, pass: raw::Pass) {
        let more = |held| (held < MOST).then(|| held + 1);
        match self.held.fetch_update(SeqCst, SeqCst, more) {
            Ok(_) => self.put(pass),
            Err(_) => close(pass),
        }
    }

    /// Keeps one more spare, which is split off this pass, if there is memory for it.
    pub(crate) fn keep_one_more(&self, pass: &mut raw::Pass) {
        let more = |kept| (kept < MOST).then(|| kept + 1);
        if self.kept.fetch_update(SeqCst, SeqCst, more).is_err() {
            return;
        }
        let mut spare = raw::Pass::blank();
        // SAFETY: this pass is open and the other one blank; both are borrowed alone.
        if unsafe { raw::gb_pass_split(pass, &mut spare) } == 0 {
            self.give(spare);
        }
    }
}

impl Drop for Spares {
    /// Nobody else has a spare by now, and the cache ends with the last of them.
    fn drop(&mut self) {
        for slot in self.slots.iter() {
            if let Some(spare) = taken(slot) {
                close(spare);
            }
        }
    }
}

#[cfg(test)]
mod tests;
