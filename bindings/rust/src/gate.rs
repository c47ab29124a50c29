//! How a thread waits for the lock: as the blocking forms of `gigbewu.h` do, step by step. Its comment says why no
//! wake-up is lost, and how a thread that is passed over is handed the lock. Threads sleep here by a condition variable.

use crate::raw::BUSY;
use std::os::raw::c_int;
use std::sync::atomic::{AtomicU32, Ordering::SeqCst};
use std::sync::{Condvar, Mutex, MutexGuard, PoisonError};
use std::time::{Duration, Instant};
use std::{hint, thread};

pub(crate) const PAUSES: u32 = 9;
pub(crate) const YIELDS: u32 = 16;
pub(crate) const FIRST_PAUSES: u32 = 128;
pub(crate) const DOUBLINGS: u32 = 6;
pub(crate) const PATIENCE: Duration = Duration::from_millis(4);

#[derive(Default)]
pub(crate) struct Gate {
    /// Threads that sleep, or are about to.
    sleepers: AtomicU32,
    /// Taken so far: as many are out as were taken and not served.
    tickets: AtomicU32,
    served: AtomicU32,
    /// How often a sleeper was called.
    calls: Mutex<u32>,
    called: Condvar,
}

impl Gate {
    fn calls(&self) -> MutexGuard<'_, u32> {
        self.calls.lock().unwrap_or_else(PoisonError::into_inner)
    }

    fn sleep(&self, seen: u32) {
        drop(self.called.wait_while(self.calls(), |calls| *calls == seen));
    }

    /// The ticket that is next, if any is out.
    pub(crate) fn next(&self) -> Option<u32> {
        let next = self.served.load(SeqCst);
        (self.tickets.load(SeqCst) != next).then_some(next)
    }

    /// Wakes a sleeper, if there is one, and all while a ticket is out.
    pub(crate) fn call(&self) {
        if self.sleepers.load(SeqCst) == 0 {
            return;
        }
        let mut calls = self.calls();
        *calls = calls.wrapping_add(1);
        match self.next() {
            Some(_) => self.called.notify_all(),
            None => self.called.notify_one(),
        }
    }

    /// The first answer of a call that another pass's lock doesn't keep off.
    pub(crate) fn answer(&self, mut call: impl FnMut() -> c_int) -> c_int {
        let mut turn = Turn::new(self);
        loop {
            match call() {
                BUSY => turn.wait(),
                answer => return answer,
            }
        }
    }
}

/// The pauses after a try, when this many were refused before it. They double, as a try takes the lock's cache line from
/// its holder.
fn pause_for(refused: u32) {
    for _ in 0..FIRST_PAUSES << refused.min(DOUBLINGS) {
        hint::spin_loop();
    }
}

/// One blocking call. It ends as it is dropped.
struct Turn<'a> {
    gate: &'a Gate,
    /// How often it was refused, up to when it sleeps.
    tries: u32,
    /// `calls` before its last try.
    seen: u32,
    /// Whether its thread is counted among the sleepers.
    counted: bool,
    /// When it first looked at the clock, if it has.
    since: Option<Instant>,
    ticket: Option<u32>,
}

impl<'a> Turn<'a> {
    fn new(gate: &'a Gate) -> Turn<'a> {
        let mut turn = Turn {
            gate,
            tries: 0,
            seen: 0,
            counted: false,
            since: None,
            ticket: None,
        };
        turn.come_if_held_back();
        turn
    }

    /// Whether it was passed over.
    fn is_late(&mut self) -> bool {
        self.since.get_or_insert_with(Instant::now).elapsed() >= PATIENCE
    }

    /// While a ticket is out, only the thread that has the next one tries.
    fn may_try(&self) -> bool {
        match self.gate.next() {
            None => true,
            next => self.ticket == next,
        }
    }

    /// The order counts: a thread is seen as a sleeper, and has its ticket if it was passed over, then it reads how many
    /// calls there were, then it tries or asks whether it may.
    fn count(&mut self) {
        if !self.counted {
            self.gate.sleepers.fetch_add(1, SeqCst);
            self.counted = true;
        }
        if self.ticket.is_none() && self.is_late() {
            self.ticket = Some(self.gate.tickets.fetch_add(1, SeqCst));
        }
        self.seen = *self.gate.calls();
    }

    fn come(&mut self) {
        self.count();
        while !self.may_try() {
            self.gate.sleep(self.seen);
            self.count();
        }
    }

    fn come_if_held_back(&mut self) {
        if !self.may_try() {
            self.come();
        }
    }

    /// After a try that was refused: pauses first, then yields, then sleeps. On a busy machine a yield may take as long as
    /// a hold of the lock, so the clock is read from the first one on.
    fn wait(&mut self) {
        self.tries = (self.tries + 1).min(PAUSES + YIELDS);
        if self.tries <= PAUSES {
            pause_for(self.tries - 1);
        } else if self.tries < PAUSES + YIELDS && !self.is_late() {
            thread::yield_now();
        } else {
            if self.counted {
                self.gate.sleep(self.seen);
            }
            return self.come();
        }
        self.come_if_held_back();
    }
}

impl Drop for Turn<'_> {
    /// Its ticket is served before it calls, so that the next one may try.
    fn drop(&mut self) {
        if self.counted {
            self.gate.sleepers.fetch_sub(1, SeqCst);
        }
        if self.ticket.is_some() {
            self.gate.served.fetch_add(1, SeqCst);
        }
        self.gate.call();
    }
}

#[cfg(test)]
mod tests;
