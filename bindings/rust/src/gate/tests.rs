//! The gate beside the header's, and threads that wait at it for a lock that never puts them to sleep.

use super::*;
use std::env;
use std::fs;
use std::sync::atomic::AtomicBool;

/// The number of an enumerator of the installed header.
fn number_of(name: &str) -> u32 {
    let header = fs::read_to_string(env!("GIGBEWU_HEADER")).unwrap();
    let set = format!("{name} = ");
    let found = header.split(&set).nth(1).unwrap();
    let digits = found.split(|it: char| !it.is_ascii_digit()).next();
    digits.unwrap().parse().unwrap()
}

#[test]
fn its_numbers_are_the_headers() {
    let patience = PATIENCE.as_millis() as u32;
    let own = [
        ("GB_PAUSES", PAUSES),
        ("GB_YIELDS", YIELDS),
        ("GB_FIRST_PAUSES", FIRST_PAUSES),
        ("GB_DOUBLINGS", DOUBLINGS),
        ("GB_PATIENCE", patience),
    ];
    for (name, number) in own {
        assert_eq!(number, number_of(name), "{name}");
    }
}

/// Threads that hold a lock for longer than others have patience: all get their turns, and none is left asleep.
#[test]
fn no_thread_is_left_asleep() {
    const THREADS: u32 = 4;
    const TURNS: u32 = 100;
    let gate = Gate::default();
    let held = AtomicBool::new(false);
    let done = AtomicU32::new(0);
    let turn = |hold: Duration| {
        gate.answer(|| {
            if held.swap(true, SeqCst) {
                return BUSY;
            }
            let end = Instant::now() + hold;
            while Instant::now() < end {
                hint::spin_loop();
            }
            done.fetch_add(1, SeqCst);
            held.store(false, SeqCst);
            0
        })
    };
    thread::scope(|threads| {
        for hold in (0..THREADS).map(|thread| Duration::from_micros(300 * u64::from(thread))) {
            let turn = &turn;
            threads.spawn(move || {
                for _ in 0..TURNS {
                    turn(hold);
                }
            });
        }
    });
    assert_eq!(done.load(SeqCst), THREADS * TURNS);
    assert_eq!(gate.sleepers.load(SeqCst), 0);
    assert_eq!(gate.tickets.load(SeqCst), gate.served.load(SeqCst));
}

/// While a ticket is out, whoever has none sleeps, and tries once it is served.
#[test]
fn a_ticket_holds_others_back() {
    let gate = Gate::default();
    let mut first = Turn::new(&gate);
    first.since = Instant::now().checked_sub(PATIENCE);
    first.count();
    assert_eq!(first.ticket, Some(0));
    assert!(first.may_try());
    let tried = AtomicBool::new(false);
    thread::scope(|threads| {
        threads.spawn(|| {
            gate.answer(|| {
                tried.store(true, SeqCst);
                0
            })
        });
        while gate.sleepers.load(SeqCst) < 2 {
            thread::yield_now();
        }
        assert!(!tried.load(SeqCst));
        drop(first);
    });
    assert!(tried.load(SeqCst));
}
