//! What the fast path does, counted and not timed. Compiled with `--cfg counted` the program
//! counts; without, nothing of this is left in it.

use std::cell::Cell;

thread_local! {
    static LOOKS: Cell<u64> = const { Cell::new(0) };
    static VISITS: Cell<u64> = const { Cell::new(0) };
}

pub const COUNTS: bool = cfg!(counted);

/// Demand at this many lengths.
#[inline]
pub fn looks(count: usize) {
    if COUNTS {
        LOOKS.set(LOOKS.get() + count as u64);
    }
}

/// An actor visited in a trial run.
#[inline]
pub fn visit() {
    if COUNTS {
        VISITS.set(VISITS.get() + 1);
    }
}

/// Looks and visits since this was last asked.
pub fn since() -> (u64, u64) {
    (LOOKS.take(), VISITS.take())
}
