//! When other workers help with a batch: if its calls do much between two turns, or if nobody takes the next one.

use std::sync::atomic::{AtomicU64, Ordering};
use std::sync::{Condvar, Mutex, MutexGuard, PoisonError};
use std::time::Duration;

use super::verifier::Bounds;

/// From so many instructions a turn on, another worker is a gain.
const MANY: u64 = 500;

/// After this time in which no call of the batch was taken, another worker helps in any case.
const PATIENCE: Duration = Duration::from_micros(200);

/// A new measurement counts as one part in so many.
const PARTS: u64 = 8;

pub struct Help {
    /// How many instructions calls do a turn, in the mean of the latest ones.
    pace: AtomicU64,
    taken: AtomicU64,
    is_over: Mutex<bool>,
    called: Condvar,
}

impl Help {
    pub fn new() -> Help {
        Help { pace: AtomicU64::new(0), taken: AtomicU64::new(0), is_over: Mutex::new(false), called: Condvar::new() }
    }

    /// A call with these bounds is taken. The first one's say what is expected of all.
    pub fn take(&self, bounds: &Bounds) {
        if self.taken.fetch_add(1, Ordering::SeqCst) == 0 {
            self.note(0, bounds.steps / (2 * bounds.locks + 1));
        }
    }

    /// A call has ended that did so many instructions a turn, in the mean.
    pub fn learn(&self, pace: u64) {
        let before = self.pace.load(Ordering::SeqCst);
        self.note(before, before - before / PARTS + pace / PARTS);
    }

    fn note(&self, before: u64, pace: u64) {
        self.pace.store(pace, Ordering::SeqCst);
        if before < MANY && pace >= MANY {
            self.called.notify_all();
        }
    }

    /// The batch is over.
    pub fn end(&self) {
        *self.lock() = true;
        self.called.notify_all();
    }

    fn lock(&self) -> MutexGuard<'_, bool> {
        self.is_over.lock().unwrap_or_else(PoisonError::into_inner)
    }

    /// Whether calls do so much a turn that another worker is a gain.
    pub fn pays(&self) -> bool {
        self.pace.load(Ordering::SeqCst) >= MANY
    }

    /// Waits until help is wanted. False if the batch is over.
    pub fn is_wanted(&self) -> bool {
        loop {
            let is_over = self.lock();
            if *is_over {
                return false;
            }
            if self.pays() {
                return true;
            }
            let taken = self.taken.load(Ordering::SeqCst);
            let (is_over, waited) = self.called.wait_timeout(is_over, PATIENCE).unwrap_or_else(PoisonError::into_inner);
            if waited.timed_out() && !*is_over && self.taken.load(Ordering::SeqCst) == taken {
                return true;
            }
        }
    }
}
