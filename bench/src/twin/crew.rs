//! Threads that stay, and help with one batch after another.

use std::sync::{Arc, Condvar, Mutex, MutexGuard, PoisonError};
use std::thread;

use super::engine::{Batch, Engine};

/// Who is there, and which batch is under way.
#[derive(Default)]
struct Roll {
    batch: Option<Arc<Batch>>,
    /// How many of the threads may be at work, and how many are.
    wanted: usize,
    at_work: usize,
    /// Whether one of them watches when help pays.
    is_watched: bool,
    is_dismissed: bool,
}

#[derive(Default)]
pub struct Crew {
    roll: Mutex<Roll>,
    called: Condvar,
}

impl Crew {
    /// Does the work while so many threads stay and help with the engine's batches.
    pub fn with_members<T>(&self, engine: &Engine, members: usize, work: impl FnOnce() -> T) -> T {
        thread::scope(|scope| {
            for _ in 0..members {
                scope.spawn(|| self.stay(engine));
            }
            let done = work();
            self.lock().is_dismissed = true;
            self.called.notify_all();
            done
        })
    }

    /// A batch begins that wants so many more workers.
    pub fn call(&self, batch: &Arc<Batch>, workers: usize) {
        let mut roll = self.lock();
        roll.batch = Some(Arc::clone(batch));
        roll.wanted = workers;
        let is_watched = roll.is_watched;
        drop(roll);
        if !is_watched && workers > 0 {
            self.called.notify_one();
        }
    }

    /// The batch is over.
    pub fn release(&self) {
        let mut roll = self.lock();
        roll.batch = None;
        roll.wanted = 0;
    }

    fn lock(&self) -> MutexGuard<'_, Roll> {
        self.roll.lock().unwrap_or_else(PoisonError::into_inner)
    }

    fn stay(&self, engine: &Engine) {
        while let Some(batch) = self.wanted() {
            engine.assist(&batch);
            self.lock().at_work -= 1;
        }
    }

    /// Waits until one more thread is to be at work, and counts it. `None` once all are dismissed.
    fn wanted(&self) -> Option<Arc<Batch>> {
        let mut roll = self.lock();
        loop {
            if roll.is_dismissed {
                return None;
            }
            let batch = match &roll.batch {
                Some(batch) if !roll.is_watched && roll.at_work < roll.wanted => Arc::clone(batch),
                _ => {
                    roll = self.called.wait(roll).unwrap_or_else(PoisonError::into_inner);
                    continue;
                }
            };
            roll.is_watched = true;
            drop(roll);
            let pays = batch.help.is_wanted();
            roll = self.lock();
            roll.is_watched = false;
            if pays && roll.at_work < roll.wanted {
                roll.at_work += 1;
                drop(roll);
                // The next one may be wanted too.
                self.called.notify_one();
                return Some(batch);
            }
        }
    }
}
