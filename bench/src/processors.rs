//! On which processors the work runs: two that look alike may differ in speed by two, where others use the machine too.

use std::sync::atomic::{AtomicUsize, Ordering};
use std::sync::OnceLock;

/// Room for the numbers of 1,024 processors, a bit each.
type Mask = [u64; 16];

extern "C" {
    fn sched_getaffinity(process: i32, size: usize, mask: *mut Mask) -> i32;
    fn sched_setaffinity(process: i32, size: usize, mask: *const Mask) -> i32;
}

/// How many rounds have begun.
static ROUND: AtomicUsize = AtomicUsize::new(0);

/// The processors that this process was given, by number.
fn given() -> &'static [usize] {
    static GIVEN: OnceLock<Vec<usize>> = OnceLock::new();
    GIVEN.get_or_init(|| {
        let mut mask: Mask = [0; 16];
        if unsafe { sched_getaffinity(0, size_of::<Mask>(), &mut mask) } < 0 {
            return Vec::new();
        }
        (0..1_024).filter(|processor| mask[processor / 64] >> (processor % 64) & 1 == 1).collect()
    })
}

/// How many processors there are.
pub fn count() -> usize {
    given().len().max(1)
}

/// A round begins: its work runs on the next processor.
pub fn next_round() {
    ROUND.fetch_add(1, Ordering::Relaxed);
    keep_to(1);
}

/// From here on this thread, and what it starts, runs on so many processors, of which the round's own is the first. Where the system
/// refuses that, it runs where it did.
pub fn keep_to(processors: usize) {
    let mut mask: Mask = [0; 16];
    let round = ROUND.load(Ordering::Relaxed);
    for &processor in given().iter().cycle().skip(round % count()).take(processors.min(count())) {
        mask[processor / 64] |= 1 << (processor % 64);
    }
    let _ = unsafe { sched_setaffinity(0, size_of::<Mask>(), &mask) };
}
