//! Where a call is kept before it is answered.

use crate::calls::{Counts, Work};
use crate::ways::Way;

#[derive(Clone, Copy, Debug, PartialEq, Eq)]
pub enum Keeping {
    /// Nothing waits for a disk.
    Memory,
    /// A call is answered only after it is on the disk.
    Disk,
}

impl Keeping {
    /// The procedures that can be compared.
    pub fn works(self) -> &'static [Work] {
        match self {
            Keeping::Memory => &Work::ALL,
            Keeping::Disk => &[Work::Add],
        }
    }

    /// The ways in which treedb is asked.
    pub fn ways(self) -> &'static [Way] {
        match self {
            Keeping::Memory => &Way::ALL,
            Keeping::Disk => &Way::COMMON,
        }
    }

    /// How many calls are timed, and how many are made before them. Where each call waits for a disk by itself they are fewer.
    pub fn counts(self, work: Work, way: Way) -> Counts {
        match (self, way) {
            (Keeping::Memory, _) => work.counts(),
            (Keeping::Disk, Way::OneByOne) => Counts { before: 32, timed: 512 },
            (Keeping::Disk, _) => Counts { before: 256, timed: 2_048 },
        }
    }
}

#[cfg(test)]
mod tests {
    use super::*;

    /// An epoch of treedb has room for 4,096 calls, and each connection makes as many calls as another.
    #[test]
    fn all_calls_are_in_one_epoch() {
        for keeping in [Keeping::Memory, Keeping::Disk] {
            for &work in keeping.works() {
                for &way in keeping.ways() {
                    let Counts { before, timed } = keeping.counts(work, way);
                    assert!(before + timed <= 4_096, "{work:?} {way:?}");
                    assert_eq!((before % way.connections(), timed % way.connections()), (0, 0), "{work:?} {way:?}");
                }
            }
        }
    }
}
