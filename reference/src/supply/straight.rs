//! The straight supply: slot equals index.

use super::{Extent, Supply};
use crate::refusal::Refusal;

/// K, the number of builds that the rules give to a straight supply.
pub const BUILDS: u64 = 1_000_000;

/// A supply whose permutations leave everything in its place.
#[derive(Clone, Copy, Debug)]
pub struct Straight {
    extent: Extent,
}

impl Straight {
    /// The straight supply for an extent.
    pub fn new(extent: Extent) -> Self {
        Straight { extent }
    }
}

impl Supply for Straight {
    fn extent(&self) -> Extent {
        self.extent
    }

    #[inline]
    fn slot(&self, build: u64, index: u64) -> Result<u64, Refusal> {
        self.extent.level(build, index).map(|_| index)
    }

    #[inline]
    fn index(&self, build: u64, slot: u64) -> Result<u64, Refusal> {
        self.extent.level(build, slot).map(|_| slot)
    }
}

#[cfg(test)]
mod tests {
    use super::super::tests::{assert_builds_end, assert_ends, assert_permutes};
    use super::*;
    use crate::levels::Levels;

    #[test]
    fn slot_is_index() {
        let levels = Levels::new(4).unwrap();
        let supply = Straight::new(Extent { levels, builds: 40 });
        for build in 0..40 {
            assert_permutes(&supply, build);
            assert_ends(&supply, build);
        }
        assert_builds_end(&supply);
        assert_eq!(supply.slot(0, 31), Ok(31));
        assert_eq!(supply.index(8, 15), Ok(15));
    }
}
