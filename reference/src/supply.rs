//! Supplies of permutations: one for each build, of the slots of the level that the build goes to.

pub mod keyed;
pub mod straight;
pub mod table;

pub use keyed::Keyed;
pub use straight::Straight;
pub use table::Table;

use crate::levels::{self, Levels};
use crate::refusal::Refusal;

/// A supply of permutations.
///
/// The two directions undo each other for every build. Both are refused with [`Refusal::BeyondSupply`] exactly where
/// the build, index or slot is beyond the [`Extent`].
pub trait Supply {
    /// What it has permutations for.
    fn extent(&self) -> Extent;

    /// The slot of an index.
    fn slot(&self, build: u64, index: u64) -> Result<u64, Refusal>;

    /// The index of a slot.
    fn index(&self, build: u64, slot: u64) -> Result<u64, Refusal>;
}

/// What a supply has permutations for: its levels, and its K builds from 0 on.
#[derive(Clone, Copy, Debug, PartialEq, Eq)]
pub struct Extent {
    /// The levels that the builds go to.
    pub levels: Levels,
    /// K, the number of builds.
    pub builds: u64,
}

impl Extent {
    /// The level that a build goes to; refused where the build, or a place in it, an index or a slot, is beyond the supply.
    #[inline]
    pub fn level(self, build: u64, place: u64) -> Result<u32, Refusal> {
        let level = self.levels.of_build(build);
        if build < self.builds && place < levels::slots(level) {
            Ok(level)
        } else {
            Err(Refusal::BeyondSupply)
        }
    }
}

#[cfg(test)]
pub(crate) mod tests {
    use super::*;

    /// Asserts that a build's slots are onto, and that the two directions undo each other.
    pub(crate) fn assert_permutes(supply: &dyn Supply, build: u64) {
        let count = levels::slots(supply.extent().levels.of_build(build));
        let mut seen = vec![false; count as usize];
        for index in 0..count {
            let slot = supply.slot(build, index).unwrap();
            assert!(slot < count, "build {build}, index {index}: slot {slot}");
            assert!(
                !seen[slot as usize],
                "build {build}, index {index}: slot {slot} again"
            );
            seen[slot as usize] = true;
            assert_eq!(supply.index(build, slot), Ok(index), "build {build}");
        }
        for slot in 0..count {
            let index = supply.index(build, slot).unwrap();
            assert_eq!(supply.slot(build, index), Ok(slot), "build {build}");
        }
    }

    /// Asserts that both directions are refused just beyond a build's slots, and that none is at the last one.
    pub(crate) fn assert_ends(supply: &dyn Supply, build: u64) {
        let count = levels::slots(supply.extent().levels.of_build(build));
        assert!(supply.slot(build, count - 1).is_ok());
        assert!(supply.index(build, count - 1).is_ok());
        for place in [count, count + 1, 1 << 32, u64::MAX] {
            assert_eq!(supply.slot(build, place), Err(Refusal::BeyondSupply));
            assert_eq!(supply.index(build, place), Err(Refusal::BeyondSupply));
        }
    }

    /// Asserts that the builds end where the extent says.
    pub(crate) fn assert_builds_end(supply: &dyn Supply) {
        let builds = supply.extent().builds;
        assert!(supply.slot(builds - 1, 0).is_ok());
        assert!(supply.index(builds - 1, 0).is_ok());
        for build in [builds, builds + 1, 1 << 32, u64::MAX] {
            assert_eq!(supply.slot(build, 0), Err(Refusal::BeyondSupply));
            assert_eq!(supply.index(build, 0), Err(Refusal::BeyondSupply));
        }
    }
}
