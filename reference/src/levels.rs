//! The numbers of the levels: how many slots a level has, where they lie, and which level a build goes to.

use crate::refusal::Refusal;

/// The largest L.
pub const MOST: u32 = 12;

/// The number of slots of a level.
#[inline]
pub const fn slots(level: u32) -> u64 {
    2 << level
}

/// The place of a level's first slot. The levels lie end to end from place 0 on, the lowest first.
#[inline]
pub const fn first_place(level: u32) -> u64 {
    slots(level) - 2
}

/// The levels 0 to L, for an L from 1 to [`MOST`].
#[derive(Clone, Copy, Debug, PartialEq, Eq)]
pub struct Levels {
    highest: u32,
}

impl Levels {
    /// The levels 0 to `l`; refused where `l` is outside its range.
    pub fn new(l: u64) -> Result<Self, Refusal> {
        match u32::try_from(l) {
            Ok(highest @ 1..=MOST) => Ok(Levels { highest }),
            _ => Err(Refusal::Range),
        }
    }

    /// L, the highest level.
    #[inline]
    pub fn highest(self) -> u32 {
        self.highest
    }

    /// n, the number of blocks. Their addresses are the numbers below it.
    #[inline]
    pub fn blocks(self) -> u64 {
        1 << self.highest
    }

    /// The place of the first scratch slot, right behind the highest level. There are as many as that level has.
    #[inline]
    pub fn scratch(self) -> u64 {
        first_place(self.highest + 1)
    }

    /// The number of places for all levels and scratch.
    #[inline]
    pub fn places(self) -> u64 {
        self.scratch() + slots(self.highest)
    }

    /// The level that a build goes to.
    #[inline]
    pub fn of_build(self, build: u64) -> u32 {
        // Zero has 64 trailing zero bits, so that build 0 goes to the highest level like any other multiple of 2^L.
        build.trailing_zeros().min(self.highest)
    }

    /// The number of slots of all builds before `build` together. It must be below 2^60.
    #[inline]
    pub fn slots_before(self, build: u64) -> u64 {
        // Every build has 2 slots at least. One that goes to level l has 2^i more for each i from 1 to l:
        // there are ceil(build / 2^i) multiples of 2^i below `build`.
        (1..=self.highest).fold(2 * build, |sum, i| sum + (build.div_ceil(1 << i) << i))
    }
}

#[cfg(test)]
mod tests {
    use super::*;

    #[test]
    fn l_is_1_to_12() {
        for l in 1..=12 {
            assert_eq!(u64::from(Levels::new(l).unwrap().highest()), l);
        }
        for l in [0, 13, 255, 256, 257, (1 << 32) + 1, u64::MAX] {
            assert_eq!(Levels::new(l), Err(Refusal::Range));
        }
    }

    #[test]
    fn slots_double() {
        let counts: Vec<u64> = (0..=MOST).map(slots).collect();
        assert_eq!(
            counts,
            [2, 4, 8, 16, 32, 64, 128, 256, 512, 1024, 2048, 4096, 8192]
        );
    }

    #[test]
    fn places_lie_end_to_end() {
        let levels = Levels::new(2).unwrap();
        assert_eq!([0, 1, 2].map(first_place), [0, 2, 6]);
        assert_eq!((levels.scratch(), levels.places()), (14, 22));
        for l in 1..=12 {
            let levels = Levels::new(l).unwrap();
            assert_eq!(levels.blocks(), 1 << l);
            for level in 0..levels.highest() {
                assert_eq!(first_place(level) + slots(level), first_place(level + 1));
            }
            assert_eq!(levels.places(), 6 * levels.blocks() - 2);
        }
    }

    #[test]
    fn builds_go_to_their_levels() {
        let levels = Levels::new(3).unwrap();
        let of: Vec<u32> = (0..=17).map(|build| levels.of_build(build)).collect();
        assert_eq!(of, [3, 0, 1, 0, 2, 0, 1, 0, 3, 0, 1, 0, 2, 0, 1, 0, 3, 0]);
        for l in 1..=12 {
            let levels = Levels::new(l).unwrap();
            assert_eq!(levels.of_build(0), levels.highest());
            assert_eq!(levels.of_build(1 << l), levels.highest());
            assert_eq!(levels.of_build(1 << (l + 1)), levels.highest());
            assert_eq!(levels.of_build(3 << (l - 1)), levels.highest() - 1);
            assert_eq!(levels.of_build(999_999), 0);
        }
    }

    #[test]
    fn slots_before_is_the_sum() {
        for l in 1..=12 {
            let levels = Levels::new(l).unwrap();
            let mut sum = 0;
            for build in 0..20_000 {
                assert_eq!(levels.slots_before(build), sum, "L {l}, build {build}");
                sum += slots(levels.of_build(build));
            }
        }
    }
}
