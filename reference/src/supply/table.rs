//! The table supply: permutations written out beforehand.

use std::error::Error;
use std::fmt;

use super::{Extent, Supply};
use crate::levels;
use crate::refusal::Refusal;

/// A supply whose permutations are written out: each build's slots in index order, one build after another.
#[derive(Clone, Debug)]
pub struct Table {
    extent: Extent,
    /// The slots, in index order.
    slots: Vec<u16>,
    /// The indexes, in slot order; each build's lie where its slots lie.
    indexes: Vec<u16>,
}

/// The most builds that a supply can have.
const MOST_BUILDS: u64 = 1_000_000;

/// Why a list of slots is no table.
#[derive(Clone, Copy, Debug, PartialEq, Eq)]
pub enum Unfit {
    /// The number of builds is not 1 to 1,000,000.
    Builds,
    /// It has not as many slots as the builds have together.
    Length,
    /// Some build's slots are no permutation: one is too large, or there twice.
    Build(u64),
}

impl fmt::Display for Unfit {
    fn fmt(&self, f: &mut fmt::Formatter<'_>) -> fmt::Result {
        match self {
            Unfit::Builds => f.write_str("number of builds out of range"),
            Unfit::Length => f.write_str("table of the wrong length"),
            Unfit::Build(build) => write!(f, "slots of build {build} are no permutation"),
        }
    }
}

impl Error for Unfit {}

impl Table {
    /// The supply of a table of slots. A slot is below 2^13, hence the 16 bits.
    pub fn new(extent: Extent, slots: Vec<u16>) -> Result<Self, Unfit> {
        if !(1..=MOST_BUILDS).contains(&extent.builds) {
            return Err(Unfit::Builds);
        }
        let mut indexes = vec![0; slots.len()];
        let mut seen = Vec::new();
        let (mut from, mut to) = (&slots[..], &mut indexes[..]);
        for build in 0..extent.builds {
            let count = levels::slots(extent.levels.of_build(build)) as usize;
            let (build_slots, from_rest) = from.split_at_checked(count).ok_or(Unfit::Length)?;
            let (build_indexes, to_rest) = to.split_at_mut(count);
            seen.clear();
            seen.resize(count, false);
            for (index, &slot) in (0..).zip(build_slots) {
                match seen.get_mut(usize::from(slot)) {
                    Some(seen) if !*seen => *seen = true,
                    _ => return Err(Unfit::Build(build)),
                }
                build_indexes[usize::from(slot)] = index;
            }
            (from, to) = (from_rest, to_rest);
        }
        if from.is_empty() {
            Ok(Table {
                extent,
                slots,
                indexes,
            })
        } else {
            Err(Unfit::Length)
        }
    }

    /// Where a question's answer lies in the table; refused where the question is beyond the supply.
    #[inline]
    fn place(&self, build: u64, place: u64) -> Result<usize, Refusal> {
        self.extent.level(build, place)?;
        Ok((self.extent.levels.slots_before(build) + place) as usize)
    }
}

impl Supply for Table {
    fn extent(&self) -> Extent {
        self.extent
    }

    #[inline]
    fn slot(&self, build: u64, index: u64) -> Result<u64, Refusal> {
        self.place(build, index)
            .map(|place| u64::from(self.slots[place]))
    }

    #[inline]
    fn index(&self, build: u64, slot: u64) -> Result<u64, Refusal> {
        self.place(build, slot)
            .map(|place| u64::from(self.indexes[place]))
    }
}

#[cfg(test)]
mod tests {
    use super::super::tests::{assert_builds_end, assert_ends, assert_permutes};
    use super::super::Keyed;
    use super::*;
    use crate::chacha20::Key;
    use crate::levels::Levels;

    fn extent(l: u64, builds: u64) -> Extent {
        Extent {
            levels: Levels::new(l).unwrap(),
            builds,
        }
    }

    /// The first builds of a supply, written out.
    fn written_out(supply: &dyn Supply, builds: u64) -> Vec<u16> {
        let levels = supply.extent().levels;
        (0..builds)
            .flat_map(|build| {
                (0..levels::slots(levels.of_build(build))).map(move |index| (build, index))
            })
            .map(|(build, index)| supply.slot(build, index).unwrap() as u16)
            .collect()
    }

    #[test]
    fn small_table() {
        let table = Table::new(extent(1, 3), vec![2, 0, 3, 1, 1, 0, 3, 2, 0, 1]).unwrap();
        let slots: Vec<_> = (0..4).map(|index| table.slot(0, index).unwrap()).collect();
        assert_eq!(slots, [2, 0, 3, 1]);
        let indexes: Vec<_> = (0..4).map(|slot| table.index(0, slot).unwrap()).collect();
        assert_eq!(indexes, [1, 3, 0, 2]);
        assert_eq!(table.slot(1, 0), Ok(1));
        assert_eq!(table.slot(1, 1), Ok(0));
        assert_eq!(table.slot(2, 1), Ok(2));
        assert_eq!(table.index(2, 1), Ok(3));
        for build in 0..3 {
            assert_permutes(&table, build);
            assert_ends(&table, build);
        }
        assert_builds_end(&table);
    }

    #[test]
    fn equals_the_supply_it_was_written_from() {
        for l in [1, 2, 5, 12] {
            let builds = 70;
            let keyed = Keyed::new(Key::new(&[7; 32]), Levels::new(l).unwrap());
            let table = Table::new(extent(l, builds), written_out(&keyed, builds)).unwrap();
            for build in 0..builds {
                assert_permutes(&table, build);
                for place in 0..levels::slots(keyed.extent().levels.of_build(build)) {
                    assert_eq!(table.slot(build, place), keyed.slot(build, place));
                    assert_eq!(table.index(build, place), keyed.index(build, place));
                }
            }
        }
    }

    #[test]
    fn unfit_lists() {
        let unfit = |builds, slots: &[u16]| Table::new(extent(1, builds), slots.to_vec()).err();
        assert_eq!(unfit(0, &[]), Some(Unfit::Builds));
        assert_eq!(unfit(0, &[0]), Some(Unfit::Builds));
        assert_eq!(unfit(1_000_001, &[0, 1, 2, 3]), Some(Unfit::Builds));
        assert_eq!(unfit(1, &[]), Some(Unfit::Length));
        assert_eq!(unfit(1, &[0, 1, 2]), Some(Unfit::Length));
        assert_eq!(unfit(1, &[0, 1, 2, 3]), None);
        assert_eq!(unfit(1, &[0, 1, 2, 3, 0]), Some(Unfit::Length));
        assert_eq!(unfit(1, &[0, 1, 2, 4]), Some(Unfit::Build(0)));
        assert_eq!(unfit(1, &[0, 1, 2, 2]), Some(Unfit::Build(0)));
        assert_eq!(unfit(2, &[0, 1, 2, 3, 1, 1]), Some(Unfit::Build(1)));
        assert_eq!(unfit(u64::MAX, &[0, 1, 2, 3, 1, 0]), Some(Unfit::Builds));
    }
}
