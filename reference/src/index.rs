//! Indexes: for each level below the highest the rising list of the addresses that it has.

pub mod bitmap;
pub mod gaps;

pub use bitmap::Bitmap;
pub use gaps::Gaps;

use crate::levels::Levels;
use crate::refusal::Refusal;

/// An index: L rising lists of addresses, one for each level below L.
///
/// What is not there, be it a list, a position or a member, is answered by `None`. The two calls that change a list
/// are refused with [`Refusal::List`], and then change nothing: both where the level is L or above; an append besides
/// where the address is n or above or not above the list's last, or the list has 2^level members already.
pub trait Index {
    /// The levels; the highest has no list.
    fn levels(&self) -> Levels;

    /// The number of members of a list.
    fn size(&self, level: u32) -> Option<u64>;

    /// The member at a position. The smallest has position 0.
    fn member(&self, level: u32, position: u64) -> Option<u64>;

    /// How many members are smaller than this one.
    fn rank(&self, level: u32, address: u64) -> Option<u64>;

    /// Whether a list has an address.
    #[inline]
    fn has(&self, level: u32, address: u64) -> bool {
        self.rank(level, address).is_some()
    }

    /// Puts an address at a list's end.
    fn append(&mut self, level: u32, address: u64) -> Result<(), Refusal>;

    /// Empties a list.
    fn clear(&mut self, level: u32) -> Result<(), Refusal>;
}

/// What both kinds keep of a list besides its members.
#[derive(Clone, Copy, Debug, Default, PartialEq, Eq)]
struct Extent {
    /// The number of members.
    size: u64,
    /// One more than the last member; 0 for an empty list.
    end: u64,
}

impl Extent {
    /// The extents of all lists, empty.
    fn empty(levels: Levels) -> Vec<Extent> {
        vec![Extent::default(); levels.highest() as usize]
    }

    /// The checks of an append, but that there is the list.
    #[inline]
    fn check_append(self, levels: Levels, level: u32, address: u64) -> Result<(), Refusal> {
        if address < levels.blocks() && address >= self.end && self.size < 1 << level {
            Ok(())
        } else {
            Err(Refusal::List)
        }
    }
}

#[cfg(test)]
mod tests {
    use super::*;

    /// Asserts that an index means these lists.
    fn assert_means(index: &dyn Index, lists: &[Vec<u64>]) {
        let levels = index.levels();
        assert_eq!(lists.len(), levels.highest() as usize);
        for (level, list) in (0..).zip(lists) {
            let size = list.len() as u64;
            assert_eq!(index.size(level), Some(size));
            let members: Vec<_> = (0..size).filter_map(|p| index.member(level, p)).collect();
            assert_eq!(&members, list);
            for position in [size, size + 1, 1 << 32, u64::MAX] {
                assert_eq!(index.member(level, position), None);
            }
            for address in (0..levels.blocks() + 70).chain([1 << 16, 1 << 32, u64::MAX]) {
                let rank = list.iter().position(|&member| member == address);
                assert_eq!(index.rank(level, address), rank.map(|rank| rank as u64));
                assert_eq!(index.has(level, address), rank.is_some());
            }
        }
        for level in [levels.highest(), levels.highest() + 1, 32, u32::MAX] {
            assert_eq!(index.size(level), None);
            assert_eq!(index.member(level, 0), None);
            assert_eq!(index.rank(level, 0), None);
            assert!(!index.has(level, 0));
        }
    }

    /// Tries random calls against plain lists.
    fn assert_keeps_lists(mut make: impl FnMut(Levels) -> Box<dyn Index>) {
        let mut state = 7u64;
        let mut below = |bound: u64| {
            state = state
                .wrapping_mul(6_364_136_223_846_793_005)
                .wrapping_add(1);
            (state >> 33) % bound
        };
        for l in 1..=9 {
            let levels = Levels::new(l).unwrap();
            let mut index = make(levels);
            let mut lists = vec![Vec::new(); l as usize];
            assert_means(&*index, &lists);
            for _ in 0..300 {
                let level = below(l + 1) as u32;
                if below(12) == 0 {
                    let done = index.clear(level);
                    assert_eq!(done.is_ok(), u64::from(level) < l);
                    assert!(done.is_ok() || done == Err(Refusal::List));
                    if let Some(list) = lists.get_mut(level as usize) {
                        list.clear();
                    }
                } else {
                    let last = lists
                        .get(level as usize)
                        .and_then(|list| list.last().copied());
                    let address = match below(8) {
                        0 => below(levels.blocks() + 2),
                        1 => last.unwrap_or(0),
                        _ => last.map_or(0, |last| last + 1) + below(1 + levels.blocks() / 16),
                    };
                    let fits = u64::from(level) < l
                        && address < levels.blocks()
                        && last.is_none_or(|last| address > last)
                        && lists[level as usize].len() < 1 << level;
                    let done = index.append(level, address);
                    assert_eq!(done, if fits { Ok(()) } else { Err(Refusal::List) });
                    if fits {
                        lists[level as usize].push(address);
                    }
                }
            }
            assert_means(&*index, &lists);
        }
    }

    /// Full lists and lists of the largest L, with gaps over many addresses.
    fn assert_keeps_long_lists(mut make: impl FnMut(Levels) -> Box<dyn Index>) {
        let levels = Levels::new(12).unwrap();
        let mut index = make(levels);
        let mut lists = vec![Vec::new(); 12];
        for (level, list) in (0..).zip(&mut lists) {
            list.extend((0..1 << level).map(|i| (i + 1) * (4096 >> level) - 1));
            for &address in list.iter() {
                assert_eq!(index.append(level, address), Ok(()));
            }
        }
        assert_means(&*index, &lists);
        assert_eq!(index.clear(11), Ok(()));
        lists[11] = (2000..4048).collect();
        for &address in &lists[11] {
            assert_eq!(index.append(11, address), Ok(()));
        }
        assert_eq!(index.append(11, 4090), Err(Refusal::List));
        assert_means(&*index, &lists);
    }

    #[test]
    fn bitmap_keeps_lists() {
        assert_keeps_lists(|levels| Box::new(Bitmap::new(levels)));
        assert_keeps_long_lists(|levels| Box::new(Bitmap::new(levels)));
    }

    #[test]
    fn gaps_keep_lists() {
        assert_keeps_lists(|levels| Box::new(Gaps::new(levels)));
        assert_keeps_long_lists(|levels| Box::new(Gaps::new(levels)));
    }

    #[test]
    fn small_list() {
        for make in [
            |levels| -> Box<dyn Index> { Box::new(Bitmap::new(levels)) },
            |levels| -> Box<dyn Index> { Box::new(Gaps::new(levels)) },
        ] {
            let mut index = make(Levels::new(4).unwrap());
            for address in [2, 5, 7, 9] {
                index.append(2, address).unwrap();
            }
            assert_eq!(index.rank(2, 7), Some(2));
            assert_eq!(index.member(2, 2), Some(7));
            assert_eq!(index.rank(2, 8), None);
            // The list has its 2^2 members.
            assert_eq!(index.append(2, 10), Err(Refusal::List));
            assert_eq!(index.append(3, 16), Err(Refusal::List));
            assert_eq!(index.append(4, 0), Err(Refusal::List));
            assert_eq!(index.clear(4), Err(Refusal::List));
        }
    }
}
