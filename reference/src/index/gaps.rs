//! The index of gaps.

use super::{Extent, Index};
use crate::levels::Levels;
use crate::refusal::Refusal;

/// An index that has one number for each member: how far it lies above the one before it, where the first counts from
/// -1. A gap is 2^12 at most.
#[derive(Clone, Debug)]
pub struct Gaps {
    levels: Levels,
    lists: Vec<Extent>,
    /// The gaps. A list has room for 2^level of them, behind the room of the lists of lower levels.
    gaps: Vec<u16>,
}

impl Gaps {
    /// An index whose lists are empty.
    pub fn new(levels: Levels) -> Self {
        Gaps {
            levels,
            lists: Extent::empty(levels),
            gaps: vec![0; levels.blocks() as usize - 1],
        }
    }

    /// The gaps of a list, if there is the list.
    #[inline]
    fn list(&self, level: u32) -> Option<&[u16]> {
        let list = self.lists.get(level as usize)?;
        Some(&self.gaps[start(level)..][..list.size as usize])
    }
}

/// Where the room of a list begins.
#[inline]
fn start(level: u32) -> usize {
    (1 << level) - 1
}

impl Index for Gaps {
    fn levels(&self) -> Levels {
        self.levels
    }

    #[inline]
    fn size(&self, level: u32) -> Option<u64> {
        Some(self.lists.get(level as usize)?.size)
    }

    #[inline]
    fn member(&self, level: u32, position: u64) -> Option<u64> {
        let list = self.list(level)?;
        if position >= list.len() as u64 {
            return None;
        }
        let sum: u32 = list[..=position as usize]
            .iter()
            .map(|&gap| u32::from(gap))
            .sum();
        Some(u64::from(sum - 1))
    }

    #[inline]
    fn rank(&self, level: u32, address: u64) -> Option<u64> {
        let list = self.list(level)?;
        if address >= self.lists[level as usize].end {
            return None;
        }
        let mut above = 0;
        for (rank, &gap) in (0..).zip(list) {
            above += u64::from(gap);
            if above > address {
                return (above - 1 == address).then_some(rank);
            }
        }
        None
    }

    #[inline]
    fn append(&mut self, level: u32, address: u64) -> Result<(), Refusal> {
        let list = self.lists.get_mut(level as usize).ok_or(Refusal::List)?;
        list.check_append(self.levels, level, address)?;
        self.gaps[start(level) + list.size as usize] = (address + 1 - list.end) as u16;
        *list = Extent {
            size: list.size + 1,
            end: address + 1,
        };
        Ok(())
    }

    #[inline]
    fn clear(&mut self, level: u32) -> Result<(), Refusal> {
        *self.lists.get_mut(level as usize).ok_or(Refusal::List)? = Extent::default();
        Ok(())
    }
}

#[cfg(test)]
mod tests {
    use super::*;

    #[test]
    fn one_number_for_each_member() {
        let mut index = Gaps::new(Levels::new(4).unwrap());
        for address in [2, 5, 7, 9] {
            index.append(2, address).unwrap();
        }
        assert_eq!(index.list(2), Some(&[3, 3, 2, 2][..]));
        index.clear(2).unwrap();
        assert_eq!(index.list(2), Some(&[][..]));
        index.append(2, 0).unwrap();
        assert_eq!(index.list(2), Some(&[1][..]));
        assert_eq!(index.list(4), None);
    }

    #[test]
    fn largest_gap() {
        let mut index = Gaps::new(Levels::new(12).unwrap());
        index.append(0, 4095).unwrap();
        assert_eq!(index.list(0), Some(&[4096][..]));
        assert_eq!(index.rank(0, 4095), Some(0));
    }
}
