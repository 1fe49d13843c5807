//! The index of bitmaps.

use super::{Extent, Index};
use crate::levels::Levels;
use crate::refusal::Refusal;

/// An index that has one bit for every address in every list.
#[derive(Clone, Debug)]
pub struct Bitmap {
    levels: Levels,
    /// The words of a list.
    words: usize,
    lists: Vec<Extent>,
    /// The bits, list after list.
    bits: Vec<u64>,
    /// How many members lie in the words of the list before this one. It is kept up to the word of the last member.
    before: Vec<u16>,
}

impl Bitmap {
    /// An index whose lists are empty.
    pub fn new(levels: Levels) -> Self {
        let words = levels.blocks().div_ceil(64) as usize;
        let all = words * levels.highest() as usize;
        Bitmap {
            levels,
            words,
            lists: Extent::empty(levels),
            bits: vec![0; all],
            before: vec![0; all],
        }
    }

    /// The word of an address, and its bit there. The list and the address must be there.
    #[inline]
    fn bit(&self, level: u32, address: u64) -> (usize, u64) {
        let word = level as usize * self.words + (address / 64) as usize;
        (word, 1 << (address % 64))
    }
}

impl Index for Bitmap {
    fn levels(&self) -> Levels {
        self.levels
    }

    #[inline]
    fn size(&self, level: u32) -> Option<u64> {
        Some(self.lists.get(level as usize)?.size)
    }

    #[inline]
    fn member(&self, level: u32, position: u64) -> Option<u64> {
        let list = self.lists.get(level as usize)?;
        if position >= list.size {
            return None;
        }
        // The member lies in the last word that has not more members before it than the position says.
        let start = level as usize * self.words;
        let before = &self.before[start..][..list.end.div_ceil(64) as usize];
        let word = before.partition_point(|&count| u64::from(count) <= position) - 1;
        let within = position - u64::from(before[word]);
        Some(word as u64 * 64 + u64::from(set_bit(self.bits[start + word], within as u32)))
    }

    #[inline]
    fn rank(&self, level: u32, address: u64) -> Option<u64> {
        if !self.has(level, address) {
            return None;
        }
        let (word, bit) = self.bit(level, address);
        let within = (self.bits[word] & (bit - 1)).count_ones();
        Some(u64::from(self.before[word]) + u64::from(within))
    }

    #[inline]
    fn has(&self, level: u32, address: u64) -> bool {
        if level >= self.levels.highest() || address >= self.levels.blocks() {
            return false;
        }
        let (word, bit) = self.bit(level, address);
        self.bits[word] & bit != 0
    }

    #[inline]
    fn append(&mut self, level: u32, address: u64) -> Result<(), Refusal> {
        let list = *self.lists.get(level as usize).ok_or(Refusal::List)?;
        list.check_append(self.levels, level, address)?;
        let (word, bit) = self.bit(level, address);
        let kept = level as usize * self.words + list.end.div_ceil(64) as usize;
        if kept <= word {
            self.before[kept..=word].fill(list.size as u16);
        }
        self.bits[word] |= bit;
        self.lists[level as usize] = Extent {
            size: list.size + 1,
            end: address + 1,
        };
        Ok(())
    }

    #[inline]
    fn clear(&mut self, level: u32) -> Result<(), Refusal> {
        let list = self.lists.get_mut(level as usize).ok_or(Refusal::List)?;
        let used = list.end.div_ceil(64) as usize;
        *list = Extent::default();
        self.bits[level as usize * self.words..][..used].fill(0);
        Ok(())
    }
}

/// The place of a word's set bit, counted from 0 among those that are set. There must be such a bit.
#[inline]
fn set_bit(mut word: u64, mut number: u32) -> u32 {
    let mut place = 0;
    for half in [32, 16, 8, 4, 2, 1] {
        let low = (word & ((1 << half) - 1)).count_ones();
        if number >= low {
            number -= low;
            word >>= half;
            place += half;
        }
    }
    place
}

#[cfg(test)]
mod tests {
    use super::*;

    #[test]
    fn set_bits_are_found() {
        for word in [
            1,
            u64::MAX,
            1 << 63,
            0x8000_0001_0000_8001,
            0xdead_beef_0123_4567,
        ] {
            let places: Vec<u32> = (0..64).filter(|place| word >> place & 1 == 1).collect();
            let found: Vec<u32> = (0..places.len())
                .map(|number| set_bit(word, number as u32))
                .collect();
            assert_eq!(found, places);
        }
    }
}
