//! The keyed supply: each permutation is a Feistel network over the bits of an index, with ChaCha20 as round function.

use super::{Extent, Supply};
use crate::chacha20::{self, Key};
use crate::levels::Levels;
use crate::refusal::Refusal;

/// K, the number of builds of a keyed supply.
pub const BUILDS: u64 = 1_000_000;

/// The number of rounds.
const ROUNDS: u32 = 8;

/// A supply whose permutations come from a key.
#[derive(Clone, Debug)]
pub struct Keyed {
    key: Key,
    levels: Levels,
}

impl Keyed {
    /// The supply of a key.
    pub fn new(key: Key, levels: Levels) -> Self {
        Keyed { key, levels }
    }
}

impl Supply for Keyed {
    fn extent(&self) -> Extent {
        Extent {
            levels: self.levels,
            builds: BUILDS,
        }
    }

    #[inline]
    fn slot(&self, build: u64, index: u64) -> Result<u64, Refusal> {
        let network = Network::of(self, build, index)?;
        Ok((0..ROUNDS)
            .fold(Halves::of(index, network.level), |halves, round| {
                network.round(halves, round)
            })
            .join())
    }

    #[inline]
    fn index(&self, build: u64, slot: u64) -> Result<u64, Refusal> {
        let network = Network::of(self, build, slot)?;
        Ok((0..ROUNDS)
            .rev()
            .fold(Halves::of(slot, network.level), |halves, round| {
                network.round(halves, round)
            })
            .join())
    }
}

/// The network of one build.
struct Network<'a> {
    key: &'a Key,
    build: u32,
    level: u32,
}

impl<'a> Network<'a> {
    /// The network for a question; refused where the question is beyond the supply.
    #[inline]
    fn of(supply: &'a Keyed, build: u64, place: u64) -> Result<Self, Refusal> {
        let level = supply.extent().level(build, place)?;
        // Within the supply a build is below K, which is far below 2^32.
        Ok(Network {
            key: &supply.key,
            build: build as u32,
            level,
        })
    }

    /// One round, which undoes itself.
    #[inline]
    fn round(&self, mut halves: Halves, round: u32) -> Halves {
        if round.is_multiple_of(2) {
            halves.left ^= self.word(halves.right, round) & low_bits(halves.left_bits);
        } else {
            halves.right ^= self.word(halves.left, round) & low_bits(halves.right_bits);
        }
        halves
    }

    /// What the round function has for the half that a round leaves alone, not yet cut to the other half's bits.
    #[inline]
    fn word(&self, half: u32, round: u32) -> u32 {
        chacha20::block(self.key, half, [self.build, self.level, round])[0]
    }
}

/// The two halves of a number of `left_bits + right_bits` bits. The right one may be empty, and is then 0.
#[derive(Clone, Copy)]
struct Halves {
    left: u32,
    right: u32,
    left_bits: u32,
    right_bits: u32,
}

impl Halves {
    /// The halves of a place in a level. A place is below 2^13.
    #[inline]
    fn of(place: u64, level: u32) -> Self {
        let bits = level + 1;
        let right_bits = bits / 2;
        let place = place as u32;
        Halves {
            left: place >> right_bits,
            right: place & low_bits(right_bits),
            left_bits: bits - right_bits,
            right_bits,
        }
    }

    #[inline]
    fn join(self) -> u64 {
        u64::from(self.left << self.right_bits | self.right)
    }
}

/// The number whose low `count` bits are set, for a count below 32.
#[inline]
fn low_bits(count: u32) -> u32 {
    (1 << count) - 1
}

#[cfg(test)]
mod tests {
    use super::super::tests::{assert_builds_end, assert_ends, assert_permutes};
    use super::*;
    use crate::levels::{slots, MOST};

    fn keyed(bytes: [u8; 32], l: u32) -> Keyed {
        Keyed::new(Key::new(&bytes), Levels::new(u64::from(l)).unwrap())
    }

    fn counting(l: u32) -> Keyed {
        keyed(std::array::from_fn(|i| i as u8), l)
    }

    fn all_slots(supply: &Keyed, build: u64) -> Vec<u64> {
        (0..slots(supply.levels.of_build(build)))
            .map(|index| supply.slot(build, index).unwrap())
            .collect()
    }

    #[test]
    fn every_level_is_permuted() {
        for bytes in [[0; 32], [255; 32], std::array::from_fn(|i| i as u8)] {
            let supply = keyed(bytes, MOST);
            assert_permutes(&supply, 0);
            for level in 0..=MOST {
                assert_permutes(&supply, 1 << level);
                assert_permutes(&supply, 3 << level);
            }
            assert_permutes(&supply, BUILDS - 1);
        }
    }

    #[test]
    fn every_l_has_builds_at_its_highest_level() {
        for l in 1..=MOST {
            let supply = counting(l);
            assert_permutes(&supply, 0);
            assert_permutes(&supply, 1 << l);
            assert_permutes(&supply, 2 << l);
            assert_ends(&supply, 0);
            assert_ends(&supply, 1);
            assert_ends(&supply, 1 << l);
            assert_builds_end(&supply);
        }
    }

    #[test]
    fn halves_are_high_and_low_bits() {
        for (level, left_bits, right_bits) in [
            (0, 1, 0),
            (1, 1, 1),
            (2, 2, 1),
            (3, 2, 2),
            (11, 6, 6),
            (12, 7, 6),
        ] {
            let halves = Halves::of(slots(level) - 1, level);
            assert_eq!(
                (halves.left_bits, halves.right_bits),
                (left_bits, right_bits)
            );
            assert_eq!(
                (halves.left, halves.right),
                (low_bits(left_bits), low_bits(right_bits))
            );
        }
        let halves = Halves::of(0x53 << 6 | 0x0d, 12);
        assert_eq!((halves.left, halves.right), (0x53, 0x0d));
        assert_eq!(halves.join(), 0x53 << 6 | 0x0d);
    }

    /// Level 0 has a single bit: four rounds change it by the lowest bit of a block's word 0, and four do nothing.
    #[test]
    fn single_bit_is_changed_by_even_rounds() {
        let supply = counting(1);
        for build in (1..200).step_by(2).chain([BUILDS - 1]) {
            let change = [0, 2, 4, 6].into_iter().fold(0, |sum, round| {
                sum ^ chacha20::block(&supply.key, 0, [build as u32, 0, round])[0] & 1
            });
            assert_eq!(
                all_slots(&supply, build),
                [u64::from(change), u64::from(1 ^ change)]
            );
        }
    }

    /// The rounds of level 2 written out: three bits, of which the left half has two.
    #[test]
    fn three_bits_written_out() {
        let supply = counting(5);
        let build = 4;
        let f = |counter: u32, round: u32| chacha20::block(&supply.key, counter, [4, 2, round])[0];
        for index in 0..8 {
            let (mut left, mut right) = (index >> 1, index & 1);
            left ^= f(right, 0) & 3;
            right ^= f(left, 1) & 1;
            left ^= f(right, 2) & 3;
            right ^= f(left, 3) & 1;
            left ^= f(right, 4) & 3;
            right ^= f(left, 5) & 1;
            left ^= f(right, 6) & 3;
            right ^= f(left, 7) & 1;
            assert_eq!(
                supply.slot(build, u64::from(index)),
                Ok(u64::from(2 * left + right))
            );
        }
    }

    #[test]
    fn key_build_and_level_matter_but_l_does_not() {
        let supply = counting(MOST);
        assert_ne!(
            all_slots(&supply, 1 << 7),
            all_slots(&keyed([0; 32], MOST), 1 << 7)
        );
        assert_ne!(all_slots(&supply, 1 << 7), all_slots(&supply, 3 << 7));
        // The same build at the same level, under another L.
        assert_eq!(all_slots(&supply, 1 << 7), all_slots(&counting(9), 1 << 7));
        assert_eq!(all_slots(&supply, 1 << 7), all_slots(&counting(7), 1 << 7));
        // The same build at another level: not the same network cut short.
        let lower = all_slots(&counting(6), 1 << 7);
        assert_ne!(lower, all_slots(&supply, 1 << 7)[..lower.len()]);
    }

    #[test]
    fn key_is_not_shown() {
        assert!(format!("{:?}", counting(1)).contains("key: Key(..)"));
    }
}
