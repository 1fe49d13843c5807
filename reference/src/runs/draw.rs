//! What a run is drawn from: numbers that look random and are always the same for a seed.

/// A generator of the kind called splitmix64.
#[derive(Clone, Debug)]
pub(super) struct Draw(u64);

impl Draw {
    /// The generator for one run of a seed, whatever the number of runs.
    pub(super) fn new(seed: u64, run: u64) -> Self {
        let mut first = Draw(seed);
        Draw(first.next() ^ Draw(run).next().rotate_left(32))
    }

    pub(super) fn next(&mut self) -> u64 {
        self.0 = self.0.wrapping_add(0x9e37_79b9_7f4a_7c15);
        let mut z = self.0;
        z = (z ^ z >> 30).wrapping_mul(0xbf58_476d_1ce4_e5b9);
        z = (z ^ z >> 27).wrapping_mul(0x94d0_49bb_1331_11eb);
        z ^ z >> 31
    }

    /// A number below a bound.
    pub(super) fn below(&mut self, bound: u64) -> u64 {
        ((u128::from(self.next()) * u128::from(bound)) >> 64) as u64
    }

    /// A number between two bounds, both included.
    pub(super) fn between(&mut self, from: u64, to: u64) -> u64 {
        from + self.below(to - from + 1)
    }

    /// True so many times of a hundred.
    pub(super) fn percent(&mut self, times: u64) -> bool {
        self.below(100) < times
    }

    /// One of several.
    pub(super) fn of<T: Copy>(&mut self, several: &[T]) -> T {
        several[self.below(several.len() as u64) as usize]
    }

    /// So many bytes.
    pub(super) fn bytes(&mut self, count: u64) -> Vec<u8> {
        (0..count).map(|_| self.next() as u8).collect()
    }

    /// The numbers below a bound in some order.
    pub(super) fn permutation(&mut self, bound: u64) -> Vec<u16> {
        let mut numbers: Vec<u16> = (0..bound as u16).collect();
        for last in (1..numbers.len()).rev() {
            numbers.swap(last, self.below(last as u64 + 1) as usize);
        }
        numbers
    }
}

#[cfg(test)]
mod tests {
    use super::*;

    #[test]
    fn first_numbers_of_seed_0() {
        let mut draw = Draw(0);
        assert_eq!(draw.next(), 0xe220_a839_7b1d_cdaf);
        assert_eq!(draw.next(), 0x6e78_9e6a_a1b9_65f4);
        assert_eq!(draw.next(), 0x06c4_5d18_8009_454f);
    }

    #[test]
    fn permutations() {
        let mut draw = Draw::new(1, 2);
        for bound in [1, 2, 16, 100] {
            let mut numbers = draw.permutation(bound);
            numbers.sort_unstable();
            assert!(numbers.iter().map(|&n| u64::from(n)).eq(0..bound));
        }
    }
}
