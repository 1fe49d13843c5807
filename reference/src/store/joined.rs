//! Two stores end to end.

use super::{check, Ledger, Store, MOST, ROUND};
use crate::refusal::Refusal;

/// Two stores end to end, the first's places first.
///
/// A round has at most one round of each part for it. Count and trail are its own, of its own rounds and places. Parts
/// of unequal widths, or with more than [`MOST`] places together, make a store of width 0 without places.
#[derive(Clone, Debug)]
pub struct Joined<A, B> {
    first: A,
    second: B,
    width: usize,
    places: u64,
    ledger: Ledger,
    /// Payloads on their way from or to one part, in a round that has places in both.
    passing: Vec<u8>,
}

impl<A: Store, B: Store> Joined<A, B> {
    /// The two stores end to end.
    pub fn new(first: A, second: B) -> Self {
        let sum = first.places().checked_add(second.places());
        let (width, places) = match sum {
            Some(places) if places <= MOST && first.width() == second.width() => {
                (first.width(), places)
            }
            _ => (0, 0),
        };
        Joined {
            first,
            second,
            width,
            places,
            ledger: Ledger::default(),
            // Without places no round ever passes, whatever the width.
            passing: vec![0; if places == 0 { 0 } else { ROUND * width }],
        }
    }

    /// The part whose places come first.
    pub fn first(&self) -> &A {
        &self.first
    }

    /// The part whose places come last.
    pub fn second(&self) -> &B {
        &self.second
    }

    /// Both parts, given back.
    pub fn into_parts(self) -> (A, B) {
        (self.first, self.second)
    }
}

/// Why the answer of a part is not looked at: the round was checked against both.
const CHECKED: &str = "a part refuses no round that fits the whole";

/// The places of a round that one part has, as its own places, and their positions in the round.
struct Share {
    places: [u64; ROUND],
    positions: [usize; ROUND],
    count: usize,
}

impl Share {
    /// The share of the part whose places are those from `from` to below `to`.
    fn of(round: &[u64], from: u64, to: u64) -> Self {
        let mut share = Share {
            places: [0; ROUND],
            positions: [0; ROUND],
            count: 0,
        };
        for (position, &place) in round.iter().enumerate() {
            if (from..to).contains(&place) {
                share.places[share.count] = place - from;
                share.positions[share.count] = position;
                share.count += 1;
            }
        }
        share
    }

    fn places(&self) -> &[u64] {
        &self.places[..self.count]
    }

    fn positions(&self) -> impl Iterator<Item = (usize, usize)> + '_ {
        self.positions[..self.count].iter().copied().enumerate()
    }

    /// The part's round for a fetch.
    fn fetch(
        &self,
        part: &mut impl Store,
        width: usize,
        passing: &mut [u8],
        keys: &mut [u32],
        payloads: &mut [u8],
    ) {
        let mut passing_keys = [0; ROUND];
        let passing_keys = &mut passing_keys[..self.count];
        let passing = &mut passing[..self.count * width];
        part.fetch(self.places(), passing_keys, passing)
            .expect(CHECKED);
        for (own, position) in self.positions() {
            keys[position] = passing_keys[own];
            payloads[position * width..][..width].copy_from_slice(&passing[own * width..][..width]);
        }
        passing.fill(0);
    }

    /// The part's round for a put.
    fn put(
        &self,
        part: &mut impl Store,
        width: usize,
        passing: &mut [u8],
        keys: &[u32],
        payloads: &[u8],
    ) {
        let mut passing_keys = [0; ROUND];
        let passing_keys = &mut passing_keys[..self.count];
        let passing = &mut passing[..self.count * width];
        for (own, position) in self.positions() {
            passing_keys[own] = keys[position];
            passing[own * width..][..width].copy_from_slice(&payloads[position * width..][..width]);
        }
        part.put(self.places(), passing_keys, passing)
            .expect(CHECKED);
        passing.fill(0);
    }
}

/// Which parts have the places of a round.
enum Where {
    First,
    /// With the places as the second part's own.
    Second([u64; ROUND]),
    Both,
}

impl Where {
    /// For a round that is not too long, and a second part from `middle` on.
    #[inline]
    fn of(round: &[u64], middle: u64) -> Self {
        if round.iter().all(|&place| place < middle) {
            Where::First
        } else if round.iter().all(|&place| place >= middle) {
            let mut own = [0; ROUND];
            for (own, place) in own.iter_mut().zip(round) {
                *own = place - middle;
            }
            Where::Second(own)
        } else {
            Where::Both
        }
    }
}

impl<A: Store, B: Store> Store for Joined<A, B> {
    #[inline]
    fn width(&self) -> usize {
        self.width
    }

    #[inline]
    fn places(&self) -> u64 {
        self.places
    }

    #[inline]
    fn served(&self) -> u64 {
        self.ledger.served
    }

    #[inline]
    fn trail(&self) -> u64 {
        self.ledger.trail
    }

    #[inline]
    fn fetch(
        &mut self,
        places: &[u64],
        keys: &mut [u32],
        payloads: &mut [u8],
    ) -> Result<(), Refusal> {
        check(self.width, self.places, places, keys.len(), payloads.len())?;
        let (first, second) = (&mut self.first, &mut self.second);
        let (middle, end) = (first.places(), self.places);
        match Where::of(places, middle) {
            Where::First => first.fetch(places, keys, payloads).expect(CHECKED),
            Where::Second(own) => {
                let own = &own[..places.len()];
                second.fetch(own, keys, payloads).expect(CHECKED);
            }
            Where::Both => {
                let (width, passing) = (self.width, &mut self.passing);
                Share::of(places, 0, middle).fetch(first, width, passing, keys, payloads);
                Share::of(places, middle, end).fetch(second, width, passing, keys, payloads);
            }
        }
        self.ledger.round(places, false);
        Ok(())
    }

    #[inline]
    fn put(&mut self, places: &[u64], keys: &[u32], payloads: &[u8]) -> Result<(), Refusal> {
        check(self.width, self.places, places, keys.len(), payloads.len())?;
        let (first, second) = (&mut self.first, &mut self.second);
        let (middle, end) = (first.places(), self.places);
        match Where::of(places, middle) {
            Where::First => first.put(places, keys, payloads).expect(CHECKED),
            Where::Second(own) => {
                let own = &own[..places.len()];
                second.put(own, keys, payloads).expect(CHECKED);
            }
            Where::Both => {
                let (width, passing) = (self.width, &mut self.passing);
                Share::of(places, 0, middle).put(first, width, passing, keys, payloads);
                Share::of(places, middle, end).put(second, width, passing, keys, payloads);
            }
        }
        self.ledger.round(places, true);
        Ok(())
    }
}

#[cfg(test)]
mod tests {
    use super::super::tests::{assert_refuses, meaning};
    use super::super::Memory;
    use super::*;

    /// A store that counts its rounds.
    struct Counting(Memory, u64);

    impl Store for Counting {
        fn width(&self) -> usize {
            self.0.width()
        }

        fn places(&self) -> u64 {
            self.0.places()
        }

        fn served(&self) -> u64 {
            self.0.served()
        }

        fn trail(&self) -> u64 {
            self.0.trail()
        }

        fn fetch(
            &mut self,
            places: &[u64],
            keys: &mut [u32],
            payloads: &mut [u8],
        ) -> Result<(), Refusal> {
            self.1 += 1;
            self.0.fetch(places, keys, payloads)
        }

        fn put(&mut self, places: &[u64], keys: &[u32], payloads: &[u8]) -> Result<(), Refusal> {
            self.1 += 1;
            self.0.put(places, keys, payloads)
        }
    }

    /// A store of memory of counting bytes.
    fn memory(places: usize, width: usize) -> Memory {
        let bytes = (0..places * (4 + width)).map(|i| i as u8).collect();
        Memory::new(bytes, width)
    }

    #[test]
    fn as_one_store_of_all_places() {
        let mut state = 1u64;
        let mut below = |bound: u64| {
            state = state
                .wrapping_mul(6_364_136_223_846_793_005)
                .wrapping_add(1);
            (state >> 33) % bound
        };
        for (a, b) in [(5, 4), (1, 8), (8, 1), (0, 9), (9, 0)] {
            let mut joined = Joined::new(memory(a, 3), Joined::new(memory(b, 3), memory(2, 3)));
            let mut one = Memory::zeroed(a as u64 + b as u64 + 2, 3);
            let (mut keys, mut payloads) = ([0; ROUND], [0; 3 * ROUND]);
            for place in 0..one.places() {
                joined
                    .fetch(&[place], &mut keys[..1], &mut payloads[..3])
                    .unwrap();
                one.put(&[place], &keys[..1], &payloads[..3]).unwrap();
            }
            let mut one = Memory::new(one.into_bytes(), 3);
            let (first, second) = joined.into_parts();
            let mut joined = Joined::new(first, second);
            assert_eq!(meaning(&joined), meaning(&one));
            for _ in 0..200 {
                let count = 1 + below(13) as usize;
                let places: Vec<u64> = (0..count).map(|_| below(11)).collect();
                let (keys, payloads) = (&mut keys[..count], &mut payloads[..3 * count]);
                if below(2) == 0 {
                    let mut other = (vec![0; count], vec![0; 3 * count]);
                    joined.fetch(&places, keys, payloads).unwrap();
                    one.fetch(&places, &mut other.0, &mut other.1).unwrap();
                    assert_eq!((&keys[..], &payloads[..]), (&other.0[..], &other.1[..]));
                } else {
                    keys.fill_with(|| below(1 << 31) as u32);
                    payloads.fill_with(|| below(256) as u8);
                    joined.put(&places, keys, payloads).unwrap();
                    one.put(&places, keys, payloads).unwrap();
                }
                assert_eq!(meaning(&joined), meaning(&one));
            }
        }
    }

    #[test]
    fn at_most_one_round_of_each_part() {
        let part = |places| Counting(memory(places, 1), 0);
        let mut joined = Joined::new(part(3), part(3));
        for (places, first, second) in [
            (&[0, 1, 2][..], 1, 0),
            (&[3, 5], 1, 1),
            (&[0, 3, 1, 4, 2, 5, 0, 3], 2, 2),
            (&[5, 0], 3, 3),
        ] {
            let (mut keys, mut payloads) = (vec![0; places.len()], vec![0; places.len()]);
            joined.fetch(places, &mut keys, &mut payloads).unwrap();
            joined.put(places, &keys, &payloads).unwrap();
            assert_eq!((joined.first.1, joined.second.1), (2 * first, 2 * second));
        }
        assert_eq!(
            joined.first.served() + joined.second.served(),
            joined.served()
        );
    }

    #[test]
    fn unfit_parts() {
        let unfit = |joined: &dyn Store| (joined.width(), joined.places()) == (0, 0);
        assert!(unfit(&Joined::new(memory(3, 1), memory(3, 2))));
        assert!(unfit(&Joined::new(memory(0, 1), memory(0, 2))));
        assert!(unfit(&Joined::new(
            Memory::zeroed(999_999, 1),
            Memory::zeroed(2, 1)
        )));
        let joined = Joined::new(Memory::zeroed(999_999, 1), Memory::zeroed(1, 1));
        assert_eq!((joined.width(), joined.places()), (1, 1_000_000));
        let mut joined = Joined::new(memory(3, 1), memory(3, 2));
        assert_eq!(joined.fetch(&[0], &mut [0], &mut [0]), Err(Refusal::Round));
        assert_eq!(
            joined.fetch(&[0], &mut [0], &mut []),
            Err(Refusal::BeyondStore)
        );
        assert_eq!(joined.put(&[0], &[0], &[]), Err(Refusal::BeyondStore));
    }

    #[test]
    fn refusals() {
        assert_refuses(&mut Joined::new(memory(4, 2), memory(7, 2)));
    }
}
