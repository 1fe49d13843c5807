//! Stores: slots at places from 0 on, each of a key and a payload, fetched and put in rounds.

pub mod joined;
pub mod memory;

pub use joined::Joined;
pub use memory::Memory;

use crate::refusal::Refusal;

/// The most places of a round.
pub const ROUND: usize = 13;

/// The most places of a store.
pub const MOST: u64 = 1_000_000;

/// A store.
///
/// A round is refused with [`Refusal::Round`] where it has no place or more than [`ROUND`], or not as many keys and
/// payloads as places; then with [`Refusal::BeyondStore`] where one of its places is not below the number of places.
/// A refused round changes nothing.
pub trait Store {
    /// The bytes of a payload.
    fn width(&self) -> usize;

    /// The number of places.
    fn places(&self) -> u64;

    /// How many places all rounds together had, modulo 2^64.
    fn served(&self) -> u64;

    /// What the store's rule has made of all rounds.
    ///
    /// Place by place in the order asked, it takes the trail and one number: four times the place, two more at the
    /// first place of a round, one more where the round is a put.
    fn trail(&self) -> u64;

    /// One round that reads the slots at `places` in their order. The slots stay as they are.
    fn fetch(
        &mut self,
        places: &[u64],
        keys: &mut [u32],
        payloads: &mut [u8],
    ) -> Result<(), Refusal>;

    /// One round that writes the slots at `places` in their order, so that of two to the same place the later stays.
    fn put(&mut self, places: &[u64], keys: &[u32], payloads: &[u8]) -> Result<(), Refusal>;
}

/// Served count and trail of the kinds here, whose rule makes 16,777,619 r + e modulo 2^64 of a trail r and a number e.
#[derive(Clone, Copy, Debug, Default, PartialEq, Eq)]
struct Ledger {
    served: u64,
    trail: u64,
}

impl Ledger {
    const FACTOR: u64 = 16_777_619;

    /// Takes down a round that was not refused.
    #[inline]
    fn round(&mut self, places: &[u64], write: bool) {
        self.served = self.served.wrapping_add(places.len() as u64);
        let mut first = 2;
        for place in places {
            let e = 4 * place + first + u64::from(write);
            self.trail = self.trail.wrapping_mul(Self::FACTOR).wrapping_add(e);
            first = 0;
        }
    }
}

/// The checks of a round, for a store of this width and this number of places.
#[inline]
fn check(
    width: usize,
    places: u64,
    asked: &[u64],
    keys: usize,
    payload_bytes: usize,
) -> Result<(), Refusal> {
    // Without overflow: a round too long is told before its bytes are reckoned.
    if !(1..=ROUND).contains(&asked.len())
        || keys != asked.len()
        || asked.len().checked_mul(width) != Some(payload_bytes)
    {
        Err(Refusal::Round)
    } else if asked.iter().any(|&place| place >= places) {
        Err(Refusal::BeyondStore)
    } else {
        Ok(())
    }
}

#[cfg(test)]
pub(crate) mod tests {
    use super::*;

    /// A look at a slot that the store does not take down.
    pub(crate) trait Look: Store {
        fn look(&self, place: u64) -> (u32, &[u8]);
    }

    impl Look for Memory {
        fn look(&self, place: u64) -> (u32, &[u8]) {
            self.slot(place).unwrap()
        }
    }

    impl<A: Look, B: Look> Look for Joined<A, B> {
        fn look(&self, place: u64) -> (u32, &[u8]) {
            match place.checked_sub(self.first().places()) {
                None => self.first().look(place),
                Some(place) => self.second().look(place),
            }
        }
    }

    /// All that a store means.
    pub(crate) fn meaning(store: &impl Look) -> (usize, Vec<(u32, Vec<u8>)>, u64, u64) {
        let slots = (0..store.places())
            .map(|place| store.look(place))
            .map(|(key, payload)| (key, payload.to_vec()))
            .collect();
        (store.width(), slots, store.served(), store.trail())
    }

    /// Asserts both refusals, their order, and that nothing changes. The store's width is at least 1.
    pub(crate) fn assert_refuses(store: &mut impl Look) {
        let before = meaning(store);
        let (width, beyond) = (store.width(), store.places());
        let mut refused = |places: &[u64], keys: usize, bytes: usize, refusal| {
            let (mut filled_keys, mut filled) = (vec![7; keys], vec![7; bytes]);
            assert_eq!(
                store.fetch(places, &mut filled_keys, &mut filled),
                Err(refusal)
            );
            assert!(
                filled_keys.iter().all(|&key| key == 7) && filled.iter().all(|&byte| byte == 7)
            );
            assert_eq!(store.put(places, &filled_keys, &filled), Err(refusal));
            assert_eq!(meaning(store), before);
        };
        refused(&[], 0, 0, Refusal::Round);
        refused(&[0; 14], 14, 14 * width, Refusal::Round);
        refused(&[0, 0], 1, 2 * width, Refusal::Round);
        refused(&[0, 0], 3, 2 * width, Refusal::Round);
        refused(&[0, 0], 2, 2 * width - 1, Refusal::Round);
        refused(&[0, 0], 2, 2 * width + 1, Refusal::Round);
        refused(&[beyond; 14], 14, 14 * width, Refusal::Round);
        refused(&[beyond], 2, width, Refusal::Round);
        refused(&[beyond], 1, width, Refusal::BeyondStore);
        refused(&[0, u64::MAX, 0], 3, 3 * width, Refusal::BeyondStore);
        refused(&[0, 1 << 32], 2, 2 * width, Refusal::BeyondStore);
    }

    #[test]
    fn ledger_goes_by_the_rule() {
        let mut ledger = Ledger::default();
        ledger.round(&[3, 5], true);
        // 4 · 3 + 2 + 1 = 15, then 4 · 5 + 1 = 21.
        assert_eq!(ledger.trail, 16_777_619 * 15 + 21);
        ledger.round(&[0], false);
        assert_eq!(ledger.trail, 16_777_619 * (16_777_619 * 15 + 21) + 2);
        assert_eq!(ledger.served, 3);
        let mut ledger = Ledger {
            served: u64::MAX,
            trail: u64::MAX,
        };
        ledger.round(&[1, 1], false);
        assert_eq!(ledger.served, 1);
        let wide = |r: u64, e: u128| ((16_777_619 * u128::from(r) + e) % (1 << 64)) as u64;
        assert_eq!(ledger.trail, wide(wide(u64::MAX, 6), 4));
    }
}
