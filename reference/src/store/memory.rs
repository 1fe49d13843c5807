//! The store in memory.

use super::{check, Ledger, Store, MOST};
use crate::refusal::Refusal;

/// The bytes of a key.
const KEY: usize = 4;

/// A store in memory handed over: slot after slot, each its key, little endian, and then its payload.
#[derive(Clone, Debug)]
pub struct Memory {
    bytes: Vec<u8>,
    width: usize,
    places: u64,
    ledger: Ledger,
}

impl Memory {
    /// The store of as many whole slots as fit into `bytes`, but of [`MOST`] at most. What is left over is not touched.
    pub fn new(bytes: Vec<u8>, width: usize) -> Self {
        let whole = width
            .checked_add(KEY)
            .map_or(0, |slot| (bytes.len() / slot) as u64);
        Memory {
            bytes,
            width,
            places: whole.min(MOST),
            ledger: Ledger::default(),
        }
    }

    /// The store of this number of slots that are all zero.
    pub fn zeroed(places: u64, width: usize) -> Self {
        Memory::new(vec![0; places as usize * (KEY + width)], width)
    }

    /// The slot at a place, if there is one; this is no round.
    pub fn slot(&self, place: u64) -> Option<(u32, &[u8])> {
        if place >= self.places {
            return None;
        }
        let (key, payload) = self.bytes[self.start(place)..][..KEY + self.width].split_at(KEY);
        Some((u32::from_le_bytes(key.try_into().ok()?), payload))
    }

    /// The memory, given back.
    pub fn into_bytes(self) -> Vec<u8> {
        self.bytes
    }

    /// Where a slot begins.
    #[inline]
    fn start(&self, place: u64) -> usize {
        place as usize * (KEY + self.width)
    }
}

impl Store for Memory {
    #[inline]
    fn width(&self) -> usize {
        self.width
    }

    #[inline]
    fn places(&self) -> u64 {
        self.places
    }

    #[inline]
    fn served(&self) -> u64 {
        self.ledger.served
    }

    #[inline]
    fn trail(&self) -> u64 {
        self.ledger.trail
    }

    #[inline]
    fn fetch(
        &mut self,
        places: &[u64],
        keys: &mut [u32],
        payloads: &mut [u8],
    ) -> Result<(), Refusal> {
        check(self.width, self.places, places, keys.len(), payloads.len())?;
        for (position, (&place, key)) in places.iter().zip(keys).enumerate() {
            let slot = &self.bytes[self.start(place)..][..KEY + self.width];
            *key = u32::from_le_bytes([slot[0], slot[1], slot[2], slot[3]]);
            payloads[position * self.width..][..self.width].copy_from_slice(&slot[KEY..]);
        }
        self.ledger.round(places, false);
        Ok(())
    }

    #[inline]
    fn put(&mut self, places: &[u64], keys: &[u32], payloads: &[u8]) -> Result<(), Refusal> {
        check(self.width, self.places, places, keys.len(), payloads.len())?;
        for (position, (&place, key)) in places.iter().zip(keys).enumerate() {
            let start = self.start(place);
            let slot = &mut self.bytes[start..][..KEY + self.width];
            slot[..KEY].copy_from_slice(&key.to_le_bytes());
            slot[KEY..].copy_from_slice(&payloads[position * self.width..][..self.width]);
        }
        self.ledger.round(places, true);
        Ok(())
    }
}

#[cfg(test)]
mod tests {
    use super::super::tests::{assert_refuses, meaning};
    use super::*;

    #[test]
    fn whole_slots_that_fit() {
        let places = |bytes, width| Memory::new(vec![0; bytes], width).places();
        assert_eq!(places(0, 1), 0);
        assert_eq!(places(4, 1), 0);
        assert_eq!(places(5, 1), 1);
        assert_eq!(places(9, 1), 1);
        assert_eq!(places(10, 1), 2);
        assert_eq!(places(12, 0), 3);
        assert_eq!(places(12, usize::MAX), 0);
        assert_eq!(places(12, usize::MAX - 4), 0);
        assert_eq!(places(5_000_000, 1), 1_000_000);
        assert_eq!(places(5_000_005, 1), 1_000_000);
    }

    #[test]
    fn key_comes_first_little_endian() {
        let bytes = vec![1, 2, 3, 4, 5, 6, 0, 0, 1, 0, 7, 8, 9];
        let mut store = Memory::new(bytes, 2);
        assert_eq!(store.places(), 2);
        let (mut keys, mut payloads) = ([0; 3], [0; 6]);
        store.fetch(&[1, 0, 1], &mut keys, &mut payloads).unwrap();
        assert_eq!(keys, [65536, 0x04030201, 65536]);
        assert_eq!(payloads, [7, 8, 5, 6, 7, 8]);
        store.put(&[0], &[0x0a0b0c0d], &[14, 15]).unwrap();
        assert_eq!(
            store.into_bytes(),
            [13, 12, 11, 10, 14, 15, 0, 0, 1, 0, 7, 8, 9]
        );
    }

    #[test]
    fn later_put_wins_and_a_fetch_changes_no_slot() {
        let mut store = Memory::zeroed(3, 1);
        store.put(&[2, 0, 2], &[1, 2, 3], &[4, 5, 6]).unwrap();
        let slots = vec![(2, vec![5]), (0, vec![0]), (3, vec![6])];
        let trail = [11, 1, 9].iter().fold(0u64, |r, e| {
            r.wrapping_mul(16_777_619).wrapping_add(*e as u64)
        });
        assert_eq!(meaning(&store), (1, slots.clone(), 3, trail));
        store.fetch(&[1, 2], &mut [0; 2], &mut [0; 2]).unwrap();
        let trail = [6, 8].iter().fold(trail, |r, e| {
            r.wrapping_mul(16_777_619).wrapping_add(*e as u64)
        });
        assert_eq!(meaning(&store), (1, slots, 5, trail));
        assert_eq!(store.slot(3), None);
    }

    #[test]
    fn refusals() {
        assert_refuses(&mut Memory::new((0..62).collect(), 2));
    }
}
