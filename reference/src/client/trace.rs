//! Traces: what a call asked its store for, place by place.

use crate::levels::{slots, Levels};
use crate::store::Store;

/// One place of one round.
///
/// A call writes its entries from the start of the trace brought, answers their number, and leaves the rest.
#[derive(Clone, Copy, Debug, Default, PartialEq, Eq)]
pub struct Entry {
    /// Whether the round begins here.
    pub begins: bool,
    /// Whether the round is a put.
    pub write: bool,
    /// The place.
    pub place: u32,
}

/// How many entries a load has: one for each slot of the highest level.
#[inline]
pub fn load_entries(levels: Levels) -> u64 {
    slots(levels.highest())
}

/// How many entries the rebuild of a build has.
#[inline]
pub fn rebuild_entries(levels: Levels, build: u64) -> u64 {
    let level = levels.of_build(build);
    let count = slots(level);
    // Into scratch: the held block is only written. Of every level below, half the slots are read and written, which
    // makes one slot less than half the level has. As many again and one more are fresh and only written, or at the
    // highest level are its own untouched slots and read too.
    let half = count / 2;
    let others = if level < levels.highest() {
        half
    } else {
        2 * half
    };
    let gather = 1 + 2 * (half - 1) + others;
    // Out of scratch: all of it for each batch, and then each slot once.
    gather + count * (count / batch_slots(count)) + count
}

/// The most entries of any call.
pub fn most_entries(levels: Levels) -> u64 {
    rebuild_entries(levels, 0)
}

/// The most slots that are filled at a time.
pub const BATCH: u64 = 64;

/// How many slots of a level are filled at a time: all of a small level.
#[inline]
pub fn batch_slots(count: u64) -> u64 {
    count.min(BATCH)
}

/// The batch in which a destination is filled, and its seat there, for a level of `count` slots.
#[inline]
pub fn seat(destination: u64, count: u64) -> Option<(u64, u64)> {
    if destination >= count {
        return None;
    }
    // Both numbers of slots are powers of two.
    let size = batch_slots(count);
    Some((
        destination >> size.trailing_zeros(),
        destination & (size - 1),
    ))
}

/// The rounds of a call, made and taken down. The trace must have room for them.
pub(super) struct Rounds<'a, S> {
    store: &'a mut S,
    trace: &'a mut [Entry],
    written: usize,
}

/// Why a store's answer is not looked at: the store was checked at the opening, and rounds are made to fit it.
const FITS: &str = "a store refuses no round that fits it";

impl<'a, S: Store> Rounds<'a, S> {
    #[inline]
    pub(super) fn new(store: &'a mut S, trace: &'a mut [Entry]) -> Self {
        Rounds {
            store,
            trace,
            written: 0,
        }
    }

    /// The number of entries so far.
    #[inline]
    pub(super) fn entries(&self) -> usize {
        self.written
    }

    /// A round that reads several slots.
    #[inline]
    pub(super) fn fetch_all(&mut self, places: &[u64], keys: &mut [u32], payloads: &mut [u8]) {
        self.store.fetch(places, keys, payloads).expect(FITS);
        let mut begins = true;
        for &place in places {
            self.enter(begins, false, place);
            begins = false;
        }
    }

    /// A round that reads one slot, and answers its key.
    #[inline]
    pub(super) fn fetch(&mut self, place: u64, payload: &mut [u8]) -> u32 {
        let mut key = [0];
        self.store.fetch(&[place], &mut key, payload).expect(FITS);
        self.enter(true, false, place);
        key[0]
    }

    /// A round that writes one slot.
    #[inline]
    pub(super) fn put(&mut self, place: u64, key: u32, payload: &[u8]) {
        self.store.put(&[place], &[key], payload).expect(FITS);
        self.enter(true, true, place);
    }

    #[inline]
    fn enter(&mut self, begins: bool, write: bool, place: u64) {
        self.trace[self.written] = Entry {
            begins,
            write,
            place: place as u32,
        };
        self.written += 1;
    }
}

#[cfg(test)]
mod tests {
    use super::*;

    #[test]
    fn seats() {
        assert_eq!(seat(70, 128), Some((1, 6)));
        assert_eq!(seat(3, 4), Some((0, 3)));
        for level in 0..=12 {
            let count = slots(level);
            let batch = count.min(64);
            for destination in 0..count {
                let (number, seat) = seat(destination, count).unwrap();
                assert!(seat < batch);
                assert_eq!(number * batch + seat, destination);
            }
            for destination in [count, count + 1, u64::MAX] {
                assert_eq!(seat(destination, count), None);
            }
        }
    }

    #[test]
    fn numbers_of_entries() {
        let levels = Levels::new(2).unwrap();
        assert_eq!(load_entries(levels), 8);
        let rebuilds = [1, 2, 3, 4, 5, 8].map(|build| rebuild_entries(levels, build));
        assert_eq!(rebuilds, [6, 13, 6, 31, 6, 31]);
        for l in 1..=12 {
            let levels = Levels::new(l).unwrap();
            let most = (0..=1 << l)
                .map(|build| rebuild_entries(levels, build))
                .max();
            assert_eq!(most, Some(most_entries(levels)));
            assert!(load_entries(levels) <= most_entries(levels));
        }
    }
}
