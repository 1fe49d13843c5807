//! The rebuild.

use super::trace::{batch_slots, seat, Rounds, BATCH};
use super::{dummy_key, Client, Record, Shape, BUILT, LISTED};
use crate::client::Entry;
use crate::index::Index;
use crate::levels::{first_place, slots};
use crate::store::Store;
use crate::supply::Supply;

/// Whether an address is in the list of a level lower than this one.
#[inline]
fn is_below(index: &impl Index, level: u32, address: u64) -> bool {
    (0..level).any(|lower| index.has(lower, address))
}

impl<S: Store, I: Index, P: Supply> Client<S, I, P> {
    /// The rebuild after its checks. It answers the number of entries.
    pub(super) fn rebuild_level(&mut self, shape: Shape, trace: &mut [Entry]) -> usize {
        let build = self.build();
        let level = shape.levels.of_build(build);
        let size = self.unite_lists(shape, level);
        let entries = self.move_slots(shape, build, level, size, trace);
        for lower in 0..level {
            self.index.clear(lower).expect(LISTED);
            self.records[lower as usize] = Record::default();
        }
        self.records[level as usize] = Record {
            occupied: true,
            size,
            counter: size,
            build,
        };
        self.held.address = 0;
        self.held.payload.fill(0);
        self.working.fill(0);
        entries
    }

    /// Makes the new list of the level that a rebuild goes to, of the held address and those in lower lists, and
    /// answers its size. The highest level has no list: its size is the number of blocks.
    fn unite_lists(&mut self, shape: Shape, level: u32) -> u64 {
        let blocks = shape.levels.blocks();
        if level == shape.levels.highest() {
            return blocks;
        }
        for address in 0..blocks {
            if address == self.held.address || is_below(&self.index, level, address) {
                self.index.append(level, address).expect(LISTED);
            }
        }
        self.index.size(level).expect(LISTED)
    }

    /// Moves what is to be in the level into scratch, and from there to its destinations.
    fn move_slots(
        &mut self,
        shape: Shape,
        build: u64,
        level: u32,
        size: u64,
        trace: &mut [Entry],
    ) -> usize {
        let Client {
            store,
            index,
            supply,
            records,
            held,
            working,
            destinations,
            ..
        } = self;
        let (index, supply) = (&*index, &*supply);
        let highest = shape.levels.highest();
        let width = shape.width;
        let (kept, passing) = working.split_at_mut(BATCH as usize * width);

        let mut gather = Gather {
            rounds: Rounds::new(store, trace),
            supply,
            build,
            scratch: shape.levels.scratch(),
            destinations,
            gathered: 0,
            next_dummy: size,
        };
        // The index that a block has in the new level.
        let index_of = |address| {
            if level == highest {
                address
            } else {
                index.rank(level, address).expect(LISTED)
            }
        };

        gather.block(held.address, &held.payload, index_of(held.address));
        let own = (level == highest).then_some(highest);
        for from in (0..level).chain(own) {
            let record = records[from as usize];
            for slot in 0..slots(from) {
                let place = first_place(from) + slot;
                let old = supply.index(record.build, slot).expect(BUILT);
                if old < record.size {
                    let address = if from == highest {
                        old
                    } else {
                        index.member(from, old).expect(LISTED)
                    };
                    // A block that was asked for since has gone into a lower list, or is held.
                    if address != held.address && !is_below(index, from, address) {
                        gather.rounds.fetch(place, passing);
                        gather.block(address, passing, index_of(address));
                    }
                } else if old >= record.counter {
                    gather.rounds.fetch(place, passing);
                    gather.dummy(passing);
                }
            }
        }
        if level < highest {
            for _ in 0..slots(level) / 2 {
                gather.dummy(passing);
            }
        }

        let Gather {
            mut rounds,
            scratch,
            destinations,
            gathered,
            ..
        } = gather;
        let count = slots(level);
        debug_assert_eq!(gathered as u64, count);
        let destinations = &destinations[..gathered];
        let batch = batch_slots(count);
        let mut keys = [0; BATCH as usize];
        for number in 0..count / batch {
            for (place, &destination) in (scratch..).zip(destinations) {
                match seat(u64::from(destination), count) {
                    Some((at, seat)) if at == number => {
                        let seat = seat as usize;
                        keys[seat] = rounds.fetch(place, &mut kept[seat * width..][..width]);
                    }
                    _ => {
                        rounds.fetch(place, passing);
                    }
                }
            }
            let first = first_place(level) + number * batch;
            for (seat, place) in (first..first + batch).enumerate() {
                rounds.put(place, keys[seat], &kept[seat * width..][..width]);
            }
        }
        rounds.entries()
    }
}

/// The gathering of slots in scratch.
struct Gather<'a, S, P> {
    rounds: Rounds<'a, S>,
    supply: &'a P,
    build: u64,
    /// The place of the first scratch slot.
    scratch: u64,
    /// The destination of each slot gathered.
    destinations: &'a mut [u16],
    gathered: usize,
    /// The index that the next dummy takes.
    next_dummy: u64,
}

impl<S: Store, P: Supply> Gather<'_, S, P> {
    /// Puts a block into the next scratch slot, for the slot of its index in the new level.
    #[inline]
    fn block(&mut self, address: u64, payload: &[u8], index: u64) {
        self.put(address as u32, payload, index);
    }

    /// Puts a dummy there, with the next number, whatever number it may have had. `payload` is zeroed for it.
    #[inline]
    fn dummy(&mut self, payload: &mut [u8]) {
        payload.fill(0);
        let index = self.next_dummy;
        self.next_dummy += 1;
        self.put(dummy_key(index), payload, index);
    }

    #[inline]
    fn put(&mut self, key: u32, payload: &[u8], index: u64) {
        // A slot is below 2^13.
        let destination = self.supply.slot(self.build, index).expect(BUILT);
        self.destinations[self.gathered] = destination as u16;
        self.rounds
            .put(self.scratch + self.gathered as u64, key, payload);
        self.gathered += 1;
    }
}
