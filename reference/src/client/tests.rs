use std::collections::{BTreeSet, HashSet};

use super::*;
use crate::chacha20::Key;
use crate::index::{Bitmap, Gaps};
use crate::store::tests::Look;
use crate::store::{Joined, Memory};
use crate::supply::{Extent, Keyed, Straight, Table};

/// A small generator of its own for each test.
struct Random(u64);

impl Random {
    fn below(&mut self, bound: u64) -> u64 {
        self.0 = self
            .0
            .wrapping_mul(6_364_136_223_846_793_005)
            .wrapping_add(1_442_695_040_888_963_407);
        (self.0 >> 33) % bound
    }

    fn bytes(&mut self, count: usize) -> Vec<u8> {
        (0..count).map(|_| self.below(256) as u8).collect()
    }
}

fn levels(l: u64) -> Levels {
    Levels::new(l).unwrap()
}

fn straight(l: u64, builds: u64) -> Straight {
    Straight::new(Extent {
        levels: levels(l),
        builds,
    })
}

fn keyed(l: u64) -> Keyed {
    Keyed::new(Key::new(&[l as u8; 32]), levels(l))
}

fn table(l: u64, builds: u64, random: &mut Random) -> Table {
    let mut all = Vec::new();
    for build in 0..builds {
        let count = slots(levels(l).of_build(build));
        let mut part: Vec<u16> = (0..count as u16).collect();
        for last in (1..part.len()).rev() {
            part.swap(last, random.below(last as u64 + 1) as usize);
        }
        all.extend(part);
    }
    let extent = Extent {
        levels: levels(l),
        builds,
    };
    Table::new(extent, all).unwrap()
}

fn memory(l: u64, w: usize) -> Memory {
    Memory::zeroed(levels(l).places(), w)
}

/// Two parts, of which the first ends in the middle of some level.
fn joined(l: u64, w: usize, random: &mut Random) -> Joined<Memory, Memory> {
    let places = levels(l).places();
    let first = random.below(places + 1);
    Joined::new(Memory::zeroed(first, w), Memory::zeroed(places - first, w))
}

/// An entry that no call writes.
const UNTOUCHED: Entry = Entry {
    begins: true,
    write: true,
    place: u32::MAX,
};

/// What the rules say a client should be, kept by sets and plain copies, and by the supply alone.
struct Model<'a, S, I, P> {
    client: &'a mut Client<S, I, P>,
    levels: Levels,
    width: usize,
    random: Random,
    blocks: Vec<Vec<u8>>,
    lists: Vec<BTreeSet<u64>>,
    /// The last build of each level, if it is occupied.
    builds: Vec<Option<u64>>,
    /// The slots asked since their level was built.
    asked: HashSet<u64>,
    accesses: u64,
    served: u64,
    trail: u64,
}

impl<S: Look, I: Index, P: Supply> Model<'_, S, I, P> {
    /// The entries that a call wrote: there must be as many as was said, and no more.
    fn take(&mut self, trace: &[Entry], entries: usize) -> Vec<Entry> {
        assert!(trace[entries..].iter().all(|entry| *entry == UNTOUCHED));
        let entries = trace[..entries].to_vec();
        for entry in &entries {
            let e =
                4 * u64::from(entry.place) + 2 * u64::from(entry.begins) + u64::from(entry.write);
            self.trail = self.trail.wrapping_mul(16_777_619).wrapping_add(e);
            self.served += 1;
        }
        assert_eq!(self.client.store().served(), self.served);
        assert_eq!(self.client.store().trail(), self.trail);
        assert!(self.client.working.iter().all(|&byte| byte == 0));
        entries
    }

    fn load(&mut self, unloaded: Unloaded) -> Resting {
        let highest = self.levels.highest();
        let mut trace = vec![UNTOUCHED; load_entries(self.levels) as usize + 2];
        let (resting, entries) = self
            .client
            .load(unloaded, &self.blocks.concat(), &mut trace)
            .unwrap();
        let expected: Vec<Entry> = (0..slots(highest))
            .map(|slot| Entry {
                begins: true,
                write: true,
                place: (first_place(highest) + slot) as u32,
            })
            .collect();
        assert_eq!(self.take(&trace, entries), expected);
        self.builds[highest as usize] = Some(0);
        self.assert_stands(None);
        resting
    }

    fn access(&mut self, resting: Resting) -> (Due, u64) {
        let highest = self.levels.highest();
        let address = self.random.below(self.levels.blocks());
        let operation = self.random.below(2);
        let brought = self.random.bytes(self.width);
        let mut bytes = brought.clone();
        let room = self.client.access_entries() + self.random.below(3);
        let mut trace = vec![UNTOUCHED; room as usize];
        let (due, entries) = self
            .client
            .access(resting, operation, address, &mut bytes, &mut trace)
            .unwrap();
        if operation == 1 {
            assert_eq!(bytes, brought);
            self.blocks[address as usize] = brought;
        } else {
            assert_eq!(bytes, self.blocks[address as usize]);
        }
        let entries = self.take(&trace, entries);

        // One round, with one slot of every level that is occupied, lowest first, and none that was asked before.
        let c = self.accesses % self.levels.blocks();
        let occupied: Vec<u32> = (0..=highest)
            .filter(|&level| level == highest || c >> level & 1 == 1)
            .collect();
        assert_eq!(entries.len(), occupied.len());
        for (position, (entry, &level)) in entries.iter().zip(&occupied).enumerate() {
            assert_eq!((entry.begins, entry.write), (position == 0, false));
            let place = u64::from(entry.place);
            let first = first_place(level);
            assert!((first..first + slots(level)).contains(&place));
            assert!(self.asked.insert(place));
        }
        // At the block's level it is the block's own slot, and nowhere else any block's.
        let found = (0..highest)
            .find(|&level| self.lists[level as usize].contains(&address))
            .unwrap_or(highest);
        for (entry, &level) in entries.iter().zip(&occupied) {
            let build = self.builds[level as usize].unwrap();
            let slot = u64::from(entry.place) - first_place(level);
            let index = self.client.supply().index(build, slot).unwrap();
            if level == found {
                assert_eq!(index, self.rank(level, address));
            } else {
                assert!(index >= self.size(level));
            }
        }
        self.accesses += 1;
        assert_eq!(self.client.held.address, address);
        assert_eq!(self.client.held.payload, self.blocks[address as usize]);
        self.assert_stands(Some(address));
        (due, address)
    }

    fn rebuild(&mut self, due: Due, held: u64) -> Resting {
        let build = due.build();
        assert_eq!(build, self.accesses);
        let level = self.levels.of_build(build);
        let expected = self.expected_rebuild(build, level);
        let room = rebuild_entries(self.levels, build) + self.random.below(3);
        let mut trace = vec![UNTOUCHED; room as usize];
        let (resting, entries) = self.client.rebuild(due, &mut trace).unwrap();
        assert_eq!(self.take(&trace, entries), expected);

        let mut union: BTreeSet<u64> = [held].into();
        for lower in 0..level as usize {
            union.append(&mut self.lists[lower]);
            self.builds[lower] = None;
        }
        if level < self.levels.highest() {
            self.lists[level as usize] = union;
        }
        self.builds[level as usize] = Some(build);
        // Levels below are vacant: they are built before they are asked again.
        self.asked.retain(|&place| place >= first_place(level + 1));
        assert!(self.client.held.payload.iter().all(|&byte| byte == 0));
        self.assert_stands(None);
        resting
    }

    /// The entries of a rebuild: what was not asked goes to scratch, and from there to the level.
    fn expected_rebuild(&self, build: u64, level: u32) -> Vec<Entry> {
        let highest = self.levels.highest();
        let scratch = self.levels.scratch();
        let mut rounds = Vec::new();
        let mut gathered = 0;
        let mut gather = |from: Option<u64>| {
            rounds.extend(from.map(|place| (false, place)));
            rounds.push((true, scratch + gathered));
            gathered += 1;
        };
        gather(None);
        for from in 0..=highest {
            if from < level || (from == highest && level == highest) {
                let first = first_place(from);
                for place in first..first + slots(from) {
                    if !self.asked.contains(&place) {
                        gather(Some(place));
                    }
                }
            }
        }
        if level < highest {
            for _ in 0..1 << level {
                gather(None);
            }
        }
        let count = slots(level);
        assert_eq!(gathered, count);
        for batch in 0..count.div_ceil(64) {
            rounds.extend((scratch..scratch + count).map(|place| (false, place)));
            let slots = 64 * batch..count.min(64 * (batch + 1));
            rounds.extend(slots.map(|slot| (true, first_place(level) + slot)));
        }
        assert_eq!(rounds.len() as u64, rebuild_entries(self.levels, build));
        rounds
            .into_iter()
            .map(|(write, place)| Entry {
                begins: true,
                write,
                place: place as u32,
            })
            .collect()
    }

    fn size(&self, level: u32) -> u64 {
        match self.lists.get(level as usize) {
            Some(list) => list.len() as u64,
            None => self.levels.blocks(),
        }
    }

    fn rank(&self, level: u32, address: u64) -> u64 {
        match self.lists.get(level as usize) {
            Some(list) => list.range(..address).count() as u64,
            None => address,
        }
    }

    /// Asserts that lists, records and the slots of all levels are as they should be.
    fn assert_stands(&self, held: Option<u64>) {
        let highest = self.levels.highest();
        let client = &self.client;
        assert_eq!(client.records().len(), highest as usize + 1);
        for level in 0..=highest {
            let size = self.size(level);
            if level < highest {
                assert_eq!(client.index().size(level), Some(size));
                for (position, &address) in (0..).zip(&self.lists[level as usize]) {
                    assert_eq!(client.index().member(level, position), Some(address));
                }
            }
            let record = client.records()[level as usize];
            let Some(build) = self.builds[level as usize] else {
                assert_eq!((record, size), (Record::default(), 0));
                continue;
            };
            assert_eq!(
                (record.occupied, record.size, record.build),
                (true, size, build)
            );
            let mut asked_dummies = 0;
            for slot in 0..slots(level) {
                let place = first_place(level) + slot;
                let index = client.supply().index(build, slot).unwrap();
                let (key, payload) = client.store().look(place);
                if index >= size {
                    assert_eq!(u64::from(key), 65_536 + index);
                    assert!(payload.iter().all(|&byte| byte == 0));
                    asked_dummies += u64::from(self.asked.contains(&place));
                    assert_eq!(self.asked.contains(&place), index < record.counter);
                    continue;
                }
                let address = u64::from(key);
                assert_eq!(self.rank(level, address), index);
                assert!(level == highest || self.lists[level as usize].contains(&address));
                // A block that was asked for is in a lower list, or held. Any other is the latest copy.
                let below = (0..level).any(|lower| self.lists[lower as usize].contains(&address));
                let touched = below || held == Some(address);
                assert_eq!(self.asked.contains(&place), touched);
                if !touched {
                    assert_eq!(payload, self.blocks[address as usize]);
                }
            }
            assert_eq!(record.counter, size + asked_dummies);
        }
    }
}

/// Opens a client, loads it and makes random accesses with their rebuilds, all against the model.
fn drive<S: Look, I: Index, P: Supply>(
    l: u64,
    w: usize,
    store: S,
    index: I,
    supply: P,
    accesses: u64,
    mut random: Random,
) {
    let (mut client, unloaded) = Client::open(l, w as u64, store, index, supply);
    assert_eq!(client.refusal(), None);
    assert_eq!(client.number(), 0);
    let levels = levels(l);
    let blocks = (0..levels.blocks()).map(|_| random.bytes(w)).collect();
    let mut model = Model {
        client: &mut client,
        levels,
        width: w,
        random,
        blocks,
        lists: vec![BTreeSet::new(); l as usize],
        builds: vec![None; l as usize + 1],
        asked: HashSet::new(),
        accesses: 0,
        served: 0,
        trail: 0,
    };
    let mut resting = model.load(unloaded);
    for _ in 0..accesses {
        let (due, held) = model.access(resting);
        resting = model.rebuild(due, held);
        assert_eq!(model.client.number(), resting.number());
    }
}

#[test]
fn reads_give_the_latest_write() {
    for l in 1..=5 {
        // Several epochs.
        let accesses = 5 * (1 << l) + 3;
        for seed in 0..3 {
            let w = 1 + (l as usize + 3 * seed as usize) % 7;
            let mut random = Random(97 * l + seed);
            macro_rules! each_supply {
                ($store:expr, $index:expr) => {{
                    let table = table(l, accesses + 1, &mut random);
                    let random = || Random(l + 7 * seed);
                    drive(
                        l,
                        w,
                        $store,
                        $index,
                        straight(l, 1_000_000),
                        accesses,
                        random(),
                    );
                    drive(l, w, $store, $index, keyed(l), accesses, random());
                    drive(l, w, $store, $index, table, accesses, random());
                }};
            }
            let mut cuts = Random(l * seed);
            each_supply!(memory(l, w), Bitmap::new(levels(l)));
            each_supply!(memory(l, w), Gaps::new(levels(l)));
            each_supply!(joined(l, w, &mut cuts), Bitmap::new(levels(l)));
            each_supply!(joined(l, w, &mut cuts), Gaps::new(levels(l)));
        }
    }
}

/// Levels of more than one batch.
#[test]
fn many_batches() {
    let l = 7;
    drive(
        l,
        2,
        memory(l, 2),
        Bitmap::new(levels(l)),
        keyed(l),
        300,
        Random(1),
    );
    let mut random = Random(2);
    let table = table(l, 300, &mut random);
    drive(
        l,
        1,
        joined(l, 1, &mut random),
        Gaps::new(levels(l)),
        table,
        299,
        random,
    );
}

/// Reads addresses in turn, each with its rebuild, and gives the places asked.
fn places_of_reads(l: u64, addresses: &[u64]) -> Vec<Vec<u32>> {
    let supply = straight(l, 1_000_000);
    let (mut client, unloaded) = Client::open(l, 1, memory(l, 1), Bitmap::new(levels(l)), supply);
    let mut trace = vec![UNTOUCHED; most_entries(levels(l)) as usize];
    let blocks: Vec<u8> = (0..levels(l).blocks()).map(|block| block as u8).collect();
    let (mut resting, _) = client.load(unloaded, &blocks, &mut trace).unwrap();
    let mut places = Vec::new();
    for &address in addresses {
        let mut byte = [255];
        let (due, entries) = client
            .access(resting, 0, address, &mut byte, &mut trace)
            .unwrap();
        assert_eq!(u64::from(byte[0]), address);
        places.push(trace[..entries].iter().map(|entry| entry.place).collect());
        (resting, _) = client.rebuild(due, &mut trace).unwrap();
    }
    places
}

#[test]
fn places_in_straight_order() {
    assert_eq!(
        places_of_reads(2, &[0, 1, 2, 3]),
        [&[6][..], &[1, 7], &[4, 8], &[1, 5, 9]]
    );
    assert_eq!(
        places_of_reads(2, &[3, 3, 1, 3]),
        [&[9][..], &[0, 10], &[3, 7], &[1, 2, 11]]
    );
}

#[test]
fn ends_of_l_and_w() {
    let refusal = |l: u64, w: u64, levels: Levels| {
        let store = Memory::zeroed(levels.places(), w as usize);
        let supply = Straight::new(Extent { levels, builds: 1 });
        let (client, _) = Client::open(l, w, store, Bitmap::new(levels), supply);
        client.refusal()
    };
    assert_eq!(refusal(1, 1, levels(1)), None);
    assert_eq!(refusal(12, 1, levels(12)), None);
    assert_eq!(refusal(1, 512, levels(1)), None);
    for l in [0, 13, 257, (1 << 32) + 1, u64::MAX] {
        assert_eq!(refusal(l, 1, levels(1)), Some(Refusal::Range));
    }
    for w in [0, 513] {
        assert_eq!(refusal(1, w, levels(1)), Some(Refusal::Range));
    }
}

#[test]
fn refused_openings() {
    let open = |l: u64, w: u64, width: usize, places: u64, index: Bitmap, supply: u64| {
        let store = Memory::zeroed(places, width);
        let supply = straight(supply, 3);
        Client::open(l, w, store, index, supply)
    };
    let index = |l| Bitmap::new(levels(l));
    let mut filled = index(2);
    filled.append(1, 3).unwrap();
    let number = |opened: &(Client<Memory, Bitmap, Straight>, Unloaded)| {
        opened.0.refusal().map_or(0, Refusal::number)
    };
    for (expected, opened) in [
        (0, open(2, 3, 3, 22, index(2), 2)),
        (0, open(2, 3, 3, 23, index(2), 2)),
        (1, open(2, u64::MAX, 3, 22, index(2), 2)),
        (1, open(0, 3, 2, 0, index(1), 1)),
        (2, open(2, 3, 2, 22, index(2), 2)),
        (2, open(2, 3, 4, 22, index(2), 2)),
        (2, open(2, 3, 3, 21, index(2), 2)),
        (2, open(2, 3, 3, 21, index(1), 2)),
        (2, open(2, 3, 2, 22, filled.clone(), 2)),
        (3, open(2, 3, 3, 22, index(1), 2)),
        (3, open(2, 3, 3, 22, index(3), 2)),
        (3, open(2, 3, 3, 22, index(2), 1)),
        (3, open(2, 3, 3, 22, index(2), 3)),
        (3, open(2, 3, 3, 22, filled, 2)),
    ] {
        assert_eq!(number(&opened), expected);
        let (mut client, unloaded) = opened;
        assert_eq!(unloaded.number(), 0);
        if expected == 0 {
            continue;
        }
        // Whatever is brought, right or wrong, is declined by 16, and the turn comes back.
        assert!(client.records().is_empty());
        let before = format!("{client:?}");
        let mut trace = [UNTOUCHED; 31];
        let declined = client.load(unloaded, &[0; 12], &mut trace).unwrap_err();
        assert_eq!(declined.refusal.number(), 16);
        assert_eq!(declined.turn.number(), 0);
        for number in [1, 3] {
            let resting = Resting::numbered(number).unwrap();
            let declined = client
                .access(resting, 2, 4, &mut [], &mut trace)
                .unwrap_err();
            assert_eq!(declined.refusal.number(), 16);
            assert_eq!(declined.turn.number(), number);
            let due = Due::numbered(number + 1).unwrap();
            let declined = client.rebuild(due, &mut trace[..0]).unwrap_err();
            assert_eq!(declined.refusal.number(), 16);
            assert_eq!(declined.turn.number(), number + 1);
        }
        assert_eq!(format!("{client:?}"), before);
        assert_eq!(client.number(), 0);
    }
}

#[test]
fn declined_calls_in_the_order_of_their_checks() {
    let (mut client, unloaded) =
        Client::open(2, 2, memory(2, 2), Gaps::new(levels(2)), straight(2, 3));
    let mut trace = vec![UNTOUCHED; 31];

    /// Makes a call that must be declined by a number, and change nothing; gives the turn.
    macro_rules! declined {
        ($number:expr, $room:expr, |$trace:ident| $call:expr) => {{
            let before = format!("{client:?}");
            let mut brought = vec![UNTOUCHED; $room];
            let $trace = &mut brought[..];
            let declined = $call.unwrap_err();
            assert_eq!(declined.refusal.number(), $number);
            assert_eq!(format!("{client:?}"), before);
            assert!(brought.iter().all(|entry| *entry == UNTOUCHED));
            declined.turn
        }};
    }
    let resting = |number| Resting::numbered(number).unwrap();
    let due = |number| Due::numbered(number).unwrap();

    // Not loaded yet.
    let _ = declined!(14, 0, |trace| client.access(
        resting(1),
        2,
        4,
        &mut [],
        trace
    ));
    let _ = declined!(14, 0, |trace| client.rebuild(due(2), trace));
    let unloaded = declined!(6, 7, |trace| client.load(unloaded, &[0; 7], trace));
    let unloaded = declined!(6, 8, |trace| client.load(unloaded, &[0; 9], trace));
    let unloaded = declined!(7, 7, |trace| client.load(unloaded, &[0; 8], trace));
    let (turn, entries) = client
        .load(unloaded, &[0, 1, 2, 3, 4, 5, 6, 7], &mut trace[..8])
        .unwrap();
    assert_eq!((turn.number(), entries), (1, 8));

    // Resting.
    let unloaded = Unloaded::numbered(0).unwrap();
    let _ = declined!(14, 0, |trace| client.load(unloaded, &[], trace));
    let _ = declined!(14, 0, |trace| client.rebuild(due(2), trace));
    let _ = declined!(14, 0, |trace| client.access(
        resting(3),
        2,
        4,
        &mut [],
        trace
    ));
    let mut three = [9; 3];
    let mut two = [9; 2];
    let turn = declined!(4, 0, |trace| client.access(turn, 2, 4, &mut three, trace));
    let turn = declined!(4, 5, |trace| client.access(
        turn,
        1 << 32,
        0,
        &mut two,
        trace
    ));
    let turn = declined!(5, 0, |trace| client.access(turn, 1, 4, &mut three, trace));
    let turn = declined!(5, 5, |trace| client.access(
        turn,
        0,
        1 << 32,
        &mut two,
        trace
    ));
    let turn = declined!(6, 0, |trace| client.access(turn, 0, 3, &mut three, trace));
    let turn = declined!(6, 5, |trace| client.access(
        turn,
        0,
        3,
        &mut two[..1],
        trace
    ));
    let turn = declined!(7, 0, |trace| client.access(turn, 0, 3, &mut two, trace));
    assert_eq!((two, three), ([9; 2], [9; 3]));
    let (turn, entries) = client
        .access(turn, 0, 3, &mut two, &mut trace[..1])
        .unwrap();
    assert_eq!((turn.number(), entries, two), (2, 1, [6, 7]));

    // Due.
    let unloaded = Unloaded::numbered(0).unwrap();
    let _ = declined!(14, 0, |trace| client.load(unloaded, &[], trace));
    let _ = declined!(14, 0, |trace| client.access(
        resting(1),
        2,
        4,
        &mut [],
        trace
    ));
    let _ = declined!(14, 0, |trace| client.access(
        resting(3),
        2,
        4,
        &mut [],
        trace
    ));
    let _ = declined!(14, 0, |trace| client.rebuild(due(4), trace));
    let turn = declined!(7, 5, |trace| client.rebuild(turn, trace));
    let (turn, entries) = client.rebuild(turn, &mut trace[..6]).unwrap();
    assert_eq!((turn.number(), entries), (3, 6));

    // The last of three builds, and then no more: 15 lies between byte run and trace.
    let turn = declined!(7, 1, |trace| client.access(turn, 1, 3, &mut two, trace));
    let (turn, entries) = client
        .access(turn, 1, 3, &mut two, &mut trace[..2])
        .unwrap();
    assert_eq!((turn.number(), entries, two), (4, 2, [6, 7]));
    let (turn, entries) = client.rebuild(turn, &mut trace[..13]).unwrap();
    assert_eq!((turn.number(), entries), (5, 13));
    let _ = declined!(14, 5, |trace| client.access(
        resting(3),
        0,
        3,
        &mut two,
        trace
    ));
    let turn = declined!(4, 5, |trace| client.access(turn, 2, 3, &mut two, trace));
    let turn = declined!(5, 5, |trace| client.access(turn, 0, 4, &mut two, trace));
    let turn = declined!(6, 5, |trace| client.access(turn, 0, 3, &mut three, trace));
    let turn = declined!(15, 0, |trace| client.access(turn, 0, 3, &mut two, trace));
    let turn = declined!(15, 5, |trace| client.access(turn, 1, 3, &mut two, trace));
    assert_eq!(turn.number(), 5);
}

/// The largest client, over the first builds and with blocks of the largest width.
#[test]
fn largest() {
    let (l, w) = (12, 512);
    let mut random = Random(3);
    let supply = straight(l, 100);
    let (mut client, unloaded) =
        Client::open(l, w as u64, memory(l, w), Bitmap::new(levels(l)), supply);
    let mut trace = vec![UNTOUCHED; most_entries(levels(l)) as usize];
    let mut blocks = random.bytes(4096 * w);
    let (mut resting, _) = client.load(unloaded, &blocks, &mut trace).unwrap();
    for _ in 1..100 {
        let address = random.below(64) * 65;
        let block = &mut blocks[address as usize * w..][..w];
        let operation = random.below(2);
        let mut bytes = random.bytes(w);
        if operation == 1 {
            block.copy_from_slice(&bytes);
        }
        let (due, _) = client
            .access(resting, operation, address, &mut bytes, &mut trace)
            .unwrap();
        assert_eq!(bytes, block);
        (resting, _) = client.rebuild(due, &mut trace).unwrap();
    }
}
