//! The client: keeps n blocks on a store, so that the places it asks for tell how many accesses were made and no more.
//!
//! Blocks lie in levels. Every block is in the highest; those accessed of late are in lower ones too, and the copy in
//! the lowest level is the one that counts. A level has half its slots or more for dummies, and lies in the order of a
//! permutation of its own, another for each build. An access asks one slot of every level that is occupied, the
//! block's own where it is found and the next dummy elsewhere, and then holds the block until a rebuild puts it back.
//!
//! ```
//! use reference::client::{most_entries, Client, Entry};
//! use reference::{index::Bitmap, levels::Levels, store::Memory};
//! use reference::supply::{straight, Extent, Straight};
//!
//! let levels = Levels::new(2).unwrap();
//! let store = Memory::zeroed(levels.places(), 1);
//! let supply = Straight::new(Extent { levels, builds: straight::BUILDS });
//! let (mut client, unloaded) = Client::open(2, 1, store, Bitmap::new(levels), supply);
//! let mut trace = vec![Entry::default(); most_entries(levels) as usize];
//!
//! let (resting, _) = client.load(unloaded, &[10, 11, 12, 13], &mut trace).unwrap();
//! let mut bytes = [0];
//! let (due, entries) = client.access(resting, 0, 3, &mut bytes, &mut trace).unwrap();
//! assert_eq!((bytes, entries, trace[0].place), ([13], 1, 9));
//! let (_resting, entries) = client.rebuild(due, &mut trace).unwrap();
//! assert_eq!(entries, 6);
//! ```

mod rebuild;
mod trace;
mod turn;

pub use trace::{batch_slots, load_entries, most_entries, rebuild_entries, seat, Entry, BATCH};
pub use turn::{Due, Resting, Unloaded};

use crate::index::Index;
use crate::levels::{self, first_place, slots, Levels};
use crate::refusal::Refusal;
use crate::store::{Store, ROUND};
use crate::supply::Supply;
use trace::Rounds;

/// The largest W.
pub const WIDEST: usize = 512;

/// The key of a dummy is this and its index. The key of a block is its address, which is below.
pub const DUMMY: u32 = 65_536;

#[inline]
fn dummy_key(index: u64) -> u32 {
    DUMMY + index as u32
}

/// What the client keeps of a level. A vacant level has all of it zero.
#[derive(Clone, Copy, Debug, Default, PartialEq, Eq)]
pub struct Record {
    /// Whether the level is occupied.
    pub occupied: bool,
    /// The number of blocks in the level. They have the indexes below it.
    pub size: u64,
    /// The index of the next dummy to be asked.
    pub counter: u64,
    /// The build whose permutation the level lies in.
    pub build: u64,
}

/// A call that was declined: everything is as it was.
#[derive(Debug, PartialEq, Eq)]
pub struct Declined<T> {
    /// Why.
    pub refusal: Refusal,
    /// The turn that was brought.
    pub turn: T,
}

/// What a call answers: the next turn and the number of its entries, or the turn brought.
pub type Answer<Next, Brought> = Result<(Next, usize), Declined<Brought>>;

/// L and W, both within their ranges.
#[derive(Clone, Copy, Debug)]
struct Shape {
    levels: Levels,
    width: usize,
}

impl Shape {
    fn new(l: u64, w: u64) -> Result<Self, Refusal> {
        let levels = Levels::new(l)?;
        match usize::try_from(w) {
            Ok(width @ 1..=WIDEST) => Ok(Shape { levels, width }),
            _ => Err(Refusal::Range),
        }
    }
}

/// The block that an access found and no rebuild has put back yet. It is all zero while no block is held.
#[derive(Debug)]
struct Held {
    address: u64,
    payload: Vec<u8>,
}

/// A client, with the store, index and supply that it works on.
#[derive(Debug)]
pub struct Client<S, I, P> {
    store: S,
    index: I,
    supply: P,
    opened: Result<Shape, Refusal>,
    /// How many calls were accepted.
    number: u64,
    records: [Record; levels::MOST as usize + 1],
    held: Held,
    /// Room for the payloads of a batch, and for one more. It is all zero between calls.
    working: Vec<u8>,
    /// Room for the destination of each scratch slot.
    destinations: Vec<u16>,
}

/// Why the answers of an index are not looked at: the client asks for what is there.
const LISTED: &str = "an index has what was appended, and room for 2^level members";

/// Why the answers of a supply are not looked at: the client stays below its builds, and below a level's slots.
const BUILT: &str = "a supply has every build below K, of which there is one at least";

/// What is asked of a block.
#[derive(Clone, Copy)]
enum Operation {
    Read,
    Write,
}

impl<S: Store, I: Index, P: Supply> Client<S, I, P> {
    /// Opens a client. There always is one, with its first turn; where the opening is refused, it declines every call.
    ///
    /// The refusals are, in this order: [`Refusal::Range`], [`Refusal::Store`], [`Refusal::IndexOrSupply`].
    pub fn open(l: u64, w: u64, store: S, index: I, supply: P) -> (Self, Unloaded) {
        let opened = Shape::new(l, w).and_then(|shape| {
            check_parts(shape, &store, &index, &supply)?;
            Ok(shape)
        });
        let (width, count) = match opened {
            Ok(shape) => (shape.width, slots(shape.levels.highest())),
            Err(_) => (0, 0),
        };
        let client = Client {
            store,
            index,
            supply,
            opened,
            number: 0,
            records: Default::default(),
            held: Held {
                address: 0,
                payload: vec![0; width],
            },
            working: vec![0; (BATCH as usize + 1) * width],
            destinations: vec![0; count as usize],
        };
        (client, Unloaded::first())
    }

    /// Why the opening was refused, if it was.
    pub fn refusal(&self) -> Option<Refusal> {
        self.opened.err()
    }

    /// The number that a turn must have: how many calls were accepted.
    pub fn number(&self) -> u64 {
        self.number
    }

    /// The records of the levels from 0 to L; none where the opening was refused.
    pub fn records(&self) -> &[Record] {
        match self.opened {
            Ok(shape) => &self.records[..=shape.levels.highest() as usize],
            Err(_) => &[],
        }
    }

    /// The store.
    pub fn store(&self) -> &S {
        &self.store
    }

    /// The index.
    pub fn index(&self) -> &I {
        &self.index
    }

    /// The supply.
    pub fn supply(&self) -> &P {
        &self.supply
    }

    /// The store, the index and the supply, given back.
    pub fn into_parts(self) -> (S, I, P) {
        (self.store, self.index, self.supply)
    }

    /// How many entries an access has now: one for each occupied level.
    #[inline]
    pub fn access_entries(&self) -> u64 {
        let occupied = self.records().iter().filter(|record| record.occupied);
        occupied.count() as u64
    }

    /// Writes all blocks to the highest level, slot after slot, a round each. A slot whose index is an address gets
    /// that block, another the dummy of its index.
    ///
    /// `blocks` has the blocks one after another. It is declined by, in this order: [`Refusal::Opening`],
    /// [`Refusal::Turn`], [`Refusal::ByteRun`], [`Refusal::Trace`].
    pub fn load(
        &mut self,
        turn: Unloaded,
        blocks: &[u8],
        trace: &mut [Entry],
    ) -> Answer<Resting, Unloaded> {
        match self.check_load(&turn, blocks.len(), trace.len()) {
            Ok(shape) => {
                let entries = self.write_blocks(shape, blocks, trace);
                self.number += 1;
                Ok((turn.loaded(), entries))
            }
            Err(refusal) => Err(Declined { refusal, turn }),
        }
    }

    /// Reads a block into `bytes` where `operation` is 0, or writes it from there where it is 1.
    ///
    /// It asks one slot of every occupied level in a single round, the lowest level first. The client then holds the
    /// block as it is now, and a rebuild is due. It is declined by, in this order: [`Refusal::Opening`],
    /// [`Refusal::Turn`], [`Refusal::Operation`], [`Refusal::Address`], [`Refusal::ByteRun`], [`Refusal::Build`],
    /// [`Refusal::Trace`].
    pub fn access(
        &mut self,
        turn: Resting,
        operation: u64,
        address: u64,
        bytes: &mut [u8],
        trace: &mut [Entry],
    ) -> Answer<Due, Resting> {
        match self.check_access(&turn, operation, address, bytes.len(), trace.len()) {
            Ok((shape, operation)) => {
                let entries = self.ask_levels(shape, operation, address, bytes, trace);
                self.number += 1;
                Ok((turn.accessed(), entries))
            }
            Err(refusal) => Err(Declined { refusal, turn }),
        }
    }

    /// Builds the level that the build which is due goes to, of the held block and all that is left in the levels
    /// below, or at the highest level of all that is left.
    ///
    /// All of it is first gathered in scratch: the held block; the slots not yet asked of the lower levels in turn,
    /// and of the highest where that is built; for a lower one fresh dummies until there are as many as the level has
    /// slots. Dummies are numbered anew in that order. Then the level is filled batch by batch; for each batch all
    /// of scratch is fetched, so that nothing shows which slots of it were wanted. It is declined by, in this order:
    /// [`Refusal::Opening`], [`Refusal::Turn`], [`Refusal::Trace`].
    pub fn rebuild(&mut self, turn: Due, trace: &mut [Entry]) -> Answer<Resting, Due> {
        match self.check_rebuild(&turn, trace.len()) {
            Ok(shape) => {
                let entries = self.rebuild_level(shape, trace);
                self.number += 1;
                Ok((turn.rebuilt(), entries))
            }
            Err(refusal) => Err(Declined { refusal, turn }),
        }
    }

    /// The build of the rebuild that is due or comes next. Accesses and rebuilds take turns after the load.
    #[inline]
    fn build(&self) -> u64 {
        self.number.div_ceil(2)
    }

    /// The checks that every call begins with.
    #[inline]
    fn check_turn(&self, number: u64) -> Result<Shape, Refusal> {
        let shape = self.opened.map_err(|_| Refusal::Opening)?;
        if number == self.number {
            Ok(shape)
        } else {
            Err(Refusal::Turn)
        }
    }

    fn check_load(&self, turn: &Unloaded, bytes: usize, room: usize) -> Result<Shape, Refusal> {
        let shape = self.check_turn(turn.number())?;
        if bytes != shape.levels.blocks() as usize * shape.width {
            return Err(Refusal::ByteRun);
        }
        check_room(room, load_entries(shape.levels))?;
        Ok(shape)
    }

    #[inline]
    fn check_access(
        &self,
        turn: &Resting,
        operation: u64,
        address: u64,
        bytes: usize,
        room: usize,
    ) -> Result<(Shape, Operation), Refusal> {
        let shape = self.check_turn(turn.number())?;
        let operation = match operation {
            0 => Operation::Read,
            1 => Operation::Write,
            _ => return Err(Refusal::Operation),
        };
        if address >= shape.levels.blocks() {
            return Err(Refusal::Address);
        }
        if bytes != shape.width {
            return Err(Refusal::ByteRun);
        }
        if self.build() >= self.supply.extent().builds {
            return Err(Refusal::Build);
        }
        check_room(room, self.access_entries())?;
        Ok((shape, operation))
    }

    #[inline]
    fn check_rebuild(&self, turn: &Due, room: usize) -> Result<Shape, Refusal> {
        let shape = self.check_turn(turn.number())?;
        check_room(room, rebuild_entries(shape.levels, turn.build()))?;
        Ok(shape)
    }

    /// The load after its checks. It answers the number of entries.
    fn write_blocks(&mut self, shape: Shape, blocks: &[u8], trace: &mut [Entry]) -> usize {
        let (highest, width) = (shape.levels.highest(), shape.width);
        let count = shape.levels.blocks();
        let zeros = &self.working[..width];
        let mut rounds = Rounds::new(&mut self.store, trace);
        for slot in 0..slots(highest) {
            let place = first_place(highest) + slot;
            let index = self.supply.index(0, slot).expect(BUILT);
            if index < count {
                let block = &blocks[index as usize * width..][..width];
                rounds.put(place, index as u32, block);
            } else {
                rounds.put(place, dummy_key(index), zeros);
            }
        }
        self.records[highest as usize] = Record {
            occupied: true,
            size: count,
            counter: count,
            build: 0,
        };
        rounds.entries()
    }

    /// The access after its checks. It answers the number of entries.
    #[inline]
    fn ask_levels(
        &mut self,
        shape: Shape,
        operation: Operation,
        address: u64,
        bytes: &mut [u8],
        trace: &mut [Entry],
    ) -> usize {
        let (highest, width) = (shape.levels.highest(), shape.width);
        let mut places = [0; ROUND];
        let mut count = 0;
        // Where in the round the block is.
        let mut found = None;
        for level in 0..=highest {
            let record = &mut self.records[level as usize];
            if !record.occupied {
                continue;
            }
            let own = if found.is_some() {
                None
            } else if level == highest {
                Some(address)
            } else {
                self.index.rank(level, address)
            };
            let index = match own {
                Some(index) => {
                    found = Some(count);
                    index
                }
                None => record.next_dummy(),
            };
            let slot = self.supply.slot(record.build, index).expect(BUILT);
            places[count] = first_place(level) + slot;
            count += 1;
        }
        let found = found.expect("every block is in the highest level, which is always occupied");

        let mut keys = [0; ROUND];
        let payloads = &mut self.working[..count * width];
        let mut rounds = Rounds::new(&mut self.store, trace);
        rounds.fetch_all(&places[..count], &mut keys[..count], payloads);
        let payload = &payloads[found * width..][..width];
        self.held.address = address;
        match operation {
            Operation::Read => {
                bytes.copy_from_slice(payload);
                self.held.payload.copy_from_slice(payload);
            }
            Operation::Write => self.held.payload.copy_from_slice(bytes),
        }
        payloads.fill(0);
        rounds.entries()
    }
}

impl Record {
    /// The next dummy to be asked, which none is twice.
    #[inline]
    fn next_dummy(&mut self) -> u64 {
        let index = self.counter;
        self.counter += 1;
        index
    }
}

/// The checks of an opening after those of L and W.
fn check_parts(
    shape: Shape,
    store: &impl Store,
    index: &impl Index,
    supply: &impl Supply,
) -> Result<(), Refusal> {
    if store.width() != shape.width || store.places() < shape.levels.places() {
        return Err(Refusal::Store);
    }
    let empty = |level| index.size(level) == Some(0);
    if index.levels() != shape.levels
        || supply.extent().levels != shape.levels
        || !(0..shape.levels.highest()).all(empty)
    {
        return Err(Refusal::IndexOrSupply);
    }
    Ok(())
}

#[inline]
fn check_room(room: usize, entries: u64) -> Result<(), Refusal> {
    if room as u64 >= entries {
        Ok(())
    } else {
        Err(Refusal::Trace)
    }
}

#[cfg(test)]
mod tests;
