//! Runs: openings and calls drawn from a seed, written out with what the client answers, to be tried on another client.
//!
//! A run is written item by item, a line each, in words and decimal numbers with one space between them:
//!
//! ```text
//! run NUMBER
//! open L W STORE-WIDTH STORE-PLACES INDEX-LEVELS INDEX-EMPTY SUPPLY-LEVELS BUILDS
//! table BUILD SLOT..
//! opened REFUSAL
//! load TURN ROOM BYTE..
//! access TURN ROOM OPERATION ADDRESS BYTE..
//! rebuild TURN ROOM
//! accepted ENTRIES
//! bytes BYTE..
//! entry BEGINS WRITE PLACE
//! declined REFUSAL
//! slot PLACE KEY BYTE..
//! record LEVEL OCCUPIED SIZE COUNTER BUILD
//! list LEVEL ADDRESS..
//! number TURN
//! end
//! ```
//!
//! Runs are numbered from 0. The store's slots are all zero at first. An index that is not empty has the address 0 in
//! list 0. There is one `table` line for each build, with its slots in index order, of the levels that the supply has
//! itself. `opened 0` is an opening that was not refused. ROOM is the length of the trace brought. Right behind a call
//! comes its answer: `declined`, or `accepted` and the entries, an access having its byte run as it is after the call
//! between the two. When all calls are made, every slot of the store is written out, then records and lists, which a
//! client opened with a refusal has not, then the client's number.

mod draw;

use std::fmt::{Display, Write as _};
use std::io;

use crate::client::{
    load_entries, rebuild_entries, Client, Declined, Due, Entry, Resting, Unloaded,
};
use crate::index::{Bitmap, Index};
use crate::levels::{slots, Levels};
use crate::refusal::Refusal;
use crate::store::{Memory, Store};
use crate::supply::{Extent, Supply, Table};
use draw::Draw;

/// Writes the first runs of a seed.
pub fn write(seed: u64, count: u64, output: &mut impl io::Write) -> io::Result<()> {
    for number in 0..count {
        output.write_all(text(seed, number).as_bytes())?;
    }
    output.flush()
}

/// One run of a seed.
fn text(seed: u64, number: u64) -> String {
    run(seed, number, Memory::zeroed, Bitmap::new)
}

/// One run over stores and indexes of some kind.
fn run<S: Store, I: Index>(
    seed: u64,
    number: u64,
    store: impl FnOnce(u64, usize) -> S,
    index: impl FnOnce(Levels) -> I,
) -> String {
    let mut draw = Draw::new(seed, number);
    let opening = Opening::draw(&mut draw);
    let table = opening.table(&mut draw);
    let mut text = String::new();
    line(&mut text, "run", [number]);
    opening.write(&mut text, &table);

    let mut index = index(opening.index);
    if !opening.index_empty {
        index.append(0, 0).expect("an empty list takes address 0");
    }
    let store = store(opening.store_places, opening.store_width as usize);
    let supply = Table::new(opening.supply, table.concat()).expect("permutations were drawn");
    let (mut client, _) = Client::open(opening.l, opening.w, store, index, supply);
    let refusal = client.refusal();
    line(&mut text, "opened", [refusal.map_or(0, Refusal::number)]);

    let mut calls = Calls::new(&mut draw, &opening, refusal.is_some());
    while let Some(call) = calls.next(&client) {
        call.write(&mut text);
        call.make(&mut client, &mut text);
    }
    write_end(&mut text, client);
    text
}

/// Writes a line of a word and numbers.
fn line<T: Display>(text: &mut String, word: &str, numbers: impl IntoIterator<Item = T>) {
    text.push_str(word);
    for number in numbers {
        let _ = write!(text, " {number}");
    }
    text.push('\n');
}

/// Numbers, and then bytes.
fn with_bytes(numbers: &[u64], bytes: &[u8]) -> Vec<u64> {
    let bytes = bytes.iter().map(|&byte| u64::from(byte));
    numbers.iter().copied().chain(bytes).collect()
}

/// Writes what there is when all calls are made.
fn write_end<S: Store, I: Index, P: Supply>(text: &mut String, client: Client<S, I, P>) {
    let records = client.records().to_vec();
    let number = client.number();
    let (mut store, index, _) = client.into_parts();
    // The store's count and trail are not wanted any more.
    let mut payload = vec![0; store.width()];
    for place in 0..store.places() {
        let mut key = [0];
        store
            .fetch(&[place], &mut key, &mut payload)
            .expect("the place is there");
        line(
            text,
            "slot",
            with_bytes(&[place, u64::from(key[0])], &payload),
        );
    }
    for (level, record) in (0..).zip(&records) {
        line(
            text,
            "record",
            [
                level,
                u64::from(record.occupied),
                record.size,
                record.counter,
                record.build,
            ],
        );
    }
    // The highest level has a record, but no list.
    for level in 0..records.len().saturating_sub(1) as u32 {
        let members = (0..).map_while(|position| index.member(level, position));
        line(text, "list", [u64::from(level)].into_iter().chain(members));
    }
    line(text, "number", [number]);
    text.push_str("end\n");
}

/// What a client is opened with.
#[derive(Clone, Copy, Debug)]
struct Opening {
    l: u64,
    w: u64,
    store_width: u64,
    store_places: u64,
    index: Levels,
    index_empty: bool,
    supply: Extent,
}

/// A small L as levels.
fn small(l: u64) -> Levels {
    Levels::new(l).expect("the L of a run is small")
}

/// What may be wrong with an opening.
#[derive(Clone, Copy)]
enum Misfit {
    Levels,
    Width,
    StoreWidth,
    StorePlaces,
    IndexLevels,
    IndexFilled,
    SupplyLevels,
}

impl Opening {
    fn draw(draw: &mut Draw) -> Self {
        let l = draw.of(&[1, 1, 1, 1, 2, 2, 2, 2, 2, 3]);
        let w = draw.between(1, 3);
        let extra = if draw.percent(20) {
            draw.between(1, 5)
        } else {
            0
        };
        let builds = if draw.percent(30) {
            draw.between(1, 5)
        } else {
            draw.between(6, 12)
        };
        let mut opening = Opening {
            l,
            w,
            store_width: w,
            store_places: small(l).places() + extra,
            index: small(l),
            index_empty: true,
            supply: Extent {
                levels: small(l),
                builds,
            },
        };
        if draw.percent(12) {
            for _ in 0..draw.of(&[1, 1, 2, 3]) {
                opening.spoil(draw);
            }
        }
        opening
    }

    /// Makes something wrong.
    fn spoil(&mut self, draw: &mut Draw) {
        // The store, index and supply are for this L, also where L itself is wrong.
        let l = u64::from(self.index.highest());
        let other = small(1 + (l + draw.below(2)) % 3);
        match draw.of(&[
            Misfit::Levels,
            Misfit::Width,
            Misfit::StoreWidth,
            Misfit::StorePlaces,
            Misfit::IndexLevels,
            Misfit::IndexFilled,
            Misfit::SupplyLevels,
        ]) {
            Misfit::Levels => self.l = draw.of(&[0, 13, 14, 257, (1 << 32) + 1]),
            Misfit::Width => self.w = draw.of(&[0, 513, 514, 1025, (1 << 32) + 1]),
            Misfit::StoreWidth => self.store_width = 1 + (self.store_width + draw.below(2)) % 3,
            Misfit::StorePlaces => {
                let needed = small(l).places();
                self.store_places = draw.of(&[needed - 1, needed - 1, needed / 2, 0]);
            }
            Misfit::IndexLevels => self.index = other,
            Misfit::IndexFilled => self.index_empty = false,
            Misfit::SupplyLevels => self.supply.levels = other,
        }
    }

    /// The slots of each build of the supply.
    fn table(&self, draw: &mut Draw) -> Vec<Vec<u16>> {
        (0..self.supply.builds)
            .map(|build| draw.permutation(slots(self.supply.levels.of_build(build))))
            .collect()
    }

    fn write(&self, text: &mut String, table: &[Vec<u16>]) {
        line(
            text,
            "open",
            [
                self.l,
                self.w,
                self.store_width,
                self.store_places,
                u64::from(self.index.highest()),
                u64::from(self.index_empty),
                u64::from(self.supply.levels.highest()),
                self.supply.builds,
            ],
        );
        for (build, slots) in (0..).zip(table) {
            let slots = slots.iter().map(|&slot| u64::from(slot));
            line(text, "table", [build].into_iter().chain(slots));
        }
    }
}

/// A call.
#[derive(Clone, Debug)]
enum Call {
    Load {
        turn: u64,
        room: u64,
        bytes: Vec<u8>,
    },
    Access {
        turn: u64,
        room: u64,
        operation: u64,
        address: u64,
        bytes: Vec<u8>,
    },
    Rebuild {
        turn: u64,
        room: u64,
    },
}

impl Call {
    fn write(&self, text: &mut String) {
        match self {
            Call::Load { turn, room, bytes } => {
                line(text, "load", with_bytes(&[*turn, *room], bytes));
            }
            Call::Access {
                turn,
                room,
                operation,
                address,
                bytes,
            } => {
                let numbers = [*turn, *room, *operation, *address];
                line(text, "access", with_bytes(&numbers, bytes));
            }
            Call::Rebuild { turn, room } => line(text, "rebuild", [turn, room]),
        }
    }

    /// Makes the call, and writes the answer.
    fn make<S: Store, I: Index, P: Supply>(self, client: &mut Client<S, I, P>, text: &mut String) {
        const KIND: &str = "the number is of the kind that the call takes";
        let traced = |room| vec![Entry::default(); room as usize];
        match self {
            Call::Load { turn, room, bytes } => {
                let mut trace = traced(room);
                let turn = Unloaded::numbered(turn).expect(KIND);
                let answer = client.load(turn, &bytes, &mut trace);
                write_answer(text, entries(answer), None, &trace);
            }
            Call::Access {
                turn,
                room,
                operation,
                address,
                mut bytes,
            } => {
                let mut trace = traced(room);
                let turn = Resting::numbered(turn).expect(KIND);
                let answer = client.access(turn, operation, address, &mut bytes, &mut trace);
                write_answer(text, entries(answer), Some(&bytes), &trace);
            }
            Call::Rebuild { turn, room } => {
                let mut trace = traced(room);
                let turn = Due::numbered(turn).expect(KIND);
                let answer = client.rebuild(turn, &mut trace);
                write_answer(text, entries(answer), None, &trace);
            }
        }
    }
}

/// The number of entries of an answer.
fn entries<Next, Brought>(
    answer: Result<(Next, usize), Declined<Brought>>,
) -> Result<usize, Refusal> {
    match answer {
        Ok((_, entries)) => Ok(entries),
        Err(declined) => Err(declined.refusal),
    }
}

fn write_answer(
    text: &mut String,
    answer: Result<usize, Refusal>,
    bytes: Option<&[u8]>,
    trace: &[Entry],
) {
    match answer {
        Ok(entries) => {
            line(text, "accepted", [entries]);
            if let Some(bytes) = bytes {
                line(text, "bytes", bytes);
            }
            for entry in &trace[..entries] {
                let numbers = [u32::from(entry.begins), u32::from(entry.write), entry.place];
                line(text, "entry", numbers);
            }
        }
        Err(refusal) => line(text, "declined", [refusal.number()]),
    }
}

/// The kinds of calls.
#[derive(Clone, Copy, PartialEq, Eq)]
enum Kind {
    Load,
    Access,
    Rebuild,
}

/// What may be wrong with a call.
#[derive(Clone, Copy)]
enum Fault {
    Turn,
    Operation,
    Address,
    Length,
    Room,
}

/// The calls of a run, each drawn when those before it are made.
struct Calls<'a> {
    draw: &'a mut Draw,
    opening: &'a Opening,
    refused: bool,
    /// How many calls are still to come.
    left: u64,
    /// How many of a hundred calls have something wrong.
    wrong: u64,
    /// The address accessed last.
    last: u64,
}

impl<'a> Calls<'a> {
    fn new(draw: &'a mut Draw, opening: &'a Opening, refused: bool) -> Self {
        let left = if refused {
            draw.between(2, 6)
        } else {
            draw.between(5, 25)
        };
        let wrong = draw.of(&[0, 15, 25, 40]);
        Calls {
            draw,
            opening,
            refused,
            left,
            wrong,
            last: 0,
        }
    }

    /// The next call, if there is one.
    fn next<S: Store, I: Index, P: Supply>(&mut self, client: &Client<S, I, P>) -> Option<Call> {
        self.left = self.left.checked_sub(1)?;
        let number = client.number();
        let fit = match number {
            0 => Kind::Load,
            _ if number % 2 == 1 => Kind::Access,
            _ => Kind::Rebuild,
        };
        // There is no way on from the last build: some more calls, often wrong in other ways too, and the run ends.
        if fit == Kind::Access && number.div_ceil(2) >= self.opening.supply.builds {
            self.left = self.left.min(3);
            self.wrong = self.wrong.max(50);
        }
        let any = [Kind::Load, Kind::Access, Kind::Rebuild];
        if self.refused {
            let kind = self.draw.of(&any);
            let mut call = self.right(kind, client);
            if self.draw.percent(50) {
                self.spoil(&mut call, client);
            }
            return Some(call);
        }
        let mut call;
        if !self.draw.percent(self.wrong) {
            call = self.right(fit, client);
        } else if self.draw.percent(25) {
            let kind = self.draw.of(&any);
            call = self.right(kind, client);
            if kind == fit || self.draw.percent(40) {
                self.spoil(&mut call, client);
            }
        } else {
            call = self.right(fit, client);
            for _ in 0..self.draw.of(&[1, 1, 2, 3]) {
                self.spoil(&mut call, client);
            }
        }
        Some(call)
    }

    /// The L that the run goes by, also where the opening is refused for its L.
    fn levels(&self) -> Levels {
        self.opening.index
    }

    /// The W that the run goes by, also where the opening is refused for its W.
    fn width(&self) -> u64 {
        self.opening.store_width
    }

    /// A call of a kind with nothing wrong, unless the client is in a state for another kind.
    fn right<S: Store, I: Index, P: Supply>(
        &mut self,
        kind: Kind,
        client: &Client<S, I, P>,
    ) -> Call {
        let number = client.number();
        let levels = self.levels();
        // Half the traces have room for the entries and no more.
        let more = if self.draw.percent(50) {
            0
        } else {
            self.draw.between(1, 6)
        };
        match kind {
            Kind::Load => Call::Load {
                turn: 0,
                room: load_entries(levels) + more,
                bytes: self.draw.bytes(levels.blocks() * self.width()),
            },
            Kind::Access => {
                // The same block again every now and then, so that it is found in every level.
                if self.draw.percent(70) {
                    self.last = self.draw.below(levels.blocks());
                }
                Call::Access {
                    turn: if number % 2 == 1 {
                        number
                    } else {
                        self.near(number, 1)
                    },
                    room: client.access_entries() + more,
                    operation: self.draw.below(2),
                    address: self.last,
                    bytes: self.draw.bytes(self.width()),
                }
            }
            Kind::Rebuild => {
                let turn = if number.is_multiple_of(2) && number > 0 {
                    number
                } else {
                    self.near(number, 0)
                };
                Call::Rebuild {
                    turn,
                    room: rebuild_entries(levels, turn / 2) + more,
                }
            }
        }
    }

    /// A number above 0, odd or even as `rest` says, that is near the client's and another one.
    fn near(&mut self, number: u64, rest: u64) -> u64 {
        loop {
            let near = (number + self.draw.below(9)).saturating_sub(4);
            if near > 0 && near != number && near % 2 == rest {
                return near;
            }
        }
    }

    /// Makes something wrong.
    fn spoil<S: Store, I: Index, P: Supply>(&mut self, call: &mut Call, client: &Client<S, I, P>) {
        let number = client.number();
        let (entries, width) = (client.access_entries(), self.width());
        let levels = self.levels();
        let blocks = levels.blocks();
        match call {
            // An unloaded turn has one number only.
            Call::Load { room, bytes, .. } => match self.draw.of(&[Fault::Length, Fault::Room]) {
                Fault::Length => {
                    let right = blocks * width;
                    let length = self.draw.of(&[right - 1, right + 1, right - width, 0]);
                    *bytes = self.draw.bytes(length);
                }
                _ => *room = self.short(load_entries(levels)),
            },
            Call::Access {
                turn,
                room,
                operation,
                address,
                bytes,
            } => match self.draw.of(&[
                Fault::Turn,
                Fault::Operation,
                Fault::Address,
                Fault::Length,
                Fault::Room,
            ]) {
                Fault::Turn => *turn = self.near(number, 1),
                Fault::Operation => *operation = self.draw.of(&[2, 2, 3, 256, 1 << 32]),
                Fault::Address => {
                    *address = self.draw.of(&[blocks, blocks, blocks + 1, 256, 1 << 32]);
                }
                Fault::Length => {
                    let length = self.draw.of(&[width - 1, width + 1, 0, blocks * width]);
                    *bytes = self.draw.bytes(length);
                }
                Fault::Room => *room = self.short(entries),
            },
            Call::Rebuild { turn, room } => match self.draw.of(&[Fault::Turn, Fault::Room]) {
                Fault::Turn => *turn = self.near(number, 0),
                _ => *room = self.short(rebuild_entries(levels, *turn / 2)),
            },
        }
    }

    /// Room for fewer entries, mostly for one fewer.
    fn short(&mut self, entries: u64) -> u64 {
        let one_fewer = entries.saturating_sub(1);
        self.draw.of(&[one_fewer, one_fewer, one_fewer, 0])
    }
}

#[cfg(test)]
mod tests;
