//! The numbered refusals.

use std::error::Error;
use std::fmt;

use crate::supply::table::Unfit;

/// Why a question is not answered.
#[derive(Clone, Copy, Debug, PartialEq, Eq)]
pub enum Refusal {
    /// L or W is outside its range.
    Range,
    /// The store has slots of another width than W, or not places enough.
    Store,
    /// The index or the supply is for another L, or the index has members already.
    IndexOrSupply,
    /// An operation is neither 0, to read, nor 1, to write.
    Operation,
    /// No block has the address.
    Address,
    /// The byte run has not the length of what is to go through it: a block, or at a load all blocks.
    ByteRun,
    /// The trace has not room for the call's entries.
    Trace,
    /// A list of slots is no table of permutations.
    Table,
    /// A round has no place or more than 13, or not one key and one payload for each.
    Round,
    /// A place is beyond the store.
    BeyondStore,
    /// An index has no such list, or the address cannot come last there, or the list is full.
    List,
    /// A build, index or slot is beyond the supply.
    BeyondSupply,
    /// A session's line cannot be read.
    Line,
    /// The turn has another number than the client.
    Turn,
    /// The supply has no build for the rebuild that would come next.
    Build,
    /// The client was opened with a refusal.
    Opening,
    /// The letter of a session's line is not for the state that the session is in.
    Letter,
}

impl Refusal {
    /// The number it goes by.
    pub fn number(self) -> u32 {
        match self {
            Refusal::Range => 1,
            Refusal::Store => 2,
            Refusal::IndexOrSupply => 3,
            Refusal::Operation => 4,
            Refusal::Address => 5,
            Refusal::ByteRun => 6,
            Refusal::Trace => 7,
            Refusal::Table => 8,
            Refusal::Round => 9,
            Refusal::BeyondStore => 10,
            Refusal::List => 11,
            Refusal::BeyondSupply => 12,
            Refusal::Line => 13,
            Refusal::Turn => 14,
            Refusal::Build => 15,
            Refusal::Opening => 16,
            Refusal::Letter => 17,
        }
    }

    /// The words that go with the number.
    pub fn words(self) -> &'static str {
        match self {
            Refusal::Range => "L or W outside its range",
            Refusal::Store => "store of another width, or with too few places",
            Refusal::IndexOrSupply => "index or supply for another L, or index not empty",
            Refusal::Operation => "operation neither 0 nor 1",
            Refusal::Address => "address beyond the blocks",
            Refusal::ByteRun => "byte run of the wrong length",
            Refusal::Trace => "trace too short",
            Refusal::Table => "no table of permutations",
            Refusal::Round => "places none or too many, or lengths not matching",
            Refusal::BeyondStore => "place beyond the store",
            Refusal::List => "no such list, or address not to be appended",
            Refusal::BeyondSupply => "build, index or slot beyond the supply",
            Refusal::Line => "line unreadable",
            Refusal::Turn => "number of the turn not the client's",
            Refusal::Build => "no build left in the supply",
            Refusal::Opening => "client opened with a refusal",
            Refusal::Letter => "letter not for the session's state",
        }
    }
}

impl fmt::Display for Refusal {
    fn fmt(&self, f: &mut fmt::Formatter<'_>) -> fmt::Result {
        write!(f, "refused by number {}: {}", self.number(), self.words())
    }
}

impl Error for Refusal {}

impl From<Unfit> for Refusal {
    fn from(_: Unfit) -> Self {
        Refusal::Table
    }
}
