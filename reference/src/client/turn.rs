//! Turns: what a call is made with, and what the next one is made with for it.
//!
//! A turn has the number of calls that its client had accepted when it was given. It is moved into a call, which gives
//! the next one for it, or the same one back where it is declined. That the kind fits the client's state is seen when
//! the program is compiled, so that an access cannot be made while a rebuild is due:
//!
//! ```compile_fail,E0308
//! # use reference::client::{Client, Due, Entry};
//! # use reference::{index::Bitmap, store::Memory, supply::Straight};
//! fn wrong(client: &mut Client<Memory, Bitmap, Straight>, due: Due, trace: &mut [Entry]) {
//!     let _ = client.access(due, 0, 0, &mut [0], trace);
//! }
//! ```
//!
//! nor a rebuild before an access:
//!
//! ```compile_fail,E0308
//! # use reference::client::{Client, Entry, Resting};
//! # use reference::{index::Bitmap, store::Memory, supply::Straight};
//! fn wrong(client: &mut Client<Memory, Bitmap, Straight>, resting: Resting, trace: &mut [Entry]) {
//!     let _ = client.rebuild(resting, trace);
//! }
//! ```

/// The turn of an opening. Its number is 0, and a client can only be loaded with it.
#[derive(Debug, PartialEq, Eq)]
#[must_use]
pub struct Unloaded {
    number: u64,
}

/// The turn of a load or a rebuild. Its number is odd, and a block can only be accessed with it.
#[derive(Debug, PartialEq, Eq)]
#[must_use]
pub struct Resting {
    number: u64,
}

/// The turn of an access. Its number is even and 2 at least, and a level can only be rebuilt with it.
#[derive(Debug, PartialEq, Eq)]
#[must_use]
pub struct Due {
    number: u64,
}

impl Unloaded {
    /// The turn of an opening.
    pub(super) fn first() -> Self {
        Unloaded { number: 0 }
    }

    /// The turn of this number, if there is one of this kind.
    pub(crate) fn numbered(number: u64) -> Option<Self> {
        (number == 0).then_some(Unloaded { number })
    }

    /// Its number.
    pub fn number(&self) -> u64 {
        self.number
    }

    /// The turn that a load gives for it.
    pub(super) fn loaded(self) -> Resting {
        Resting {
            number: self.number + 1,
        }
    }
}

impl Resting {
    /// The turn of this number, if there is one of this kind.
    pub(crate) fn numbered(number: u64) -> Option<Self> {
        (number % 2 == 1).then_some(Resting { number })
    }

    /// Its number.
    pub fn number(&self) -> u64 {
        self.number
    }

    /// The turn that an access gives for it.
    pub(super) fn accessed(self) -> Due {
        Due {
            number: self.number + 1,
        }
    }
}

impl Due {
    /// The turn of this number, if there is one of this kind.
    pub(crate) fn numbered(number: u64) -> Option<Self> {
        (number.is_multiple_of(2) && number >= 2).then_some(Due { number })
    }

    /// Its number.
    pub fn number(&self) -> u64 {
        self.number
    }

    /// The build that is due, which is the number of accesses so far.
    pub fn build(&self) -> u64 {
        self.number / 2
    }

    /// The turn that a rebuild gives for it.
    pub(super) fn rebuilt(self) -> Resting {
        Resting {
            number: self.number + 1,
        }
    }
}

#[cfg(test)]
mod tests {
    use super::*;

    #[test]
    fn numbers_of_each_kind() {
        for number in 0..10 {
            let unloaded = Unloaded::numbered(number).map(|turn| turn.number());
            let resting = Resting::numbered(number).map(|turn| turn.number());
            let due = Due::numbered(number).map(|turn| turn.number());
            let kinds = match number {
                0 => (Some(0), None, None),
                1 | 3 | 5 | 7 | 9 => (None, Some(number), None),
                _ => (None, None, Some(number)),
            };
            assert_eq!((unloaded, resting, due), kinds);
        }
    }

    #[test]
    fn each_gives_the_next() {
        let resting = Unloaded::first().loaded();
        assert_eq!(resting.number(), 1);
        let due = resting.accessed();
        assert_eq!((due.number(), due.build()), (2, 1));
        let resting = due.rebuilt();
        assert_eq!(resting.number(), 3);
        assert_eq!(resting.accessed().build(), 2);
    }
}
