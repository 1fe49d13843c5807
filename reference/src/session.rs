//! A session: a client over a straight supply, asked by lines and answering by lines.
//!
//! A line `O,L,W` opens a client and loads every block with bytes equal to its address; `R,ADDRESS` reads a block,
//! `W,ADDRESS,BYTES` writes one, and `B` rebuilds. The answer begins with the same letter. For `O` the number of
//! entries follows; for `R` and `W` the block's bytes and the places asked; for `B` the level and the number of
//! entries. A line that is refused is answered by `N` and the refusal's number, and changes nothing. It is first seen
//! whether the line can be read, then whether its letter is for the session's state, and then comes what the call
//! itself checks.
//!
//! The lines are those of RFC 4180, without header and quotes, but a line may end in LF alone too. A line is answered
//! with the end that it has itself. The last one may have none: it is answered with the end of the line before, or
//! with CRLF where there is none.

mod line;

pub use line::Line;

use std::fmt::Write as _;
use std::io::{self, BufRead, Write};

use crate::client::{most_entries, Client, Due, Entry, Resting};
use crate::index::Bitmap;
use crate::levels::Levels;
use crate::refusal::Refusal;
use crate::store::Memory;
use crate::supply::{straight, Extent, Straight};

/// The largest L of a session.
pub const MOST_LEVELS: u64 = 4;

/// The largest W of a session.
pub const WIDEST: u64 = 16;

/// A session.
#[derive(Debug, Default)]
pub struct Session {
    state: State,
}

/// What a session is ready for.
#[derive(Debug, Default)]
enum State {
    #[default]
    Unopened,
    Resting(Opened, Resting),
    Due(Opened, Due),
}

/// What a session has once it is open.
#[derive(Debug)]
struct Opened {
    client: Client<Memory, Bitmap, Straight>,
    levels: Levels,
    width: usize,
    trace: Vec<Entry>,
}

impl Session {
    /// A session that is not open yet.
    pub fn new() -> Self {
        Session::default()
    }

    /// The answer to a line. Both are without their ends.
    pub fn answer(&mut self, line: &[u8]) -> String {
        let state = std::mem::take(&mut self.state);
        let (state, answer) = match Line::read(line) {
            Ok(line) => state.answer(line),
            Err(refusal) => (state, Err(refusal)),
        };
        self.state = state;
        answer.unwrap_or_else(|refusal| format!("N,{}", refusal.number()))
    }
}

impl State {
    /// The state after a line, and the answer to it.
    fn answer(self, line: Line) -> (State, Result<String, Refusal>) {
        match (self, line) {
            (State::Unopened, Line::Open { l, w }) => match Opened::new(l, w) {
                Ok((opened, resting, entries)) => {
                    (State::Resting(opened, resting), Ok(format!("O,{entries}")))
                }
                Err(refusal) => (State::Unopened, Err(refusal)),
            },
            (State::Resting(opened, resting), Line::Read { address }) => {
                let bytes = vec![0; opened.width];
                opened.access(resting, 'R', 0, address, bytes)
            }
            (State::Resting(opened, resting), Line::Write { address, bytes }) => {
                opened.access(resting, 'W', 1, address, bytes)
            }
            (State::Due(opened, due), Line::Rebuild) => opened.rebuild(due),
            (state, _) => (state, Err(Refusal::Letter)),
        }
    }
}

impl Opened {
    /// Opens and loads a client. It answers the number of the load's entries too.
    fn new(l: u64, w: u64) -> Result<(Self, Resting, usize), Refusal> {
        if !(1..=MOST_LEVELS).contains(&l) || !(1..=WIDEST).contains(&w) {
            return Err(Refusal::Range);
        }
        let levels = Levels::new(l)?;
        let width = w as usize;
        let (mut client, unloaded) = Client::open(
            l,
            w,
            Memory::zeroed(levels.places(), width),
            Bitmap::new(levels),
            Straight::new(Extent {
                levels,
                builds: straight::BUILDS,
            }),
        );
        let mut trace = vec![Entry::default(); most_entries(levels) as usize];
        // At most 16 blocks, so that an address is a byte.
        let blocks: Vec<u8> = (0..levels.blocks())
            .flat_map(|address| vec![address as u8; width])
            .collect();
        let (resting, entries) = client
            .load(unloaded, &blocks, &mut trace)
            .map_err(|declined| declined.refusal)?;
        let opened = Opened {
            client,
            levels,
            width,
            trace,
        };
        Ok((opened, resting, entries))
    }

    fn access(
        mut self,
        resting: Resting,
        letter: char,
        operation: u64,
        address: u64,
        mut bytes: Vec<u8>,
    ) -> (State, Result<String, Refusal>) {
        let answer = self
            .client
            .access(resting, operation, address, &mut bytes, &mut self.trace);
        match answer {
            Ok((due, entries)) => {
                let mut text = format!("{letter},");
                for byte in bytes {
                    let _ = write!(text, "{byte:02X}");
                }
                for entry in &self.trace[..entries] {
                    let _ = write!(text, ",{}", entry.place);
                }
                (State::Due(self, due), Ok(text))
            }
            Err(declined) => (State::Resting(self, declined.turn), Err(declined.refusal)),
        }
    }

    fn rebuild(mut self, due: Due) -> (State, Result<String, Refusal>) {
        let level = self.levels.of_build(due.build());
        match self.client.rebuild(due, &mut self.trace) {
            Ok((resting, entries)) => (
                State::Resting(self, resting),
                Ok(format!("B,{level},{entries}")),
            ),
            Err(declined) => (State::Due(self, declined.turn), Err(declined.refusal)),
        }
    }
}

/// What broke a session off.
#[derive(Debug)]
pub enum Broken {
    /// The lines could not be read.
    Read(io::Error),
    /// The answers could not be written.
    Write(io::Error),
}

/// Answers every line of an input.
pub fn run(input: &mut impl BufRead, output: &mut impl Write) -> Result<(), Broken> {
    const CRLF: &str = "\r\n";
    let mut session = Session::new();
    let mut line = Vec::new();
    let mut end = CRLF;
    loop {
        line.clear();
        if input.read_until(b'\n', &mut line).map_err(Broken::Read)? == 0 {
            return output.flush().map_err(Broken::Write);
        }
        let content = if let Some(content) = line.strip_suffix(b"\r\n") {
            end = CRLF;
            content
        } else if let Some(content) = line.strip_suffix(b"\n") {
            end = "\n";
            content
        } else {
            &line[..]
        };
        let answer = session.answer(content);
        write!(output, "{answer}{end}").map_err(Broken::Write)?;
    }
}

#[cfg(test)]
mod tests {
    use super::*;

    fn answers(lines: &str) -> Vec<String> {
        let mut session = Session::new();
        lines
            .split_whitespace()
            .map(|line| session.answer(line.as_bytes()))
            .collect()
    }

    fn assert_answers(lines: &str, expected: &str) {
        let expected: Vec<&str> = expected.split_whitespace().collect();
        assert_eq!(answers(lines), expected, "{lines}");
    }

    fn output(input: &[u8]) -> String {
        let mut output = Vec::new();
        run(&mut &input[..], &mut output).unwrap();
        String::from_utf8(output).unwrap()
    }

    #[test]
    fn worked_session() {
        assert_answers(
            "O,2,1 R,3 B W,3,7F B R,1 B R,3 B",
            "O,8 R,03,9 B,0,6 W,7F,0,10 B,1,13 R,01,3,7 B,0,6 R,7F,1,2,11 B,2,31",
        );
    }

    #[test]
    fn blocks_in_turn() {
        assert_answers(
            "O,2,1 R,0 B R,1 B R,2 B R,3 B",
            "O,8 R,00,6 B,0,6 R,01,1,7 B,1,13 R,02,4,8 B,0,6 R,03,1,5,9 B,2,31",
        );
    }

    #[test]
    fn bytes_of_wide_blocks() {
        assert_answers(
            "O,4,16 R,10 B W,10,000102030405060708090A0B0C0D0E0F B R,10",
            "O,32 R,0A0A0A0A0A0A0A0A0A0A0A0A0A0A0A0A,40 B,0,6 \
             W,000102030405060708090A0B0C0D0E0F,0,46 B,1,13 R,000102030405060708090A0B0C0D0E0F,2,47",
        );
    }

    #[test]
    fn letters_for_each_state() {
        assert_answers("R,0 W,0,00 B O,1,1", "N,17 N,17 N,17 O,4");
        assert_answers(
            "O,1,1 B O,1,1 R,0 R,0 W,0,00 O,1,1 B R,1",
            "O,4 N,17 N,17 R,00,2 N,17 N,17 N,17 B,0,6 R,01,1,3",
        );
    }

    #[test]
    fn refusals_in_their_order() {
        // Unreadable comes before the state, and the state before the call's own.
        assert_answers("R,x B,1 R,3", "N,13 N,13 N,17");
        assert_answers("O,1,1 O,9,9 O,9,x", "O,4 N,17 N,13");
        assert_answers(
            "O,1,2 R,2 W,2, W,1,00 W,1,000000 W,1,",
            "O,4 N,5 N,5 N,6 N,6 N,6",
        );
        assert_answers("O,1,1 R,0 R,2 W,0,0 W,5,00", "O,4 R,00,2 N,17 N,13 N,17");
        // A declined line leaves everything as it was.
        assert_answers("O,1,1 R,2 R,1 R,0 B", "O,4 N,5 R,01,3 N,17 B,0,6");
    }

    #[test]
    fn opening_that_is_declined_leaves_it_unopened() {
        assert_answers(
            "O,0,1 O,5,1 O,1,0 O,1,17 O,999999999,999999999 R,0 O,4,16 O,4,16",
            "N,1 N,1 N,1 N,1 N,1 N,17 O,32 N,17",
        );
    }

    #[test]
    fn ends_of_lines() {
        assert_eq!(output(b""), "");
        assert_eq!(output(b"O,1,1\r\nR,0\r\n"), "O,4\r\nR,00,2\r\n");
        assert_eq!(output(b"O,1,1\nR,0\n"), "O,4\nR,00,2\n");
        assert_eq!(output(b"O,1,1\nR,0\r\nB\n"), "O,4\nR,00,2\r\nB,0,6\n");
        // The last line without an end.
        assert_eq!(output(b"O,1,1"), "O,4\r\n");
        assert_eq!(output(b"O,1,1\nR,0"), "O,4\nR,00,2\n");
        assert_eq!(output(b"O,1,1\r\nR,0"), "O,4\r\nR,00,2\r\n");
        // A line without anything is a line, and CR alone is no end.
        assert_eq!(output(b"\n"), "N,13\n");
        assert_eq!(output(b"\r\n\nB"), "N,13\r\nN,13\nN,17\n");
        assert_eq!(output(b"B\rB\r\n"), "N,13\r\n");
        assert_eq!(output(b"B\r"), "N,13\r\n");
        assert_eq!(output(b"B\r\r\n"), "N,13\r\n");
        assert_eq!(output(b"\xff\n"), "N,13\n");
    }

    #[test]
    fn builds_end() {
        let mut session = Session::new();
        session.answer(b"O,1,1");
        for _ in 1..straight::BUILDS {
            assert!(session.answer(b"R,0").starts_with("R,00,"));
            assert!(session.answer(b"B").starts_with("B,"));
        }
        assert_eq!(session.answer(b"R,0"), "N,15");
        assert_eq!(session.answer(b"W,0,00"), "N,15");
        assert_eq!(session.answer(b"W,0,"), "N,6");
        assert_eq!(session.answer(b"B"), "N,17");
    }
}
