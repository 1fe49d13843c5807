//! The lines of a session: fields with commas between them, and no quotes.

use crate::refusal::Refusal;

/// What a line asks for.
#[derive(Clone, Debug, PartialEq, Eq)]
pub enum Line {
    /// `O,L,W`: to open a client and load it.
    Open {
        /// L.
        l: u64,
        /// W.
        w: u64,
    },
    /// `R,ADDRESS`: to read a block.
    Read {
        /// Its address.
        address: u64,
    },
    /// `W,ADDRESS,BYTES`: to write a block.
    Write {
        /// Its address.
        address: u64,
        /// Its new bytes.
        bytes: Vec<u8>,
    },
    /// `B`: to rebuild.
    Rebuild,
}

impl Line {
    /// Reads a line without its end; refused with [`Refusal::Line`] where it is none of the four.
    pub fn read(line: &[u8]) -> Result<Self, Refusal> {
        let fields: Vec<&[u8]> = line.split(|&byte| byte == b',').collect();
        match fields[..] {
            [b"O", l, w] => Ok(Line::Open {
                l: number(l)?,
                w: number(w)?,
            }),
            [b"R", address] => Ok(Line::Read {
                address: number(address)?,
            }),
            [b"W", address, digits] => Ok(Line::Write {
                address: number(address)?,
                bytes: bytes(digits)?,
            }),
            [b"B"] => Ok(Line::Rebuild),
            _ => Err(Refusal::Line),
        }
    }
}

/// A number of 1 to 9 decimal digits.
fn number(field: &[u8]) -> Result<u64, Refusal> {
    if !(1..=9).contains(&field.len()) {
        return Err(Refusal::Line);
    }
    field.iter().try_fold(0, |number, &digit| match digit {
        b'0'..=b'9' => Ok(10 * number + u64::from(digit - b'0')),
        _ => Err(Refusal::Line),
    })
}

/// Bytes of two hexadecimal digits each; of none where the field is empty.
fn bytes(field: &[u8]) -> Result<Vec<u8>, Refusal> {
    field
        .chunks(2)
        .map(|byte| match *byte {
            [high, low] => Ok(16 * hexadecimal(high)? + hexadecimal(low)?),
            _ => Err(Refusal::Line),
        })
        .collect()
}

/// A hexadecimal digit, whose letters are capitals.
fn hexadecimal(digit: u8) -> Result<u8, Refusal> {
    match digit {
        b'0'..=b'9' => Ok(digit - b'0'),
        b'A'..=b'F' => Ok(digit - b'A' + 10),
        _ => Err(Refusal::Line),
    }
}

#[cfg(test)]
mod tests {
    use super::*;

    #[test]
    fn readable() {
        let write = |address, bytes: &[u8]| Line::Write {
            address,
            bytes: bytes.to_vec(),
        };
        for (text, line) in [
            ("O,2,1", Line::Open { l: 2, w: 1 }),
            (
                "O,000000000,999999999",
                Line::Open {
                    l: 0,
                    w: 999_999_999,
                },
            ),
            ("R,3", Line::Read { address: 3 }),
            ("R,007", Line::Read { address: 7 }),
            ("W,3,7F", write(3, &[0x7f])),
            ("W,0,00FFA90B", write(0, &[0, 255, 0xa9, 0x0b])),
            ("W,3,", write(3, &[])),
            ("B", Line::Rebuild),
        ] {
            assert_eq!(Line::read(text.as_bytes()), Ok(line), "{text}");
        }
    }

    #[test]
    fn unreadable() {
        for text in [
            "",
            ",",
            "O",
            "O,2",
            "O,2,",
            "O,,1",
            "O,2,1,",
            "O,2,1,0",
            "O,1000000000,1",
            "O,2,1000000000",
            "O,-2,1",
            "O,+2,1",
            "O, 2,1",
            "O,2,1 ",
            "O,2,\"1\"",
            "o,2,1",
            "OO,2,1",
            " O,2,1",
            "R",
            "R,",
            "R,3,",
            "R,3,00",
            "R,x",
            "R,0x3",
            "R,1234567890",
            "R,0000000003",
            "W",
            "W,3",
            "W,3,7",
            "W,3,7F0",
            "W,3,7f",
            "W,3,7G",
            "W,3,7F,",
            "W,3,7F,7F",
            "W,,7F",
            "W,3, 7F",
            "B,",
            "B,1",
            "b",
            "N,13",
            "\"B\"",
            "B\r",
            "R,3\r",
            "B\0",
            "\u{feff}B",
            "R,٣",
        ] {
            assert_eq!(Line::read(text.as_bytes()), Err(Refusal::Line), "{text:?}");
        }
        assert_eq!(Line::read(&[b'B', 0xff]), Err(Refusal::Line));
        assert_eq!(Line::read(&[0xff]), Err(Refusal::Line));
    }
}
