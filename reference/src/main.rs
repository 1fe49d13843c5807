//! The program: asks the library, and prints.

#![forbid(unsafe_code)]

use std::env;
use std::ffi::{OsStr, OsString};
use std::fmt::{self, Write as _};
use std::fs::File;
use std::io::{self, BufWriter, Read, Write};
use std::process::ExitCode;

use reference::chacha20::{self, Key, KEY_BYTES};
use reference::levels::Levels;
use reference::refusal::Refusal;
use reference::runs;
use reference::session::{self, Broken};
use reference::supply::{Keyed, Supply};

fn main() -> ExitCode {
    let arguments: Vec<OsString> = env::args_os().skip(1).collect();
    match run(&arguments) {
        Ok(()) => ExitCode::SUCCESS,
        Err(wrong) => {
            // Where even this cannot be written, the status still tells.
            let _ = writeln!(io::stderr(), "reference: {wrong}");
            ExitCode::FAILURE
        }
    }
}

/// What ends a run without an answer.
enum Wrong {
    Usage,
    ReadKey,
    KeyLength,
    ReadLines,
    Refused(Refusal),
    Print,
}

impl fmt::Display for Wrong {
    fn fmt(&self, f: &mut fmt::Formatter<'_>) -> fmt::Result {
        match self {
            Wrong::Usage => f.write_str("usage: reference slots KEYFILE L BUILD INDEX.. | block KEYFILE COUNTER WORD WORD WORD | session | runs SEED COUNT"),
            Wrong::ReadKey => f.write_str("cannot read the key file"),
            Wrong::KeyLength => write!(f, "the key file has not exactly {KEY_BYTES} bytes"),
            Wrong::ReadLines => f.write_str("cannot read the lines"),
            Wrong::Refused(refusal) => refusal.fmt(f),
            Wrong::Print => f.write_str("cannot print"),
        }
    }
}

impl From<Refusal> for Wrong {
    fn from(refusal: Refusal) -> Self {
        Wrong::Refused(refusal)
    }
}

fn run(arguments: &[OsString]) -> Result<(), Wrong> {
    match arguments {
        [command, key, numbers @ ..] if command == "slots" => print(&slots(key, &parse(numbers)?)?),
        [command, key, numbers @ ..] if command == "block" => print(&block(key, &parse(numbers)?)?),
        [command] if command == "session" => answer_lines(),
        [command, numbers @ ..] if command == "runs" => write_runs(&parse(numbers)?),
        _ => Err(Wrong::Usage),
    }
}

/// Prints a text that is there as a whole, so that where something is refused nothing is printed.
fn print(text: &str) -> Result<(), Wrong> {
    io::stdout()
        .write_all(text.as_bytes())
        .map_err(|_| Wrong::Print)
}

fn answer_lines() -> Result<(), Wrong> {
    let mut output = BufWriter::new(io::stdout().lock());
    session::run(&mut io::stdin().lock(), &mut output).map_err(|broken| match broken {
        Broken::Read(_) => Wrong::ReadLines,
        Broken::Write(_) => Wrong::Print,
    })
}

fn write_runs(numbers: &[u64]) -> Result<(), Wrong> {
    let &[seed, count] = numbers else {
        return Err(Wrong::Usage);
    };
    let mut output = BufWriter::new(io::stdout().lock());
    runs::write(seed, count, &mut output).map_err(|_| Wrong::Print)
}

fn slots(key: &OsStr, numbers: &[u64]) -> Result<String, Wrong> {
    let [l, build, indexes @ ..] = numbers else {
        return Err(Wrong::Usage);
    };
    if indexes.is_empty() {
        return Err(Wrong::Usage);
    }
    let supply = Keyed::new(read_key(key)?, Levels::new(*l)?);
    let mut text = String::new();
    for &index in indexes {
        let slot = supply.slot(*build, index)?;
        let back = supply.index(*build, slot)?;
        let _ = writeln!(text, "{index} -> {slot} -> {back}");
    }
    Ok(text)
}

fn block(key: &OsStr, numbers: &[u64]) -> Result<String, Wrong> {
    let words: Result<Vec<u32>, _> = numbers
        .iter()
        .map(|&number| u32::try_from(number))
        .collect();
    let Ok(&[counter, n0, n1, n2]) = words.as_deref() else {
        return Err(Wrong::Usage);
    };
    let mut text = String::new();
    for [a, b, c, d] in fours(chacha20::block(&read_key(key)?, counter, [n0, n1, n2])) {
        let _ = writeln!(text, "{a:08x} {b:08x} {c:08x} {d:08x}");
    }
    Ok(text)
}

fn fours(words: [u32; 16]) -> [[u32; 4]; 4] {
    std::array::from_fn(|row| std::array::from_fn(|column| words[4 * row + column]))
}

/// Decimal numbers below 2^64: digits and nothing else.
fn parse(arguments: &[OsString]) -> Result<Vec<u64>, Wrong> {
    let number = |argument: &OsString| {
        let digits = argument
            .to_str()
            .filter(|text| text.bytes().all(|byte| byte.is_ascii_digit()))?;
        digits.parse().ok()
    };
    arguments
        .iter()
        .map(|argument| number(argument).ok_or(Wrong::Usage))
        .collect()
}

fn read_key(path: &OsStr) -> Result<Key, Wrong> {
    // One byte more than a key tells a file that is too long, whatever its length.
    let mut bytes = Vec::with_capacity(KEY_BYTES + 1);
    let file = File::open(path).map_err(|_| Wrong::ReadKey)?;
    file.take(KEY_BYTES as u64 + 1)
        .read_to_end(&mut bytes)
        .map_err(|_| Wrong::ReadKey)?;
    let bytes: &[u8; KEY_BYTES] = bytes.as_slice().try_into().map_err(|_| Wrong::KeyLength)?;
    Ok(Key::new(bytes))
}
