//! Runs the program itself.

use std::fs;
use std::io::Write;
use std::path::PathBuf;
use std::process::{Command, Output, Stdio};

const USAGE: &str =
    "usage: reference slots KEYFILE L BUILD INDEX.. | block KEYFILE COUNTER WORD WORD WORD \
     | session | runs SEED COUNT";
const RANGE: &str = "refused by number 1: L or W outside its range";
const BEYOND: &str = "refused by number 12: build, index or slot beyond the supply";

/// A key file of its own for each test, of the bytes 0, 1, 2 and so on.
fn key(test: &str, length: u8) -> PathBuf {
    let path = PathBuf::from(env!("CARGO_TARGET_TMPDIR")).join(format!("{test}_{length}"));
    fs::write(&path, (0..length).collect::<Vec<u8>>()).unwrap();
    path
}

/// Runs a command line, in which `KEY` stands for the key file.
fn run(line: &str, key: &PathBuf) -> Output {
    let mut command = Command::new(env!("CARGO_BIN_EXE_reference"));
    for word in line.split_whitespace() {
        if word == "KEY" {
            command.arg(key);
        } else {
            command.arg(word);
        }
    }
    command.output().unwrap()
}

/// Runs a session with an input.
fn session(input: &[u8]) -> Output {
    let mut child = Command::new(env!("CARGO_BIN_EXE_reference"))
        .arg("session")
        .stdin(Stdio::piped())
        .stdout(Stdio::piped())
        .stderr(Stdio::piped())
        .spawn()
        .unwrap();
    child.stdin.take().unwrap().write_all(input).unwrap();
    child.wait_with_output().unwrap()
}

fn assert_wrong(line: &str, key: &PathBuf, message: &str) {
    let output = run(line, key);
    assert_eq!(output.status.code(), Some(1), "{line}");
    assert_eq!(String::from_utf8_lossy(&output.stdout), "", "{line}");
    assert_eq!(
        String::from_utf8_lossy(&output.stderr),
        format!("reference: {message}\n"),
        "{line}"
    );
}

#[test]
fn block_is_printed_as_in_section_2_3_2() {
    let output = run("block KEY 1 150994944 1241513984 0", &key("block", 32));
    assert!(output.status.success());
    assert!(output.stderr.is_empty());
    assert_eq!(
        String::from_utf8(output.stdout).unwrap(),
        "e4e7f110 15593bd1 1fdd0f50 c47120a3\n\
         c7f4d1c7 0368c033 9aaa2204 4e6cd4c3\n\
         466482d2 09aa9f07 05d7c214 a2028bd9\n\
         d19c12b5 b94e16de e883d0cb 4e3c50a2\n"
    );
}

#[test]
fn slots_are_printed_a_line_each() {
    let output = run("slots KEY 3 0 15 0 7 7", &key("slots", 32));
    assert!(output.status.success());
    assert!(output.stderr.is_empty());
    let text = String::from_utf8(output.stdout).unwrap();
    let lines: Vec<Vec<u64>> = text
        .lines()
        .map(|line| line.split(" -> ").map(|n| n.parse().unwrap()).collect())
        .collect();
    assert_eq!(lines.len(), 4);
    for (line, index) in lines.iter().zip([15, 0, 7, 7]) {
        assert_eq!((line.len(), line[0], line[2]), (3, index, index));
        assert!(line[1] < 16);
    }
    assert_eq!(lines[2], lines[3]);
    assert_ne!(lines[0][1], lines[1][1]);
}

#[test]
fn session_answers_line_by_line() {
    for end in ["\r\n", "\n"] {
        let lines = |text: &str| text.replace(' ', end) + end;
        let output = session(lines("O,2,1 R,3 B W,3,7F B R,1 B R,3 B").as_bytes());
        assert!(output.status.success());
        assert!(output.stderr.is_empty());
        assert_eq!(
            String::from_utf8(output.stdout).unwrap(),
            lines("O,8 R,03,9 B,0,6 W,7F,0,10 B,1,13 R,01,3,7 B,0,6 R,7F,1,2,11 B,2,31")
        );
    }
    // Refused lines are answered too, and do not end the session.
    let output = session(b"B\nO,5,1\n\xff\nO,1,1\nR,2\nR,1");
    assert!(output.status.success());
    assert_eq!(
        String::from_utf8(output.stdout).unwrap(),
        "N,17\nN,1\nN,13\nO,4\nN,5\nR,01,3\n"
    );
    let output = session(b"");
    assert!(output.status.success());
    assert!(output.stdout.is_empty());
}

#[test]
fn runs_are_printed() {
    let key = key("runs", 32);
    let text = |line: &str| {
        let output = run(line, &key);
        assert!(output.status.success());
        assert!(output.stderr.is_empty());
        String::from_utf8(output.stdout).unwrap()
    };
    let three = text("runs 18446744073709551615 3");
    let heads: Vec<&str> = three
        .lines()
        .filter(|line| line.starts_with("run ") || *line == "end")
        .collect();
    assert_eq!(heads, ["run 0", "end", "run 1", "end", "run 2", "end"]);
    assert_eq!(text("runs 18446744073709551615 3"), three);
    assert_ne!(text("runs 0 3"), three);
    assert_eq!(text("runs 1 0"), "");
}

#[test]
fn refusals() {
    let key = key("refusals", 32);
    for l in ["0", "13", "4294967297", "18446744073709551615"] {
        assert_wrong(&format!("slots KEY {l} 0 0"), &key, RANGE);
        // L is looked at first.
        assert_wrong(&format!("slots KEY {l} 1000000 0"), &key, RANGE);
    }
    for build in ["1000000", "4294967296", "18446744073709551615"] {
        assert_wrong(&format!("slots KEY 12 {build} 0"), &key, BEYOND);
    }
    assert!(run("slots KEY 12 999999 1", &key).status.success());
    assert_wrong("slots KEY 12 999999 2", &key, BEYOND);
    assert!(run("slots KEY 12 0 8191", &key).status.success());
    assert_wrong("slots KEY 12 0 8192", &key, BEYOND);
    // A refused index anywhere in the list keeps the others from being printed.
    assert_wrong("slots KEY 12 0 0 1 2 8192 3", &key, BEYOND);
    assert_wrong("slots KEY 12 0 0 4294967296", &key, BEYOND);
}

#[test]
fn wrong_use() {
    let right = key("use", 32);
    for line in [
        "",
        "slots",
        "slots KEY",
        "slots KEY 3",
        "slots KEY 3 0",
        "slots KEY three 0 0",
        "slots KEY 3 -1 0",
        "slots KEY 3 0 +1",
        "slots KEY 3 0 0x1",
        "slots KEY 3 0 18446744073709551616",
        "block KEY",
        "block KEY 1 2 3",
        "block KEY 1 2 3 4 5",
        "block KEY 4294967296 2 3 4",
        "block KEY 1 2 3 4294967296",
        "block KEY 1 2 3 x",
        "other KEY 3 0 0",
        "session KEY",
        "session 1",
        "runs",
        "runs 1",
        "runs 1 2 3",
        "runs x 1",
        "runs 1 -1",
        "runs 1 18446744073709551616",
    ] {
        assert_wrong(line, &right, USAGE);
    }
    for length in [0, 31, 33] {
        let key = key("use", length);
        assert_wrong(
            "slots KEY 3 0 0",
            &key,
            "the key file has not exactly 32 bytes",
        );
        assert_wrong(
            "block KEY 1 2 3 4",
            &key,
            "the key file has not exactly 32 bytes",
        );
    }
    let absent = PathBuf::from(env!("CARGO_TARGET_TMPDIR")).join("absent");
    assert_wrong("slots KEY 3 0 0", &absent, "cannot read the key file");
    assert_wrong("block KEY 1 2 3 4", &absent, "cannot read the key file");
}
