use std::collections::{BTreeMap, BTreeSet};

use super::*;
use crate::index::Gaps;
use crate::store::Joined;

/// The lines of some runs, as words.
fn runs(count: u64) -> Vec<Vec<Vec<String>>> {
    (0..count)
        .map(|number| {
            text(1, number)
                .lines()
                .map(|line| line.split(' ').map(String::from).collect())
                .collect()
        })
        .collect()
}

#[test]
fn same_over_every_kind() {
    for number in 0..500 {
        let expected = text(5, number);
        let joined = |places: u64, width: usize| {
            let first = places / 2;
            Joined::new(
                Memory::zeroed(first, width),
                Memory::zeroed(places - first, width),
            )
        };
        assert_eq!(run(5, number, joined, Bitmap::new), expected);
        assert_eq!(run(5, number, Memory::zeroed, Gaps::new), expected);
        assert_eq!(run(5, number, joined, Gaps::new), expected);
    }
}

#[test]
fn runs_do_not_hang_on_their_number_nor_on_each_other() {
    let written = |seed, count| {
        let mut output = Vec::new();
        write(seed, count, &mut output).unwrap();
        String::from_utf8(output).unwrap()
    };
    assert_eq!(written(3, 0), "");
    let many = written(3, 20);
    assert!(many.starts_with(&written(3, 7)));
    assert!(many.starts_with("run 0\n") && many.ends_with("\nend\n"));
    assert_eq!(written(3, 20), many);
    assert_ne!(written(4, 20), many);
    assert!(!many.contains("  ") && !many.contains(" \n"));
}

#[test]
fn lines_are_in_order() {
    for run in runs(300) {
        let words: Vec<&str> = run.iter().map(|line| line[0].as_str()).collect();
        let mut rest = &words[..];
        let mut take = |word: &str, least: usize| {
            let count = rest.iter().take_while(|found| **found == word).count();
            assert!(count >= least, "{word}: {words:?}");
            rest = &rest[count..];
            count
        };
        take("run", 1);
        take("open", 1);
        let builds: usize = run[1][8].parse().unwrap();
        assert_eq!(take("table", 1), builds);
        take("opened", 1);
        let mut at = 3 + builds;
        while ["load", "access", "rebuild"].contains(&words[at]) {
            assert_eq!(take(words[at], 1), 1);
            let access = words[at] == "access";
            at += 1;
            if words[at] == "declined" {
                assert_eq!(take("declined", 1), 1);
                at += 1;
                continue;
            }
            assert_eq!(take("accepted", 1), 1);
            let entries: usize = run[at][1].parse().unwrap();
            assert!(entries > 0);
            assert_eq!(take("bytes", 0), usize::from(access));
            assert_eq!(take("entry", 0), entries);
            at += 1 + usize::from(access) + entries;
        }
        let places: usize = run[1][4].parse().unwrap();
        assert_eq!(take("slot", 0), places);
        let opened = run[2 + builds][1] == "0";
        let l: usize = run[1][1].parse().unwrap();
        assert_eq!(take("record", 0), if opened { l + 1 } else { 0 });
        assert_eq!(take("list", 0), if opened { l } else { 0 });
        take("number", 1);
        take("end", 1);
        assert!(rest.is_empty());
    }
}

/// Every way to be refused comes up, and so do several epochs and traces with just room enough.
#[test]
fn everything_comes_up() {
    let mut declined: BTreeMap<(String, u32), u64> = BTreeMap::new();
    let mut opened: BTreeMap<u32, u64> = BTreeMap::new();
    let mut exact: BTreeSet<String> = BTreeSet::new();
    let mut epochs: BTreeMap<u64, u64> = BTreeMap::new();
    for run in runs(2000) {
        let mut call = Vec::new();
        for line in &run {
            match line[0].as_str() {
                "opened" => *opened.entry(line[1].parse().unwrap()).or_default() += 1,
                "load" | "access" | "rebuild" => call = line.clone(),
                "declined" => {
                    let number = line[1].parse().unwrap();
                    *declined.entry((call[0].clone(), number)).or_default() += 1;
                }
                "accepted" if line[1] == call[2] => {
                    exact.insert(call[0].clone());
                }
                "number" => {
                    let l: u64 = run[1][1].parse().unwrap();
                    let number: u64 = line[1].parse().unwrap();
                    if l <= 3 && number > 0 {
                        let most = epochs.entry(l).or_default();
                        *most = (*most).max(((number - 1) / 2) >> l);
                    }
                }
                _ => {}
            }
        }
    }
    assert!(opened.keys().copied().eq(0..=3), "{opened:?}");
    assert!(opened.values().all(|&times| times >= 20), "{opened:?}");
    let expected = [
        ("access", &[4, 5, 6, 7, 14, 15, 16][..]),
        ("load", &[6, 7, 14, 16]),
        ("rebuild", &[7, 14, 16]),
    ];
    let expected = expected.into_iter().flat_map(|(call, numbers)| {
        numbers
            .iter()
            .map(move |&number| (call.to_string(), number))
    });
    assert!(declined.keys().cloned().eq(expected), "{declined:?}");
    assert!(declined.values().all(|&times| times >= 20), "{declined:?}");
    assert_eq!(exact.len(), 3);
    assert!(
        epochs[&1] >= 4 && epochs[&2] >= 2 && epochs[&3] >= 1,
        "{epochs:?}"
    );
}
