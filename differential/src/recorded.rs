//! The recorded answers: a fixed list of scripts with the listing that the Rust and the second reading both give, for a program to run again without either.
//! For each script: its length in 16 bits, its bytes, the length of the expected output in 32 bits, the output; little-endian, one after another to the end of the file.
use crate::{
    compare::{Met, difference, met, possible, shrink},
    reading::{Capacities, PROGRAM, listing_of},
    record::script,
    replay::listing_of as listing_by_the_rust,
    scripts::{PROFILES, Rng, script_of},
};
use std::collections::BTreeMap;

/// Scripts that are always recorded: the examples, and those that docs/DIFFERENCES.md names.
pub const FIXED: &[&str] = &[
    "",
    "2 1 7; 1 0 1 2 0 0 7 0 0; 24 0 0; 6 0 0; 3 0 1; 19 0 0",
    "1 0 1 0 0 0 7; 3 0 0; 39 0",
    "1 0 0 0 0 0; 21 0 0; 2 0; 24 0 0; 21 0 0",
    "1 0 0 0 0 3; 1 0 0 0 0 0; 31 0 1",
    "1 0 0 0 0 1; 2 0; 29 0 0; 1 0 1 0 0 0 7; 24 1 0; 1 0 0 1 0 0 0; 39 0",
    "36 0",
    "2 3 7 7 7; 1 0 0 1 0 0 0; 32 1 0 2",
    "2 2 7 7; 1 0 0 1 0 0 0; 32 1 0 0",
    "1 2 0 0 0 1; 2 0; 29 0 0; 1 0 0 0 1 0 0; 41 0 0",
    "1 2 0 0 0 1; 2 0; 29 0 0; 24 0 0",
    "2 0; 35 0 1",
    "2 2 7 7; 34 0 5",
    "2 0; 1 0 0 0 0 0; 24 0 0; 24 0 3",
    "2 0; 1 1 0 0 1 0 0; 35 0 1",
    "2 1 7; 1 0 1 1 0 0 7 0; 5 0 0 1",
    "2 1 7; 1 0 1 0 0 0 7; 3 0 1; 5 0 0 0",
    "2 1 7; 1 0 1 0 0 0 7; 3 0 1; 5 0 0 1",
    "2 0; 1 1 0 0 1 0 0; 40 0",
    "1 0 0 0 0 1; 2 0; 29 0 0; 1 0 0 0 1 0 0; 43 0",
    "1 2 0 0 0 1; 2 0; 29 0 0; 1 0 0 0 1 0 0; 43 0",
    "1 0 0 0 0 3; 41 0 0",
    "2 1 7; 32 0 0 0; 32 0 9 0; 33 0 9 0",
    "2 0; 1 1 0 0 1 0 0; 35 0 0",
    "1 4 0 0 0; 1 4 0 0 0 0 0; 1 0 65 0 0 0; 0; 45; 44",
];

/// Lists of 63 and 64 entries with the inserts at and past their ends.
fn full_lists() -> Vec<Vec<u8>> {
    let sixty_three = |values: &str| format!("2 1 7; 1 0 0 63 0 0{values}; 4 0 64 0; 4 0 63 0; 4 0 64 0; 4 0 65 0; 3 0 0; 5 0 63 0; 6 0 63; 7 0");
    let types = " 7".repeat(64);
    vec![
        script(&sixty_three(&" 0".repeat(63))),
        script(&format!("1 0 64 0 0 0{types}; 13 0 7; 14 0 64 7; 14 0 65 7; 15 0 63; 13 0 7; 16 0")),
        script(&format!("2 64{types}; 17 0 7; 18 0 64 7; 18 0 65 7; 19 0 63; 17 0 7; 20 0")),
        script(&format!("2 0; 1 1 0 0 64 0{}; 8 0 0; 9 0 64 0; 9 0 65 0; 11 0 63; 8 0 0; 12 0", " 0".repeat(64))),
        script("1 0 0 0 0 64; 1 0 0 0 0 1; 31 0 1; 1 0 0 0 0 0; 31 0 1; 41 0 63"),
    ]
}

/// Broken records and the ends of a script.
fn broken() -> Vec<Vec<u8>> {
    let good = script("2 1 7");
    let with = |tail: &[u8]| [&good[..], tail].concat();
    let mut longest = script(&format!("35 0 0{}", " 0".repeat(509)));
    longest.extend(script("2 0"));
    vec![
        with(&[7]),
        with(&[7, 0]),
        with(&[7, 0, 1]),
        with(&[3, 0, 2, 0]),
        with(&[6, 0, 2, 0, 0, 0]),
        with(&[4, 8, 2, 0]),
        with(&[8, 0, 2, 0, 0, 0]),
        with(&[4, 0, 0, 1]),
        with(&script(&format!("34 0 0{}", " 1".repeat(256)))),
        with(&script(&format!("34 0 0{}", " 1".repeat(257)))),
        longest,
        vec![4; 16_385],
    ]
}

/// The expected output of the program.
pub fn expected(script: &[u8]) -> String {
    if script.len() > 16_384 { "script too long\n".into() } else { listing_of(script, PROGRAM) }
}

/// What the Rust gives for a script, with the program's answer to one that is too long.
pub fn by_the_rust(script: &[u8], capacities: Capacities) -> String {
    if script.len() > 16_384 { "script too long\n".into() } else { listing_by_the_rust(script, capacities).unwrap() }
}

/// The scripts of the file recorded.bin.
pub fn read() -> Vec<Vec<u8>> {
    let file = std::fs::read("recorded.bin").unwrap();
    let (mut scripts, mut at) = (vec![], 0);
    while at < file.len() {
        let n = u16::from_le_bytes([file[at], file[at + 1]]) as usize;
        scripts.push(file[at + 2..at + 2 + n].to_vec());
        at += 2 + n;
        at += 4 + u32::from_le_bytes(file[at..at + 4].try_into().unwrap()) as usize;
    }
    scripts
}

/// Tables filled to the last place. (A region table of 64 has no 65th to move into a full list, so 19 cannot come from kind 31 here.)
fn full_tables() -> Vec<Vec<u8>> {
    let repeat = |r: &str, n: usize| format!("{r}; ").repeat(n);
    let uses = format!("2 1 7; {}", repeat(&format!("1 0 0 64 0 0{}", " 0".repeat(64)), 8));
    let values = repeat(&format!("2 64{}", " 7".repeat(64)), 4);
    vec![
        script(&format!("{}1 0 0 0 0 0; 39 3; 1 0 0 0 0 0", repeat("1 0 0 0 0 0", 128))),
        script(&format!("{}2 0; 40 63; 2 0", repeat("2 0", 64))),
        script(&format!("{}1 0 0 0 0 1; 41 0 0; 1 0 0 0 0 1", repeat("1 0 0 0 0 4", 16))),
        script(&format!("{uses}1 0 0 0 0 0; 3 8 0; 4 8 0 0; 8 8 0; 9 8 0 0; 5 0 0 0; 10 0 0 0; 6 0 0; 3 8 0; 36 0; 1 0 0 1 1 0 0 0")),
        script(&format!("{values}2 0; 2 1 7; 17 4 7; 18 4 0 7; 1 0 0 0 0 0; 13 0 7; 14 0 0 7; 1 0 1 0 0 0 7; 19 0 5; 13 0 7; 40 1; 2 1 9")),
    ]
}

/// The list: the fixed scripts; random ones of all profiles, each as it is; and for each kind and reply some that end with it, shrunk.
pub fn scripts(seed: u64, of_each_profile: usize, of_each_pair: usize) -> Vec<Vec<u8>> {
    let mut all: Vec<Vec<u8>> = FIXED.iter().map(|s| script(s)).chain(full_lists()).chain(broken()).chain(full_tables()).collect();
    let mut rng = Rng(seed);
    for &name in &PROFILES {
        let mut left = of_each_profile;
        while left > 0 {
            let (s, _, capacities) = script_of(name, &mut rng);
            if capacities == PROGRAM && s.len() < 2_500 || name == "small" && s.len() < 2_500 {
                all.push(s);
                left -= 1;
            }
        }
    }
    let mut wanted: BTreeMap<Met, usize> = possible().into_iter().map(|m| (m, of_each_pair)).collect();
    let mut tries = 0;
    while wanted.values().any(|&n| n > 0) && tries < 40_000 {
        tries += 1;
        let (s, _, capacities) = script_of(rng.of(&PROFILES), &mut rng);
        if capacities != PROGRAM || s.len() > 6_000 {
            continue;
        }
        for pair in met(&s, PROGRAM) {
            if wanted.get(&pair).is_some_and(|&n| n > 0) {
                *wanted.get_mut(&pair).unwrap() -= 1;
                all.push(shrink(&s, |t| met(t, PROGRAM).contains(&pair)));
            }
        }
    }
    all
}

/// The file's bytes; stops at a script on which the Rust and the second reading differ.
pub fn file(scripts: &[Vec<u8>]) -> Vec<u8> {
    let mut file = vec![];
    for s in scripts {
        let d = if s.len() > 16_384 { None } else { difference(s, PROGRAM) };
        assert!(d.is_none(), "{d:?}");
        let expected = expected(s);
        file.extend((s.len() as u16).to_le_bytes());
        file.extend(s);
        file.extend((expected.len() as u32).to_le_bytes());
        file.extend(expected.bytes());
    }
    file
}
