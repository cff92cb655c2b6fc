//! What the tests share: the program's capacities, the repository's files, the recorded scripts.
#![allow(dead_code)]
use recipe_store::Capacities;
use std::{fs, path::PathBuf};

/// The capacities of the program `recipe`, for which the scripts were recorded.
pub const PROGRAM: Capacities = Capacities { operations: 128, blocks: 64, regions: 64, values: 256, uses: 512 };
/// The longest script that the program runs.
pub const SCRIPT_BYTES: usize = 16384;

pub fn root() -> PathBuf {
    PathBuf::from(env!("CARGO_MANIFEST_DIR")).join("..")
}

pub fn read(path: &str) -> Vec<u8> {
    fs::read(root().join(path)).unwrap_or_else(|error| panic!("{path}: {error}"))
}

/// The scripts of differential/recorded.bin, each with what the program prints.
pub fn recorded() -> Vec<(Vec<u8>, Vec<u8>)> {
    let bytes = read("differential/recorded.bin");
    let mut rest = &bytes[..];
    let mut take = |n: usize| {
        let (part, after) = rest.split_at(n);
        rest = after;
        (part.to_vec(), rest.is_empty())
    };
    let mut entries = Vec::new();
    loop {
        let script_length = u16::from_le_bytes(take(2).0.try_into().unwrap());
        let script = take(script_length.into()).0;
        let output_length = u32::from_le_bytes(take(4).0.try_into().unwrap());
        let (output, last) = take(output_length as usize);
        entries.push((script, output));
        if last {
            return entries;
        }
    }
}

/// The records of a script: each with its kind. A broken rest is left out.
pub fn records(script: &[u8]) -> Vec<(u16, &[u8])> {
    let mut rest = script;
    let mut records = Vec::new();
    while rest.len() >= 4 {
        let number = |at: usize| u16::from_le_bytes([rest[at], rest[at + 1]]);
        let length = usize::from(number(0));
        if !(4..=2048).contains(&length) || length % 4 != 0 || length > rest.len() {
            break;
        }
        records.push((number(2), &rest[..length]));
        rest = &rest[length..];
    }
    records
}
