//! Examples with their expected answers, from the Rust and from the second reading alike; and what the Rust does by itself where docs/DIFFERENCES.md says so.
use differential::{
    published::{Outcome, Published, quiet_panics},
    reading::{self, PROGRAM, words},
    record::{pieces, script, take_apart},
    recorded, replay,
};

const LISTING: &str = "\
edit 0 ok 0 0
edit 1 ok 0 0
edit 2 ok 0 0
edit 3 ok 0 0
edit 4 ok 1 0
edit 5 no 13
store 1 1 0 2 2
op 0 block 0 flags 0 res 1 opd 1:0 2:1 suc reg
block 0 region - arg 0 ops 0 pred
value 0 type 7 uses 1
value 1 type 7 uses 2
";

/// The lines of both listings, which must be one.
fn lines(text: &str) -> Vec<String> {
    quiet_panics();
    let rust = replay::listing_of(&script(text), PROGRAM).unwrap();
    assert_eq!(rust, reading::listing_of(&script(text), PROGRAM));
    rust.lines().map(|l| l.to_string()).collect()
}

/// What the last record gets.
fn last(text: &str) -> String {
    let edits: Vec<String> = lines(text).into_iter().filter(|l| l.starts_with("edit")).collect();
    edits.last().unwrap().splitn(3, ' ').nth(2).unwrap().to_string()
}

/// Does the Rust by itself carry out the last record?
fn rust_accepts(text: &str) -> bool {
    quiet_panics();
    let mut rust = Published::default();
    let outcomes: Vec<bool> = pieces(&script(text)).iter().map(|p| matches!(rust.edit(&take_apart(p).unwrap()), Outcome::Accepted(..))).collect();
    *outcomes.last().unwrap()
}

#[test]
fn the_listing() {
    assert_eq!(lines("2 1 7; 1 0 1 2 0 0 7 0 0; 24 0 0; 6 0 0; 3 0 1; 19 0 0").join("\n") + "\n", LISTING);
    assert_eq!(lines(""), ["store 0 0 0 0 0"]);
}

#[test]
fn corners() {
    let list = |n: usize| format!("2 1 7; 1 0 0 {n} 0 0{}", " 0".repeat(n));
    assert_eq!(last(&format!("{}; 4 0 64 0", list(63))), "no 12");
    assert_eq!(last(&format!("{}; 4 0 63 0", list(63))), "ok 0 0");
    assert_eq!(last(&format!("{}; 4 0 64 0", list(64))), "no 19");
    assert_eq!(last(&format!("{}; 4 0 65 0", list(64))), "no 12");
    assert_eq!(last("1 0 1 0 0 0 7; 3 0 0; 39 0"), "ok 1 1");
    assert_eq!(last("1 0 0 0 0 0; 21 0 0"), "no 16");
    assert_eq!(last("2 0; 1 0 0 0 0 0; 24 0 0; 21 0 0"), "no 15");
    assert!(lines("1 0 0 0 0 3; 1 0 0 0 0 0; 31 0 1").contains(&"op 0 block - flags 0 res opd suc reg 2 1".to_string()));
    assert_eq!(last("1 0 0 0 0 1; 2 0; 29 0 0; 1 0 1 0 0 0 7; 24 1 0; 1 0 0 1 0 0 0; 39 0"), "no 14");
}

#[test]
fn sizes() {
    assert_eq!(4 * words([1; 5]), 292);
    assert_eq!(4 * words(reading::MOST), 1_093_436);
    for c in [[1; 5], PROGRAM, reading::MOST] {
        let [o, b, r, v, u] = c.map(u64::from);
        assert!(4 * words(c) <= 512 + 128 * (o + b + r) + 40 * (v + u));
    }
    assert!(reading::start([1; 5], 72).is_err() && reading::start([1; 5], 73).is_ok() && reading::start([0, 1, 1, 1, 1], 900).is_err());
}

/// The recorded answers are those of the second reading, to the last byte of the file.
#[test]
fn recorded_answers() {
    let file = std::fs::read("recorded.bin").unwrap();
    let mut rest = &file[..];
    let mut entry = |bytes: usize| {
        let (length, after) = rest.split_at(bytes);
        let length = length.iter().rev().fold(0, |n, &b| 256 * n + b as usize);
        let (part, after) = after.split_at(length);
        rest = after;
        (part.to_vec(), rest.is_empty())
    };
    for count in 1.. {
        let (script, _) = entry(2);
        let (output, last) = entry(4);
        assert_eq!(String::from_utf8(output).unwrap(), recorded::expected(&script), "entry {count}");
        if last {
            return;
        }
    }
}

/// Script, what the store answers, whether the Rust carries out the last record.
#[test]
fn differences() {
    let rows = [
        ("36 0", "no 7", false),
        ("2 3 7 7 7; 1 0 0 1 0 0 0; 32 1 0 2", "no 11", true),
        ("2 2 7 7; 1 0 0 1 0 0 0; 32 1 0 0", "no 11", false),
        ("1 0 0 0 0 1; 2 0; 29 0 0; 1 0 1 0 0 0 7; 24 1 0; 1 0 0 1 0 0 0; 39 0", "no 14", true),
        ("1 2 0 0 0 1; 2 0; 29 0 0; 1 0 0 0 1 0 0; 41 0 0", "no 14", true),
        ("1 2 0 0 0 1; 2 0; 29 0 0; 24 0 0", "no 17", true),
        ("2 0; 35 0 1", "no 8", true),
        ("2 2 7 7; 34 0 5", "no 10", true),
        ("2 0; 1 0 0 0 0 0; 24 0 0; 24 0 3", "no 8", false),
        ("2 0; 1 1 0 0 1 0 0; 35 0 1", "no 8", false),
        ("2 1 7; 1 0 1 1 0 0 7 0; 5 0 0 1", "ok 0 0", true),
        ("2 1 7; 1 0 1 0 0 0 7; 3 0 1; 5 0 0 0", "ok 0 0", false),
    ];
    for (text, answer, accepts) in rows {
        assert_eq!(last(text), answer, "{text}");
        assert_eq!(rust_accepts(text), accepts, "{text}");
    }
}
