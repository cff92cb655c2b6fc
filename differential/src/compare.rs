//! One script over all that is here, the counts of what came up, and the shrinking of a script that differs.
use crate::{
    reading::{self, Capacities},
    record::{length, pieces},
    replay,
};
use std::{collections::BTreeMap, panic::catch_unwind};

/// Where the listings part: the first line that differs, or what stopped one of them.
pub type Difference = String;

fn first_line(a: &str, who_a: &str, b: &str, who_b: &str) -> Option<Difference> {
    if a == b {
        return None;
    }
    let (x, y) = a.lines().zip(b.lines()).find(|(x, y)| x != y).unwrap_or(("(ends)", "(ends)"));
    let same = x.bytes().zip(y.bytes()).take_while(|(x, y)| x == y).count();
    let from = x[..same].rfind(' ').map_or(0, |at| x[..at].rfind(' ').unwrap_or(0));
    let front: String = x.split(' ').take(2).collect::<Vec<_>>().join(" ");
    let part = |line: &str| line[from..].chars().take(60).collect::<String>();
    Some(format!("{front} .. {who_a}:{} | {who_b}:{}", part(x), part(y)))
}

/// What the second reading says of a script: the answers, the store after it, the listing.
pub struct Expected {
    pub answers: Vec<[u32; 3]>,
    pub store: reading::Store,
    pub listing: String,
}

pub fn expected(script: &[u8], capacities: Capacities) -> Expected {
    let mut store = reading::start(capacities, reading::words(capacities)).unwrap();
    let (answers, _) = store.script(script, capacities[0] as usize, usize::MAX);
    let listing = store.listing(&answers);
    Expected { answers, store, listing }
}

/// The Rust against the second reading and, with the feature, the proved store.
pub fn difference(script: &[u8], capacities: Capacities) -> Option<Difference> {
    compare(script, capacities).1
}

/// The kind and the reply of each record, by the second reading, and the first difference.
pub fn compare(script: &[u8], capacities: Capacities) -> (Vec<Met>, Option<Difference>) {
    let run = || -> (Vec<Met>, Option<Difference>) {
        let second = expected(script, capacities);
        let met = pairs(script, &second.answers);
        let (rust, listing) = match replay::run(script, capacities) {
            Ok(given) => given,
            Err(why) => return (met, Some(why)),
        };
        #[cfg(feature = "store")]
        if let Some(d) = crate::store::difference(script, capacities, &second, &rust) {
            return (met, Some(d));
        }
        drop(rust);
        (met, first_line(&listing, "the Rust", &second.listing, "the second reading"))
    };
    catch_unwind(run).unwrap_or_else(|_| (vec![], Some(format!("stopped: {:?}", crate::published::last_panic()))))
}

/// Leaves out records, first many at a time, as long as `fails`.
pub fn shrink(script: &[u8], fails: impl Fn(&[u8]) -> bool) -> Vec<u8> {
    let mut kept: Vec<Vec<u8>> = pieces(script).iter().map(|p| p.to_vec()).collect();
    let mut width = kept.len().max(1);
    loop {
        let (mut at, mut shorter) = (0, false);
        while at < kept.len() {
            let mut tried = kept.clone();
            tried.drain(at..(at + width).min(kept.len()));
            if fails(&tried.concat()) {
                kept = tried;
                shorter = true;
            } else {
                at += width;
            }
        }
        if width == 1 && !shorter {
            return kept.concat();
        }
        width = (width / 2).max(1);
    }
}

/// The records of a script as text; a broken rest in hexadecimal.
pub fn text(script: &[u8]) -> String {
    let record = |p: &&[u8]| match length(p) {
        Ok(_) => p[2..]
            .chunks(2)
            .next()
            .map(|k| u16::from_le_bytes([k[0], k[1]]).to_string())
            .into_iter()
            .chain(p[4..].chunks(4).map(|c| u32::from_le_bytes(c.try_into().unwrap()).to_string()))
            .collect::<Vec<_>>()
            .join(" "),
        Err(_) => format!("broken {}", hex(p)),
    };
    pieces(script).iter().map(record).collect::<Vec<_>>().join("; ")
}
/// FNV-1a, 64 bits.
pub fn fnv(bytes: &[u8]) -> u64 {
    bytes.iter().fold(0xcbf2_9ce4_8422_2325, |h, b| (h ^ *b as u64).wrapping_mul(0x0100_0000_01b3))
}
pub fn hex(bytes: &[u8]) -> String {
    bytes.iter().map(|b| format!("{b:02x}")).collect()
}

// ---- what came up

/// A kind and its reply: 0 accepted, 1 to 22 refused, 100 + v accepted with the verdict v. A record that gets 1 or 2 counts under kind 0.
pub type Met = (u16, u32);
pub type Coverage = BTreeMap<Met, u64>;

/// The kind and the reply of each record, by the second reading.
pub fn met(script: &[u8], capacities: Capacities) -> Vec<Met> {
    pairs(script, &expected(script, capacities).answers)
}

fn pairs(script: &[u8], answers: &[[u32; 3]]) -> Vec<Met> {
    let kinds = pieces(script).into_iter().map(|p| u16::from_le_bytes([p.get(2).copied().unwrap_or(0), p.get(3).copied().unwrap_or(0)]));
    let pair = |(kind, a): (u16, &[u32; 3])| match (kind, a[0]) {
        (_, 1 | 2) => (0, a[0]),
        (42..=44, 0) => (kind, 100 + a[1]),
        _ => (kind, a[0]),
    };
    kinds.zip(answers).map(pair).collect()
}

/// Every kind with every reply that can come up in a script over a sound store with unspent numbers.
pub fn possible() -> Vec<Met> {
    let mut all = vec![(0, 1), (0, 2)];
    for kind in 1..=44u16 {
        let own: &[u32] = match kind {
            1 => &[4, 8, 10, 20],
            2 => &[4, 20],
            3 => &[7, 10, 19, 20],
            4 => &[7, 10, 12, 19, 20],
            5 => &[7, 10, 12],
            8 => &[7, 8, 19, 20],
            9 => &[7, 8, 12, 19, 20],
            10 => &[7, 8, 12],
            6 | 7 | 11 | 12 => &[7, 12],
            13 => &[7, 19, 20],
            14 => &[7, 12, 19, 20],
            15 | 16 => &[7, 12, 13],
            17 => &[8, 19, 20],
            18 => &[8, 12, 19, 20],
            19 | 20 => &[8, 12, 13],
            21 | 22 => &[7, 15, 16, 17],
            23 | 24 => &[7, 8, 15, 17],
            25 => &[7, 16],
            26 | 27 => &[8, 15, 16, 17],
            28 | 29 => &[8, 9, 15, 17],
            30 => &[8, 16],
            31 => &[7, 9, 17, 19],
            32 => &[10, 11],
            33 => &[8, 11],
            34 => &[4, 10],
            35 => &[4, 8, 18],
            36 => &[7],
            37 => &[8],
            38 => &[9],
            39 => &[7, 13, 14],
            40 => &[8, 13, 14],
            41 => &[7, 12, 14],
            42 => &[7, 18, 100, 102, 103, 104],
            43 => &[8, 18, 100, 101, 102, 103, 104],
            _ => &[9, 18, 100, 102, 103, 104],
        };
        all.push((kind, 3));
        all.extend(own.iter().map(|&n| (kind, n)));
        if kind < 42 {
            all.push((kind, 0));
        }
    }
    all
}

/// Prints what came up. Returns how many pairs were met that cannot come up: a fault of the second reading, or of `possible`.
pub fn print_coverage(coverage: &Coverage) -> usize {
    for kind in 0..=44u16 {
        let of_kind = coverage.range((kind, 0)..(kind + 1, 0)).map(|(m, n)| format!("{}:{n}", reply_name(m.1)));
        println!("kind {kind:2}  {}", of_kind.collect::<Vec<_>>().join(" "));
    }
    let possible = possible();
    let missing: Vec<String> = possible.iter().filter(|m| !coverage.contains_key(m)).map(|m| format!("{} {}", m.0, reply_name(m.1))).collect();
    let surplus: Vec<String> = coverage.keys().filter(|m| !possible.contains(m)).map(|m| format!("{} {}", m.0, reply_name(m.1))).collect();
    println!("{} of {} pairs of kind and reply met", possible.len() - missing.len(), possible.len());
    println!("not met: {}", if missing.is_empty() { "none".into() } else { missing.join(", ") });
    println!("met and thought impossible: {}", if surplus.is_empty() { "none".into() } else { surplus.join(", ") });
    surplus.len()
}
fn reply_name(reply: u32) -> String {
    match reply {
        0 => "ok".into(),
        100.. => format!("v{}", reply - 100),
        n => n.to_string(),
    }
}
