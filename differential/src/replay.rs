//! A script on the Rust. Where the Rust stops, or carries out what the store refuses, the Rust's store is of no use any more:
//! it is built again from the accepted records, and the script goes on.
use crate::{
    published::{Outcome, Published, is_borrow, refusal_of},
    reading::{Capacities, Reply},
    record::{Record, length, take_apart},
};
use std::fmt::Write;

#[derive(Default)]
pub struct Replay {
    pub rust: Published,
    /// The accepted records; true where kind 5 had to be carried out by an insert and a remove.
    pub accepted: Vec<(Record, bool)>,
    pub rebuilt: usize,
}

/// Refusals that the Rust itself shows by a panic.
const SHOWN: [u32; 5] = [12, 13, 15, 16, 18];

/// What the Rust did that no rule explains: a fault of the comparison or a difference that is not on the page.
pub type Unexplained = String;

/// Kind 5 on an own result, by the Rust's insert at the index and remove behind it: one use born, one ended, the same place.
fn replace_by_insert(rust: &mut Published, r: &Record) -> Outcome {
    let f = &r.fields;
    match rust.edit(&Record::new(4, &[f[0], f[1], f[2]])) {
        Outcome::Accepted(..) => match rust.edit(&Record::new(6, &[f[0], f[1] + 1])) {
            Outcome::Accepted(..) => Outcome::Accepted(0, 0),
            stopped => stopped,
        },
        stopped => stopped,
    }
}

impl Replay {
    pub fn rebuild(&mut self) {
        self.rust = Published::default();
        self.rebuilt += 1;
        for (r, by_insert) in &self.accepted {
            let again = if *by_insert { replace_by_insert(&mut self.rust, r) } else { self.rust.edit(r) };
            assert!(matches!(again, Outcome::Accepted(..)), "an accepted record stops the Rust when run again: {r:?}");
        }
    }

    /// One record: the Rust's reply, with the refusals that it does not have put in.
    pub fn step(&mut self, r: &Record, capacities: Capacities) -> Result<Reply, Unexplained> {
        if let Some(refusal) = self.rust.not_live(r) {
            return Ok(Err(refusal));
        }
        let added = self.rust.added(r, capacities);
        let own_result = self.rust.replaces_own_result(r);
        match (self.rust.edit(r), added) {
            (Outcome::Accepted(a, b), None) if !own_result => {
                self.accepted.push((r.clone(), false));
                Ok(Ok((a, b)))
            }
            (Outcome::Accepted(..), None) => Err("the Rust replaces an own result and does not stop".into()),
            (Outcome::Accepted(..), Some(refusal)) => {
                self.rebuild();
                Ok(Err(refusal))
            }
            (Outcome::Stopped(message, _), None) if own_result && is_borrow(&message) => {
                self.rebuild();
                match replace_by_insert(&mut self.rust, r) {
                    Outcome::Accepted(..) => {
                        self.accepted.push((r.clone(), true));
                        Ok(Ok((0, 0)))
                    }
                    Outcome::Stopped(message, at) => Err(format!("kind 5 by insert and remove: {message} ({at})")),
                }
            }
            (Outcome::Stopped(message, at), added) => {
                self.rebuild();
                match (refusal_of(r.kind, &message).filter(|n| SHOWN.contains(n)), added) {
                    (Some(shown), Some(added)) => Ok(Err(shown.min(added))),
                    (Some(shown), None) => Ok(Err(shown)),
                    (None, Some(added)) => Ok(Err(added)),
                    (None, None) => Err(format!("kind {}: the Rust stops for no known reason: {message} ({at})", r.kind)),
                }
            }
        }
    }
}

/// The listing that the Rust gives for a script, or what of it nothing explains.
pub fn listing_of(script: &[u8], capacities: Capacities) -> Result<String, Unexplained> {
    run(script, capacities).map(|x| x.1)
}

/// The Rust after a script, and the listing.
pub fn run(script: &[u8], capacities: Capacities) -> Result<(Published, String), Unexplained> {
    let mut replay = Replay::default();
    let mut lines = String::new();
    let (mut rest, mut k) = (script, 0);
    while !rest.is_empty() {
        let n = length(rest).unwrap_or(rest.len());
        let taken = length(rest).and_then(|n| take_apart(&rest[..n]));
        let reply = match taken {
            Ok(r) => replay.step(&r, capacities).map_err(|why| format!("edit {k}: {why}"))?,
            Err(refusal) => Err(refusal),
        };
        match reply {
            Ok((a, b)) => writeln!(lines, "edit {k} ok {a} {b}"),
            Err(refusal) => writeln!(lines, "edit {k} no {refusal}"),
        }
        .unwrap();
        rest = &rest[n..];
        k += 1;
    }
    let listing = lines + &replay.rust.rows();
    Ok((replay.rust, listing))
}
