//! All pairs of records with small fields after a few beginnings: the reply and the whole listing of each.
use crate::{
    compare::text,
    reading::{PROGRAM, Reply, Store, start, words},
    record::{LEAST, Record, pieces, script, take_apart},
    replay::Replay,
};

pub const BEGINNINGS: [&str; 6] = [
    "",
    // an operation with a region, in it a block that its terminator branches to, a use of an own result; an operation and a block outside
    "1 2 0 0 0 1; 2 1 7; 29 0 0; 1 1 1 1 1 0 7 0 0; 24 1 0; 3 1 1; 1 0 1 1 0 1 7 1; 2 0; 8 1 1",
    // two blocks that branch to each other, one of them by two uses; three regions
    "1 0 0 0 0 3; 2 1 7; 2 1 7; 29 0 0; 29 1 0; 1 1 0 1 2 0 0 1 1; 24 1 0; 1 3 1 1 1 1 7 0 0; 24 2 1; 1 0 0 0 0 0",
    // a nest two deep, and an operation in no block that branches into it
    "1 2 0 0 0 1; 2 0; 29 0 0; 1 2 1 0 0 2 7; 24 1 0; 2 1 7; 29 1 1; 1 1 1 1 1 0 7 0 1; 24 2 1; 1 1 0 0 1 0 1",
    // three operations in a row in one block, three blocks in a row in one region, all clean
    "1 0 0 0 0 1; 2 0; 2 0; 2 0; 29 0 0; 29 1 0; 29 2 0; 1 0 1 0 0 0 7; 1 0 1 1 0 0 7 0; 1 1 0 0 1 0 1; 24 1 0; 24 2 0; 24 3 0; 1 1 0 0 1 0 2; 24 4 1; 1 1 0 0 0 0; 24 5 2",
    // numbers that have ended: an operation, a block, a value and two uses
    "2 1 7; 2 0; 1 0 1 2 0 1 7 0 0; 1 0 1 0 1 0 7 1; 6 0 0; 39 1; 40 1; 2 1 7; 1 1 1 1 1 1 7 1 2",
];

/// All records with fields below n; the births in a few forms.
fn all(n: u32) -> Vec<Record> {
    let mut records = vec![];
    for kind in 3..=44u16 {
        let fixed = LEAST[kind as usize] as u32;
        let listed = if kind == 34 || kind == 35 { vec![0, 1, 2] } else { vec![0] };
        for count in listed.iter().map(|l| fixed + l) {
            let fields = |x: u32| (0..count).map(|i| x / n.pow(i) % n).collect();
            records.extend((0..n.pow(count)).map(|x| Record { kind, fields: fields(x) }));
        }
    }
    for x in 0..n {
        records.extend((0..4).map(|flags| Record::new(1, &[flags, 1, 1, 1, 1, 9, x, (x + 1) % n])));
    }
    records.push(Record::new(1, &[0, 0, 0, 0, 2]));
    records.push(Record::new(2, &[1, 5]));
    records
}

/// All of them after the same accepted records.
struct All {
    second: Store,
    rust: Replay,
    #[cfg(feature = "store")]
    proved: crate::store::Follower,
}

impl All {
    fn step(&mut self, r: &Record) -> Result<Reply, String> {
        let second = self.second.carry_out(r);
        let rust = self.rust.step(r, PROGRAM)?;
        if rust != second {
            return Err(format!("the Rust {rust:?}, the second reading {second:?}"));
        }
        let rows = self.second.rows();
        #[cfg(feature = "store")]
        self.proved.step(&r.bytes(), crate::reading::answer(second), &rows)?;
        if self.rust.rust.rows() != rows { Err("other rows".into()) } else { Ok(second) }
    }
    /// After these records, which are all accepted.
    fn after(records: &[Record]) -> Result<All, String> {
        let mut all = All {
            second: start(PROGRAM, words(PROGRAM)).unwrap(),
            rust: Replay::default(),
            #[cfg(feature = "store")]
            proved: crate::store::Follower::start(PROGRAM)?,
        };
        for r in records {
            all.step(r)?.map_err(|n| format!("{r:?} is refused, {n}"))?;
        }
        Ok(all)
    }
    fn copy(&self) -> All {
        let mut rust = Replay { accepted: self.rust.accepted.clone(), ..Replay::default() };
        rust.rebuild();
        All {
            second: self.second.clone(),
            rust,
            #[cfg(feature = "store")]
            proved: self.proved.clone(),
        }
    }
}

/// Whether a record has changed the store.
fn changes(reply: &Reply, r: &Record) -> bool {
    reply.is_ok() && r.kind < 42
}

/// All pairs after each beginning: steps taken, and the scripts that differ.
pub fn pairs(n: u32) -> (u64, Vec<String>) {
    let (mut steps, mut differ) = (0, vec![]);
    let records = all(n);
    for beginning in BEGINNINGS {
        let bytes = script(beginning);
        let first: Vec<Record> = pieces(&bytes).iter().map(|p| take_apart(p).unwrap()).collect();
        let begun = All::after(&first).unwrap_or_else(|why| panic!("{beginning}: {why}"));
        for r1 in &records {
            let mut once = begun.copy();
            steps += 1;
            match once.step(r1) {
                Ok(reply) if changes(&reply, r1) => (),
                Ok(_) => continue,
                Err(why) => {
                    differ.push(format!("{beginning}; {}: {why}", text(&r1.bytes())));
                    continue;
                }
            }
            let mut twice = once.copy();
            for r2 in &records {
                steps += 1;
                match twice.step(r2) {
                    Ok(reply) if !changes(&reply, r2) => continue,
                    Ok(_) => (),
                    Err(why) => differ.push(format!("{beginning}; {}; {}: {why}", text(&r1.bytes()), text(&r2.bytes()))),
                }
                twice = once.copy();
            }
        }
        println!("after {beginning:?}: {steps} steps so far, {} differ", differ.len());
    }
    (steps, differ)
}
