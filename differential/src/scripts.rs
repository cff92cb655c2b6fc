//! Random scripts, by profile and seed. A script is grown along a store of the second reading, so that most records name what is live.
use crate::{
    reading::{Capacities, PROGRAM, Store, start, words},
    record::{Record, length, take_apart},
};

/// splitmix64
pub struct Rng(pub u64);
impl Rng {
    pub fn next(&mut self) -> u64 {
        self.0 = self.0.wrapping_add(0x9E37_79B9_7F4A_7C15);
        let mut z = self.0;
        z = (z ^ (z >> 30)).wrapping_mul(0xBF58_476D_1CE4_E5B9);
        z = (z ^ (z >> 27)).wrapping_mul(0x94D0_49BB_1331_11EB);
        z ^ (z >> 31)
    }
    pub fn below(&mut self, n: usize) -> usize {
        (self.next() % n.max(1) as u64) as usize
    }
    pub fn percent(&mut self, p: usize) -> bool {
        self.below(100) < p
    }
    pub fn of<T: Copy>(&mut self, all: &[T]) -> T {
        all[self.below(all.len())]
    }
}

/// How a profile grows its scripts. Percentages, but for weights and the most of each list.
#[derive(Clone)]
pub struct Profile {
    pub name: &'static str,
    pub capacities: Capacities,
    weights: [usize; 45],
    /// operands, successors, regions of a new operation
    most: [usize; 3],
    /// a new operation has successors; has regions
    with: [usize; 2],
    /// a new operation or block is linked at once
    linked: usize,
    /// a field names one of the last born; names what is not live
    recent: usize,
    dead: usize,
    /// a count near 64
    full: usize,
    malformed: usize,
    /// flags are odd where there are successors
    terminators: usize,
}

const WEIGHTS: [usize; 45] =
    [0, 14, 7, 6, 3, 4, 2, 2, 5, 2, 3, 2, 2, 3, 2, 2, 2, 2, 2, 2, 2, 3, 3, 3, 8, 3, 3, 3, 3, 7, 2, 4, 5, 4, 4, 4, 1, 1, 1, 4, 3, 3, 4, 4, 4];

pub const PROFILES: [&str; 12] = ["mixed", "deep", "moves", "erase", "lists", "small", "malformed", "branches", "unlinked", "verdicts", "weights", "junk"];

/// The profile of this name; the seed chooses what it leaves open.
pub fn profile(name: &'static str, rng: &mut Rng) -> Profile {
    let mut p = Profile {
        name,
        capacities: PROGRAM,
        weights: WEIGHTS,
        most: [4, 2, 3],
        with: [35, 40],
        linked: 30,
        recent: 50,
        dead: 3,
        full: 1,
        malformed: 1,
        terminators: 50,
    };
    let mut weigh = |kinds: &[usize], weight: usize| kinds.iter().for_each(|&k| p.weights[k] = weight);
    match name {
        "deep" => {
            weigh(&[1, 2], 16);
            weigh(&[24, 29, 25, 30, 31, 39, 40, 41], 6);
            p = Profile { most: [1, 1, 2], with: [15, 85], linked: 90, recent: 85, ..p };
        }
        "moves" => {
            weigh(&[32, 33, 34, 35], 25);
            weigh(&[39, 40, 41, 36, 37, 38], 1);
            p = Profile { most: [9, 6, 1], with: [60, 10], linked: 80, recent: 30, ..p };
        }
        "erase" => {
            weigh(&[36, 37, 38], 4);
            weigh(&[39, 40, 41], 12);
            weigh(&[1, 2], 22);
            p = Profile { most: [2, 1, 3], with: [15, 60], linked: 75, ..p };
        }
        "lists" => {
            weigh(&[3, 4, 8, 9, 13, 14, 17, 18, 31], 12);
            weigh(&[36, 37, 38, 39, 40, 41], 1);
            p = Profile { full: 40, recent: 90, capacities: rng.of(&[PROGRAM, [40, 20, 200, 700, 1500], [24, 12, 70, 100, 96]]), ..p };
        }
        "small" => {
            let mut upto = |n: usize| 1 + rng.below(n) as u32;
            p.capacities = [upto(10), upto(6), upto(6), upto(16), upto(24)];
        }
        "malformed" => p.malformed = 30,
        "branches" => {
            weigh(&[8, 9, 10, 11, 12, 33, 35], 10);
            p = Profile { most: [1, 6, 1], with: [85, 15], linked: 85, terminators: 90, ..p };
        }
        "unlinked" => {
            weigh(&[25, 30, 35, 42, 43, 44], 12);
            p = Profile { most: [1, 3, 2], with: [60, 40], linked: 45, ..p };
        }
        "verdicts" => {
            weigh(&[42, 43, 44], 25);
            weigh(&[39, 40, 41, 25, 30], 2);
            p = Profile { most: [1, 2, 2], with: [60, 40], linked: 95, terminators: 95, ..p };
        }
        "weights" => {
            p.weights.iter_mut().for_each(|w| *w *= rng.below(5));
            p.weights[1] += 8;
            p.weights[2] += 4;
            p = Profile { linked: rng.below(100), recent: rng.below(100), dead: rng.below(10), ..p };
        }
        _ => (),
    }
    p
}

struct Grower<'a> {
    rng: &'a mut Rng,
    p: &'a Profile,
    store: Store,
}

impl Grower<'_> {
    fn number(&mut self, live: Vec<u32>, born: u64) -> u32 {
        if live.is_empty() || self.rng.percent(self.p.dead) {
            self.rng.below(born as usize + 2) as u32
        } else if self.rng.percent(self.p.recent) {
            live[live.len() - 1 - self.rng.below(live.len().min(4))]
        } else {
            self.rng.of(&live)
        }
    }
    fn op(&mut self) -> u32 {
        self.number(self.store.ops.keys().copied().collect(), self.store.born[0])
    }
    fn block(&mut self) -> u32 {
        self.number(self.store.blocks.keys().copied().collect(), self.store.born[1])
    }
    fn region(&mut self) -> u32 {
        self.number(self.store.regions.keys().copied().collect(), self.store.born[2])
    }
    fn value(&mut self) -> u32 {
        self.number(self.store.values.keys().copied().collect(), self.store.born[3])
    }
    /// An operation or block to insert, best one that is in no list; a mark, best one that is.
    fn linkable(&mut self, block: bool, linked: bool) -> u32 {
        let of_ops = self.store.ops.iter().filter(|o| o.1.block.is_some() == linked).map(|o| *o.0);
        let of_blocks = self.store.blocks.iter().filter(|b| b.1.region.is_some() == linked).map(|b| *b.0);
        let good: Vec<u32> = if block { of_blocks.collect() } else { of_ops.collect() };
        if !good.is_empty() && self.rng.percent(65) {
            return self.rng.of(&good);
        }
        if block { self.block() } else { self.op() }
    }
    /// An operation, best one whose list is not empty.
    fn op_with(&mut self, list: fn(&crate::reading::Op) -> usize) -> u32 {
        let good: Vec<u32> = self.store.ops.iter().filter(|o| list(o.1) > 0).map(|o| *o.0).collect();
        if good.is_empty() || self.rng.percent(30) { self.op() } else { self.rng.of(&good) }
    }
    fn use_(&mut self) -> u32 {
        self.rng.below(self.store.born[4] as usize + 1) as u32
    }
    fn type_(&mut self) -> u32 {
        if self.rng.percent(2) { self.rng.next() as u32 } else { self.rng.below(9) as u32 }
    }
    /// An index into a list of `length` entries, or of one more for insert.
    fn index(&mut self, length: usize, insert: bool) -> u32 {
        if self.rng.percent(4) {
            self.rng.of(&[length, length + 1, length + 2, u32::MAX as usize]) as u32
        } else {
            self.rng.below(length + insert as usize) as u32
        }
    }
    fn count(&mut self, most: usize) -> usize {
        if self.rng.percent(self.p.full) { 60 + self.rng.below(5) } else { self.rng.below(most + 1) }
    }

    fn new_operation(&mut self) -> Vec<u32> {
        let p = self.p.clone();
        let results = self.count(2);
        let operands = if self.store.values.is_empty() { 0 } else { self.count(p.most[0]) };
        let branches = !self.store.blocks.is_empty() && self.rng.percent(p.with[0]);
        let successors = if branches { self.count(p.most[1] - 1) + 1 } else { 0 }.min(64);
        let regions = if self.rng.percent(p.with[1]) { self.count(p.most[2] - 1) + 1 } else { 0 }.min(64);
        let mut flags = self.rng.below(4) as u32;
        if successors > 0 && self.rng.percent(p.terminators) {
            flags |= 1;
        }
        let mut f = vec![flags, results as u32, operands as u32, successors as u32, regions as u32];
        f.extend((0..results).map(|_| self.type_()).collect::<Vec<_>>());
        f.extend((0..operands).map(|_| self.value()).collect::<Vec<_>>());
        // doubled successors
        let mut last = None;
        for _ in 0..successors {
            let b = last.filter(|_| self.rng.percent(30)).unwrap_or_else(|| self.block());
            last = Some(b);
            f.push(b);
        }
        f
    }

    /// *this*, for 32 to 35, best one that has uses; and its uses, each with the operation that has it.
    fn used(&mut self, block: bool) -> (u32, Vec<(u32, u32)>) {
        let mut best = (0, vec![]);
        for _ in 0..3 {
            let n = if block { self.block() } else { self.value() };
            let uses = if block { self.store.uses_of_block(n) } else { self.store.uses_of_value(n) };
            if best.1.is_empty() {
                best = (n, uses);
            }
        }
        best
    }
    fn move_uses(&mut self, kind: u16) -> Vec<u32> {
        let block = kind % 2 == 1;
        let (this, uses) = self.used(block);
        let mut other = if block { self.block() } else { self.value() };
        if self.rng.percent(5) {
            other = this;
        }
        if kind <= 33 {
            let u = if uses.is_empty() || self.rng.percent(8) { self.use_() } else { self.rng.of(&uses).0 };
            return vec![this, u, other];
        }
        let mut f = vec![this, other];
        for (u, user) in uses {
            let listed = if kind == 34 { Some(u) } else { self.store.ops[&user].block };
            if self.rng.percent(60) && f.len() < 250 {
                f.extend(listed);
                f.extend(listed.filter(|_| self.rng.percent(10)));
            }
        }
        if self.rng.percent(30) {
            let more = if block { self.block() } else { self.use_() };
            f.push(more);
        }
        f
    }

    fn fields(&mut self, kind: u16) -> Vec<u32> {
        let ty = self.type_();
        match kind {
            1 => self.new_operation(),
            2 => {
                let n = self.count(2);
                std::iter::once(n as u32).chain((0..n).map(|_| self.type_())).collect()
            }
            3 => vec![self.op(), self.value()],
            8 => vec![self.op(), self.block()],
            4..=6 | 9..=11 => {
                let n = self.op_with(if kind < 8 { |o| o.operands.len() } else { |o| o.successors.len() });
                let o = self.store.ops.get(&n).cloned().unwrap_or_default();
                let length = if kind < 8 { o.operands.len() } else { o.successors.len() };
                let mut f = vec![n, self.index(length, kind == 4 || kind == 9)];
                match kind {
                    4 | 5 if !o.results.is_empty() && self.rng.percent(20) => f.push(self.rng.of(&o.results)),
                    4 | 5 => f.push(self.value()),
                    9 | 10 => f.push(self.block()),
                    _ => (),
                }
                f
            }
            13 => vec![self.op(), ty],
            17 => vec![self.block(), ty],
            14 | 15 | 18 | 19 => {
                let n = if kind < 17 { self.op() } else { self.block() };
                let results = self.store.ops.get(&n).map_or(0, |o| o.results.len());
                let arguments = self.store.blocks.get(&n).map_or(0, |b| b.arguments.len());
                let i = self.index(if kind < 17 { results } else { arguments }, kind == 14 || kind == 18);
                if kind == 14 || kind == 18 { vec![n, i, ty] } else { vec![n, i] }
            }
            7 => vec![self.op_with(|o| o.operands.len())],
            12 => vec![self.op_with(|o| o.successors.len())],
            21 | 22 => vec![self.linkable(false, false), self.linkable(false, true)],
            23 | 24 => vec![self.linkable(false, false), self.block()],
            25 => vec![self.linkable(false, true)],
            26 | 27 => vec![self.linkable(true, false), self.linkable(true, true)],
            28 | 29 => vec![self.linkable(true, false), self.region()],
            30 => vec![self.linkable(true, true)],
            31 => vec![self.region(), self.op()],
            32..=35 => self.move_uses(kind),
            20 | 37 | 40 | 43 => vec![self.block()],
            38 | 44 => vec![self.region()],
            41 => {
                let n = self.op_with(|o| o.regions.len());
                let length = self.store.ops.get(&n).map_or(0, |o| o.regions.len());
                vec![n, self.index(length, false)]
            }
            _ => vec![self.op()],
        }
    }

    fn kind(&mut self) -> u16 {
        if self.store.ops.is_empty() && self.rng.percent(70) {
            return 1;
        }
        let mut t = self.rng.below(self.p.weights.iter().sum());
        let mut kind = 0;
        while t >= self.p.weights[kind] {
            t -= self.p.weights[kind];
            kind += 1;
        }
        let wants_block = matches!(kind, 8..=10 | 17..=20 | 23 | 24 | 26..=30 | 33 | 35 | 37 | 40 | 43);
        let wants_region = matches!(kind, 28 | 29 | 31 | 38 | 44);
        match kind {
            _ if wants_block && self.store.blocks.is_empty() && self.rng.percent(80) => 2,
            _ if wants_region && self.store.regions.is_empty() && self.rng.percent(80) => 1,
            _ => kind as u16,
        }
    }

    /// A record, and after a birth often the record that links what was born.
    fn records(&mut self) -> Vec<Record> {
        let kind = self.kind();
        let fields = self.fields(kind);
        let mut records = vec![Record { kind, fields }];
        if kind == 1 && !self.store.blocks.is_empty() && self.rng.percent(self.p.linked) {
            let block = self.block();
            records.push(Record::new(self.rng.of(&[23, 24, 24, 24]), &[self.store.born[0] as u32, block]));
        }
        if kind == 2 && !self.store.regions.is_empty() && self.rng.percent(self.p.linked) {
            let region = self.region();
            records.push(Record::new(self.rng.of(&[28, 29, 29, 29]), &[self.store.born[1] as u32, region]));
        }
        records
    }

    /// Breaks a record: another kind, a field too many or too few, a number over its limit, a broken length, bytes too many.
    fn malform(&mut self, x: &mut Vec<u8>) {
        let set_length = |x: &mut Vec<u8>| {
            let n = x.len() as u16;
            x[..2].copy_from_slice(&n.to_le_bytes());
        };
        match self.rng.below(12) {
            0 => x[2] = self.rng.of(&[0, 45, 46, 255]),
            1 => x[3] = 1,
            2 | 3 => {
                x.extend([1, 0, 0, 0]);
                set_length(x);
            }
            4 | 5 if x.len() > 4 => {
                x.truncate(x.len() - 4);
                set_length(x);
            }
            6 if x.len() > 4 => x[4] = self.rng.of(&[4, 65, 255]),
            7 if x.len() > 8 => {
                let field = self.rng.below((x.len() / 4 - 1).min(5));
                x[4 + 4 * field] = 65;
            }
            8 => {
                let listed = [255, 256, 257, 300, 509, 510].map(|n| n as usize);
                let n = self.rng.of(&listed);
                let kind = self.rng.of(&[34, 35]);
                *x = Record { kind, fields: (0..n as u32 + 2).collect() }.bytes();
                set_length(x);
            }
            9 if self.rng.percent(25) => x[0] = self.rng.of(&[0, 1, 2, 3, x[0].wrapping_add(1), x[0].wrapping_add(2), x[0].wrapping_add(4)]),
            10 if self.rng.percent(25) => x[1] = self.rng.of(&[7, 8, 9, 255]),
            11 if self.rng.percent(25) => x.extend([7, 7, 7].iter().take(1 + self.rng.below(3))),
            _ => x[2] = 1 + self.rng.below(44) as u8,
        }
    }
}

/// Records in a script, at most.
pub const LONGEST: usize = 200;

/// The script of this seed, its profile's name and its capacities.
pub fn script(seed: u64, longest: usize) -> (Vec<u8>, &'static str, Capacities) {
    let name = PROFILES[(seed % PROFILES.len() as u64) as usize];
    let mut rng = Rng(seed.wrapping_mul(0x0100_0003));
    script_up_to(name, longest, &mut rng)
}

pub fn script_of(name: &'static str, rng: &mut Rng) -> (Vec<u8>, &'static str, Capacities) {
    script_up_to(name, LONGEST, rng)
}

/// A script of at most so many records. Most of the short ones are run over smaller stores: with room for all, or nearly.
fn script_up_to(name: &'static str, longest: usize, rng: &mut Rng) -> (Vec<u8>, &'static str, Capacities) {
    let mut p = profile(name, rng);
    if longest < LONGEST && name != "small" && !rng.percent(8) {
        let full = if name == "lists" { 60 } else { 0 };
        let mut from = |least: usize, more: usize| (least + rng.below(more)) as u32;
        p.capacities = [from(12, 30), from(8, 16), from(8 + full, 30), from(24 + full, 60), from(30 + full, 100)];
    }
    if name == "junk" {
        return (junk(rng), name, p.capacities);
    }
    let store = start(p.capacities, words(p.capacities)).unwrap();
    let mut records_left = 1 + rng.below(longest);
    let mut grower = Grower { rng, p: &p, store };
    let mut script = vec![];
    while records_left > 0 {
        for r in grower.records() {
            let mut x = r.bytes();
            if grower.rng.percent(p.malformed) {
                grower.malform(&mut x);
            }
            if script.len() + x.len() > 16_384 {
                return (script, name, p.capacities);
            }
            if let Ok(r) = length(&x).and_then(|n| take_apart(&x[..n])) {
                let _ = grower.store.carry_out(&r);
            }
            script.extend(x);
            records_left -= 1.min(records_left);
        }
    }
    (script, name, p.capacities)
}

/// Bytes, some of them with a length that can be believed.
fn junk(rng: &mut Rng) -> Vec<u8> {
    let mut bytes = vec![];
    for _ in 0..rng.below(40) {
        let fields = rng.below(9);
        if rng.percent(90) {
            bytes.extend([(4 + 4 * fields) as u8, 0, rng.below(47) as u8, 0]);
        } else {
            bytes.extend([rng.next() as u8, rng.below(9) as u8, rng.below(47) as u8, rng.below(2) as u8]);
        }
        for _ in 0..fields {
            bytes.extend([rng.below(6) as u8, 0, 0, 0]);
        }
    }
    bytes.truncate(bytes.len().saturating_sub(if rng.percent(30) { rng.below(6) } else { 0 }));
    bytes
}
