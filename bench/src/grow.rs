//! Scripts of accepted edits, by family, grown along the plain program: a record that it refuses is left out.
use crate::plain::{Capacities, Store, Table, Thing};
use differential::record::Record;

pub const SMALL: Capacities = [128, 64, 64, 256, 512];
pub const LARGEST: Capacities = [4096, 1024, 1024, 8192, 16384];
/// Edits in a script, where the tables allow so many.
pub const EDITS: usize = 4000;

/// A family: its name, and the kinds of its scripts.
pub const FAMILIES: [(&str, &str); 8] = [
    ("creation", "1, 2"),
    ("uses", "3 to 12"),
    ("values", "13 to 20"),
    ("links", "21 to 31"),
    ("moves", "32 to 35"),
    ("drop, erase", "36 to 41"),
    ("verdicts", "42 to 44"),
    ("mixed", "half 32 to 35, half others"),
];

pub struct Script {
    /// What is run before the clock starts.
    pub setup: Vec<u8>,
    pub edits: Vec<u8>,
    pub count: usize,
    /// Live operations, blocks, regions, values and uses at the start of the clock.
    pub live: [usize; 5],
}

pub struct Rng(u64);
impl Rng {
    pub fn new(seed: u64) -> Rng {
        Rng(seed.wrapping_mul(0x9e37_79b9_7f4a_7c15) | 1)
    }
    fn next(&mut self) -> u64 {
        self.0 ^= self.0 << 13;
        self.0 ^= self.0 >> 7;
        self.0 ^= self.0 << 17;
        self.0 >> 11
    }
    pub fn below(&mut self, n: usize) -> usize {
        (self.next() % n.max(1) as u64) as usize
    }
    fn of<T: Copy>(&mut self, list: &[T]) -> T {
        list[self.below(list.len())]
    }
}

pub struct Grower {
    pub store: Store,
    pub bytes: Vec<u8>,
    pub count: usize,
    rng: Rng,
    /// Operations and blocks that an edit of this script has unlinked.
    loose: [Vec<u32>; 2],
}

impl Grower {
    pub fn new(capacities: Capacities, seed: u64) -> Grower {
        Grower { store: Store::new(capacities), bytes: vec![], count: 0, rng: Rng::new(seed), loose: Default::default() }
    }

    /// Adds the record if it is accepted.
    pub fn edit(&mut self, kind: u16, fields: &[u32]) -> Option<u32> {
        let bytes = Record::new(kind, fields).bytes();
        let (a, _) = self.store.edit(&bytes).ok()?;
        self.bytes.extend(bytes);
        self.count += 1;
        Some(a)
    }

    // ---- what to name

    /// The number of a live thing; 0 where there is none.
    fn any<T: Thing>(rng: &mut Rng, table: &Table<T>, among: usize) -> u32 {
        if table.is_empty() { 0 } else { table.nth(rng.below(among)).number() }
    }
    fn op(&mut self) -> u32 {
        Self::any(&mut self.rng, &self.store.ops, self.store.ops.len())
    }
    fn block(&mut self) -> u32 {
        Self::any(&mut self.rng, &self.store.blocks, self.store.blocks.len())
    }
    fn region(&mut self) -> u32 {
        Self::any(&mut self.rng, &self.store.regions, self.store.regions.len())
    }
    fn value(&mut self) -> u32 {
        Self::any(&mut self.rng, &self.store.values, self.store.values.len())
    }
    /// A value, every second time one of the first 64: these have many uses.
    fn often_used(&mut self) -> u32 {
        let live = self.store.values.len();
        let among = if self.rng.below(2) == 0 { live.min(64) } else { live };
        Self::any(&mut self.rng, &self.store.values, among)
    }

    // ---- a store with a program in it

    /// Fills the tables to three quarters: operations with regions in blocks in regions, each block with a terminator; uses of values near and far.
    pub fn populate(&mut self, capacities: Capacities) {
        let [ops, blocks, _, values, uses] = capacities.map(|c| c as usize * 3 / 4);
        self.edit(1, &[2, 0, 0, 0, 1]);
        self.edit(2, &[2, 7, 8]);
        self.edit(29, &[0, 0]);
        let inner = ops - blocks;
        let operands = (uses - 3 * blocks) / inner;
        let results = (values - 2 * blocks) / inner;
        for k in 1..inner {
            let nests = self.store.regions.len() * inner < blocks * k;
            self.inner_op(nests, results, operands);
        }
        let blocks: Vec<u32> = self.store.blocks.numbers().collect();
        for b in blocks {
            let [x, y, z] = [self.block(), self.block(), self.block()];
            let o = self.edit(1, &[1, 0, 0, 3, 0, x, y, z]).unwrap();
            self.edit(24, &[o, b]);
        }
    }
    /// An operation at the back of some block, if it nests with a region and a block of its own.
    fn inner_op(&mut self, nests: bool, results: usize, operands: usize) {
        let (b, regions) = (self.block(), self.store.regions.numbers().last().unwrap());
        let mut fields = vec![if nests { 2 } else { 0 }, results as u32, operands as u32, 0, nests as u32];
        fields.extend(std::iter::repeat_n(7, results));
        fields.extend((0..operands).map(|_| self.often_used()));
        let o = self.edit(1, &fields).unwrap();
        self.edit(24, &[o, b]);
        if nests {
            let b = self.edit(2, &[2, 7, 8]).unwrap();
            self.edit(29, &[b, regions + 1]);
        }
    }

    // ---- one attempt at an edit of a family

    fn create(&mut self) {
        let (o, v) = (self.store.ops.len(), self.store.values.len());
        if v == 0 || o >= 4 * self.store.blocks.len() {
            self.edit(2, &[1, 7]);
            return;
        }
        let [a, b, c, d] = [self.value(), self.value(), self.value(), self.value()];
        let successor = self.block();
        self.edit(1, &[0, 2, 4, 1, (o % 4 == 0) as u32, 7, 8, a, b, c, d, successor]);
    }

    fn edit_uses(&mut self) {
        let (o, kind) = (self.op(), 3 + self.rng.below(10) as u16);
        let operands = kind <= 7;
        let op = self.store.ops.get(o);
        let (slots, results) = (if operands { op.operands.clone() } else { op.successors.clone() }, op.results.clone());
        let d = if operands { self.often_used() } else { self.block() };
        let i = self.rng.below(slots.len() + 1) as u32;
        // the published Rust stops where an operation's own result is replaced (docs/DIFFERENCES.md)
        let out = slots.get(i as usize).map_or(d, |s| s.def);
        if operands && (results.contains(&d) || results.contains(&out)) {
            return;
        }
        match kind {
            3 | 8 => self.edit(kind, &[o, d]),
            4 | 5 | 9 | 10 => self.edit(kind, &[o, i, d]),
            6 | 11 => self.edit(kind, &[o, i]),
            _ => self.edit(kind, &[o]),
        };
    }

    fn edit_values(&mut self) {
        let kind = 13 + self.rng.below(8) as u16;
        let (owner, length) = if kind <= 16 {
            let o = self.op();
            (o, self.store.ops.get(o).results.len())
        } else {
            let b = self.block();
            (b, self.store.blocks.get(b).arguments.len())
        };
        let i = self.rng.below(length + 1) as u32;
        match kind {
            13 | 17 => self.edit(kind, &[owner, 7]),
            14 | 18 => self.edit(kind, &[owner, i, 7]),
            15 | 19 => self.edit(kind, &[owner, i]),
            _ => self.edit(kind, &[owner]),
        };
    }

    fn link(&mut self) {
        match self.rng.below(5) {
            0 | 1 => self.link_one(0),
            2 | 3 => self.link_one(1),
            _ => {
                let fields = [self.region(), self.op()];
                self.edit(31, &fields);
            }
        }
    }
    /// Unlinks an operation (0) or block (1), or links one that is loose.
    fn link_one(&mut self, w: usize) {
        let first = 21 + 5 * w as u16;
        if self.loose[w].len() < 8 || self.rng.below(2) == 0 {
            let x = if w == 0 { self.op() } else { self.block() };
            if self.edit(first + 4, &[x]).is_some() {
                self.loose[w].push(x);
            }
            return;
        }
        let (i, kind) = (self.rng.below(self.loose[w].len()), first + self.rng.below(4) as u16);
        let beside = if (kind - first) < 2 {
            if w == 0 { self.op() } else { self.block() }
        } else if w == 0 {
            self.block()
        } else {
            self.region()
        };
        if self.edit(kind, &[self.loose[w][i], beside]).is_some() {
            self.loose[w].swap_remove(i);
        }
    }

    /// Moves uses: each record names uses that are there.
    fn move_uses(&mut self) {
        let kind = 32 + self.rng.below(4) as u16;
        let of_value = kind % 2 == 0;
        let (this, other) = if of_value { (self.often_used(), self.often_used()) } else { (self.block(), self.block()) };
        let uses = if of_value { &self.store.values.get(this).uses } else { &self.store.blocks.get(this).uses };
        if this == other || uses.is_empty() {
            return;
        }
        let user = uses[self.rng.below(uses.len())];
        let mut fields = vec![this, other];
        match kind {
            32 | 33 => fields = vec![this, user.number, other],
            34 => {
                let first = self.rng.below(uses.len());
                fields.extend(uses[first..].iter().take(8).map(|u| u.number));
            }
            _ => {
                let from = |op: u32| self.store.ops.get(op).block;
                let others: Vec<u32> = uses.iter().filter(|u| u.op != user.op).take(1).filter_map(|u| from(u.op)).collect();
                fields.extend(from(user.op).into_iter().chain(others));
            }
        }
        self.edit(kind, &fields);
    }

    /// Drops what has uses, erases what has none and is used by none outside; large things are left to the end.
    fn take_apart(&mut self) {
        let o = self.op();
        let op = self.store.ops.get(o);
        let (block, has_uses) = (op.block, !op.operands.is_empty() || !op.successors.is_empty());
        let region = op.regions.first().copied();
        match (self.rng.below(16), region, block) {
            (0, Some(r), _) if self.is_small(o) => self.edit(38, &[r]),
            (1, Some(_), _) if self.is_small(o) => self.edit(41, &[o, 0]),
            (2, _, Some(b)) if self.is_flat(b) => self.edit(37, &[b]),
            (3, _, Some(b)) if self.is_flat(b) => self.edit(40, &[b]),
            _ if !self.is_small(o) => None,
            _ if has_uses => self.edit(36, &[o]),
            _ => self.edit(39, &[o]),
        };
    }
    /// Whether no operation of the block has a region.
    fn is_flat(&self, b: u32) -> bool {
        self.store.blocks.get(b).ops.iter().all(|&o| self.store.ops.get(o).regions.is_empty())
    }
    fn is_small(&self, o: u32) -> bool {
        let mut blocks = self.store.ops.get(o).regions.iter().flat_map(|&r| &self.store.regions.get(r).blocks);
        blocks.all(|&b| self.is_flat(b))
    }

    fn judge(&mut self) {
        let kind = 42 + self.rng.below(3) as u16;
        let n = [self.op(), self.block(), self.region()][kind as usize - 42];
        self.edit(kind, &[n]);
    }

    fn attempt(&mut self, family: usize) {
        match family {
            0 => self.create(),
            1 => self.edit_uses(),
            2 => self.edit_values(),
            3 => self.link(),
            4 => self.move_uses(),
            5 => self.take_apart(),
            6 => self.judge(),
            _ => {
                let turn = self.count;
                let f = if turn % 2 == 0 { 4 } else { self.rng.of(&[0, 1, 1, 1, 2, 2, 3, 3, 5, 6]) };
                self.attempt(f)
            }
        }
    }
}

/// The script of a family: as many of 4,000 edits as are found in a bounded number of attempts.
pub fn script(family: usize, capacities: Capacities) -> Script {
    let mut g = Grower::new(capacities, 7 + family as u64);
    if family != 0 {
        g.populate(capacities);
    }
    let setup = std::mem::take(&mut g.bytes);
    let s = &g.store;
    let live = [s.ops.len(), s.blocks.len(), s.regions.len(), s.values.len(), s.live_uses()];
    g.count = 0;
    for _ in 0..20 * EDITS {
        if g.count == EDITS || g.store.ops.is_empty() && family == 5 {
            break;
        }
        g.attempt(family);
    }
    Script { setup, edits: g.bytes, count: g.count, live }
}

/// How much of `total` falls to the i-th of n.
fn share(i: usize, n: usize, total: u32) -> u32 {
    let upto = |k: usize| (k as u64 * total as u64 / n as u64) as u32;
    upto(i + 1) - upto(i)
}

/// A script that takes every place of every table. `parent` says in which region a block comes to lie; region k belongs to an operation of block k where the
/// capacities of blocks and regions are the same and divide that of operations.
pub fn fill(capacities: Capacities, parent: impl Fn(u32) -> Option<u32>) -> Grower {
    let [o, b, r, v, u] = capacities;
    let mut g = Grower::new(capacities, 1);
    for _ in 0..b {
        g.edit(2, &[1, 7]);
    }
    for i in 0..o as usize {
        let [results, operands, regions] = [v - b, u, r].map(|total| share(i, o as usize, total));
        let mut fields = vec![2, results, operands, 0, regions];
        fields.extend(std::iter::repeat_n(7, results as usize));
        fields.extend((0..operands).map(|_| g.value()));
        g.edit(1, &fields).unwrap();
        g.edit(24, &[i as u32, (i as u64 * b as u64 / o as u64) as u32]).unwrap();
    }
    for block in 0..b {
        if let Some(region) = parent(block) {
            g.edit(29, &[block, region]).unwrap();
        }
    }
    g
}
