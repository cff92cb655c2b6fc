//! A second, plain reading of the rules (docs/FORMAT.md): maps by birth number, no sharing with the Rust or with the proved store.
//! It decides what the Rust cannot show: 1 to 11, 14, 17, 19 to 22, birth numbers and the order of refusals.
use crate::record::{Record, length, take_apart};
use std::{collections::BTreeMap, fmt::Write};

/// Operations, blocks, regions, values, uses.
pub type Capacities = [u32; 5];
/// The program's own.
pub const PROGRAM: Capacities = [128, 64, 64, 256, 512];
pub const MOST: Capacities = [4096, 1024, 1024, 8192, 16384];
/// A and B, or the refusal.
pub type Reply = Result<(u32, u32), u32>;

pub const OPS: usize = 0;
pub const BLOCKS: usize = 1;
pub const REGIONS: usize = 2;
pub const VALUES: usize = 3;
pub const USES: usize = 4;

#[derive(Clone, Default, Debug, PartialEq)]
pub struct Op {
    pub flags: u32,
    pub block: Option<u32>,
    pub results: Vec<u32>,
    /// Use and definition.
    pub operands: Vec<(u32, u32)>,
    pub successors: Vec<(u32, u32)>,
    pub regions: Vec<u32>,
}

#[derive(Clone, Default, Debug, PartialEq)]
pub struct Block {
    pub region: Option<u32>,
    pub arguments: Vec<u32>,
    pub ops: Vec<u32>,
}

#[derive(Clone, Default, Debug, PartialEq)]
pub struct Region {
    pub op: u32,
    pub blocks: Vec<u32>,
}

#[derive(Clone, Debug, PartialEq)]
pub struct Store {
    pub capacities: Capacities,
    /// Births so far in each kind: the next birth numbers.
    pub born: [u64; 5],
    pub ops: BTreeMap<u32, Op>,
    pub blocks: BTreeMap<u32, Block>,
    pub regions: BTreeMap<u32, Region>,
    /// Types.
    pub values: BTreeMap<u32, u32>,
}

/// All that lies in a thing, the thing included.
#[derive(Default)]
struct Inside {
    ops: Vec<u32>,
    blocks: Vec<u32>,
    regions: Vec<u32>,
}

fn need(holds: bool, refusal: u32) -> Result<(), u32> {
    if holds { Ok(()) } else { Err(refusal) }
}

/// The words that a store of these capacities takes.
pub fn words(c: Capacities) -> u64 {
    let maps: u64 = c.iter().map(|&n| 2 * (n as u64).div_ceil(64)).sum();
    let [o, b, r, v, u] = c.map(u64::from);
    15 + 14 * o + 11 * b + 7 * r + 8 * v + 8 * u + maps
}

/// A new store in a buffer of so many words, or refusal 5.
pub fn start(capacities: Capacities, words_lent: u64) -> Result<Store, u32> {
    let good = capacities.iter().zip(MOST).all(|(&c, most)| c >= 1 && c <= most);
    need(good && words_lent >= words(capacities), 5)?;
    Ok(Store { capacities, born: [0; 5], ops: BTreeMap::new(), blocks: BTreeMap::new(), regions: BTreeMap::new(), values: BTreeMap::new() })
}

/// A script's listing over a new store.
pub fn listing_of(script: &[u8], capacities: Capacities) -> String {
    let mut store = start(capacities, words(capacities)).unwrap();
    let (answers, _) = store.script(script, capacities[OPS] as usize, usize::MAX);
    store.listing(&answers)
}

impl Store {
    // ---- calls

    /// A single edit: the answer. The store is sound.
    pub fn edit(&mut self, record: &[u8], scratch: usize) -> [u32; 3] {
        let taken = length(record).and_then(|n| need(n == record.len(), 1)).and_then(|_| take_apart(record));
        let reply = taken.and_then(|r| need(scratch >= self.capacities[OPS] as usize, 22).and_then(|_| self.carry_out(&r)));
        answer(reply)
    }

    /// A script: the answers, and 0 or the 22 that ended it. The store is sound.
    pub fn script(&mut self, script: &[u8], scratch: usize, answer_words: usize) -> (Vec<[u32; 3]>, u32) {
        let mut answers = vec![];
        if scratch < self.capacities[OPS] as usize {
            return (answers, 22);
        }
        let mut rest = script;
        while !rest.is_empty() {
            if answer_words / 3 <= answers.len() {
                return (answers, 22);
            }
            let Ok(n) = length(rest) else {
                answers.push([1, 0, 0]);
                break;
            };
            answers.push(answer(take_apart(&rest[..n]).and_then(|r| self.carry_out(&r))));
            rest = &rest[n..];
        }
        (answers, 0)
    }

    // ---- who is live

    pub fn op(&self, n: u32) -> Result<&Op, u32> {
        self.ops.get(&n).ok_or(7)
    }
    pub fn block(&self, n: u32) -> Result<&Block, u32> {
        self.blocks.get(&n).ok_or(8)
    }
    pub fn region(&self, n: u32) -> Result<&Region, u32> {
        self.regions.get(&n).ok_or(9)
    }
    fn value(&self, n: u32) -> Result<(), u32> {
        need(self.values.contains_key(&n), 10)
    }
    /// How many are live, by kind.
    pub fn live(&self) -> [usize; 5] {
        let uses = self.ops.values().map(|o| o.operands.len() + o.successors.len()).sum();
        [self.ops.len(), self.blocks.len(), self.regions.len(), self.values.len(), uses]
    }
    /// The birth numbers of what is live of a kind.
    pub fn numbers_of(&self, kind: usize) -> Box<dyn Iterator<Item = u32> + '_> {
        match kind {
            OPS => Box::new(self.ops.keys().copied()),
            BLOCKS => Box::new(self.blocks.keys().copied()),
            REGIONS => Box::new(self.regions.keys().copied()),
            VALUES => Box::new(self.values.keys().copied()),
            _ => Box::new(self.ops.values().flat_map(|o| o.operands.iter().chain(&o.successors).map(|x| x.0))),
        }
    }

    // ---- births

    /// 20 over all tables, then 21 over all counts.
    fn room(&self, wanted: [usize; 5]) -> Result<(), u32> {
        let live = self.live();
        need((0..5).all(|k| wanted[k] == 0 || live[k] + wanted[k] <= self.capacities[k] as usize), 20)?;
        self.numbers(wanted)
    }
    fn numbers(&self, wanted: [usize; 5]) -> Result<(), u32> {
        need((0..5).all(|k| self.born[k] + wanted[k] as u64 <= 4_294_967_295), 21)
    }
    fn birth(&mut self, kind: usize) -> u32 {
        self.born[kind] += 1;
        (self.born[kind] - 1) as u32
    }
    fn new_value(&mut self, type_: u32) -> u32 {
        let n = self.birth(VALUES);
        self.values.insert(n, type_);
        n
    }

    // ---- uses

    /// The uses of a value, each with the operation that has it, by rising number.
    pub fn uses_of_value(&self, v: u32) -> Vec<(u32, u32)> {
        self.uses_where(|o| &o.operands, v)
    }
    pub fn uses_of_block(&self, b: u32) -> Vec<(u32, u32)> {
        self.uses_where(|o| &o.successors, b)
    }
    fn uses_where(&self, list: fn(&Op) -> &Vec<(u32, u32)>, d: u32) -> Vec<(u32, u32)> {
        let of_op = |(&n, o): (&u32, &Op)| list(o).iter().filter(|x| x.1 == d).map(|x| (x.0, n)).collect::<Vec<_>>();
        let mut uses: Vec<(u32, u32)> = self.ops.iter().flat_map(of_op).collect();
        uses.sort();
        uses
    }
    /// The use u, wherever it stands, is now one of d.
    fn place(&mut self, u: u32, d: u32) {
        for o in self.ops.values_mut() {
            for x in o.operands.iter_mut().chain(&mut o.successors).filter(|x| x.0 == u) {
                x.1 = d;
            }
        }
    }

    // ---- the nest

    fn op_of_block(&self, b: u32) -> Option<u32> {
        self.blocks[&b].region.map(|r| self.regions[&r].op)
    }
    /// The blocks that b lies in, itself first, outward.
    fn blocks_outward(&self, b: Option<u32>) -> Vec<u32> {
        let mut blocks = vec![];
        let mut next = b;
        while let Some(b) = next {
            assert!(blocks.len() <= self.blocks.len(), "a ring");
            blocks.push(b);
            next = self.op_of_block(b).and_then(|o| self.ops[&o].block);
        }
        blocks
    }
    /// Does block b lie in operation o?
    fn in_op(&self, b: u32, o: u32) -> bool {
        self.blocks_outward(Some(b)).iter().any(|&x| self.op_of_block(x) == Some(o))
    }
    /// Does region r lie in block b?
    fn in_block(&self, r: u32, b: u32) -> bool {
        self.blocks_outward(self.ops[&self.regions[&r].op].block).contains(&b)
    }
    /// Does operation o lie in region r?
    fn in_region(&self, o: u32, r: u32) -> bool {
        self.blocks_outward(self.ops[&o].block).iter().any(|x| self.blocks[x].region == Some(r))
    }

    fn walk_op(&self, o: u32, into: &mut Inside) {
        assert!(into.ops.len() < self.ops.len(), "a ring");
        into.ops.push(o);
        for &r in &self.ops[&o].regions {
            self.walk_region(r, into);
        }
    }
    fn walk_region(&self, r: u32, into: &mut Inside) {
        into.regions.push(r);
        for &b in &self.regions[&r].blocks {
            self.walk_block(b, into);
        }
    }
    fn walk_block(&self, b: u32, into: &mut Inside) {
        into.blocks.push(b);
        for &o in &self.blocks[&b].ops {
            self.walk_op(o, into);
        }
    }

    // ---- dropping and erasing

    fn drop_uses(&mut self, inside: &Inside) -> u32 {
        let mut ended = 0;
        for o in &inside.ops {
            let o = self.ops.get_mut(o).unwrap();
            ended += o.operands.len() + o.successors.len();
            o.operands.clear();
            o.successors.clear();
        }
        ended as u32
    }
    fn end(&mut self, inside: &Inside) {
        let results = inside.ops.iter().flat_map(|o| self.ops.remove(o).unwrap().results);
        let arguments = inside.blocks.iter().flat_map(|b| self.blocks.remove(b).unwrap().arguments);
        for v in results.chain(arguments).collect::<Vec<_>>() {
            self.values.remove(&v);
        }
        for r in &inside.regions {
            self.regions.remove(r);
        }
    }
    fn value_used_outside(&self, v: u32, inside: &Inside) -> bool {
        self.uses_of_value(v).iter().any(|(_, user)| !inside.ops.contains(user))
    }
    fn result_used_outside(&self, o: u32, inside: &Inside) -> bool {
        self.ops[&o].results.iter().any(|&v| self.value_used_outside(v, inside))
    }
    fn argument_used_outside(&self, b: u32, inside: &Inside) -> bool {
        self.blocks[&b].arguments.iter().any(|&v| self.value_used_outside(v, inside))
    }
    fn block_used_outside(&self, b: u32, inside: &Inside) -> bool {
        self.uses_of_block(b).iter().any(|(_, user)| !inside.ops.contains(user))
    }
    fn anything_used_outside(&self, inside: &Inside) -> bool {
        inside.ops.iter().any(|&o| self.result_used_outside(o, inside))
            || inside.blocks.iter().any(|&b| self.argument_used_outside(b, inside))
            || inside.blocks.iter().any(|&b| self.block_used_outside(b, inside))
    }
    fn erase(&mut self, inside: &Inside) -> Reply {
        let ended = self.drop_uses(inside);
        self.end(inside);
        Ok((inside.ops.len() as u32, ended))
    }

    // ---- verdicts: Err is what is met first, (verdict, offender), with 18 for the refusal

    fn terminator(&self, b: u32) -> Option<&Op> {
        self.blocks[&b].ops.last().map(|o| &self.ops[o]).filter(|o| o.flags % 2 == 1)
    }
    fn verify_block(&self, b: u32) -> Result<(), (u32, u32)> {
        let Some(parent) = self.op_of_block(b) else { return Err((1, b)) };
        if self.ops[&parent].flags < 2 && self.terminator(b).is_none() {
            return Err((2, b));
        }
        let users: Vec<&Op> = self.uses_of_block(b).iter().map(|(_, user)| &self.ops[user]).collect();
        if users.iter().any(|o| o.block.is_none()) {
            return Err((18, 0));
        }
        let names = |t: &Op| t.successors.iter().any(|s| s.1 == b);
        if users.iter().any(|o| !self.terminator(o.block.unwrap()).is_some_and(names)) {
            return Err((4, b));
        }
        self.blocks[&b].ops.iter().try_for_each(|&o| self.verify_op(o))
    }
    fn verify_region(&self, r: u32) -> Result<(), (u32, u32)> {
        self.regions[&r].blocks.iter().try_for_each(|&b| self.verify_block(b))
    }
    fn verify_op(&self, o: u32) -> Result<(), (u32, u32)> {
        let op = &self.ops[&o];
        op.regions.iter().try_for_each(|&r| self.verify_region(r))?;
        let has_next = op.block.is_some_and(|b| self.blocks[&b].ops.last() != Some(&o));
        if op.flags % 2 == 1 && has_next { Err((3, o)) } else { Ok(()) }
    }

    // ---- one edit

    /// 7 to 10, over the fields from left to right.
    fn all_live(&self, r: &Record) -> Result<(), u32> {
        let f = &r.fields;
        let op = |n: u32| self.op(n).map(|_| ());
        let block = |n: u32| self.block(n).map(|_| ());
        let region = |n: u32| self.region(n).map(|_| ());
        let value = |n: u32| self.value(n);
        match r.kind {
            1 => {
                let (operands, successors) = f[5 + f[1] as usize..].split_at(f[2] as usize);
                operands.iter().try_for_each(|&v| value(v))?;
                successors.iter().try_for_each(|&b| block(b))
            }
            2 => Ok(()),
            3 => op(f[0]).and_then(|_| value(f[1])),
            4 | 5 => op(f[0]).and_then(|_| value(f[2])),
            8 => op(f[0]).and_then(|_| block(f[1])),
            9 | 10 => op(f[0]).and_then(|_| block(f[2])),
            21 | 22 => op(f[0]).and_then(|_| op(f[1])),
            23 | 24 => op(f[0]).and_then(|_| block(f[1])),
            26 | 27 => block(f[0]).and_then(|_| block(f[1])),
            28 | 29 => block(f[0]).and_then(|_| region(f[1])),
            31 => region(f[0]).and_then(|_| op(f[1])),
            32 => value(f[0]).and_then(|_| value(f[2])),
            33 => block(f[0]).and_then(|_| block(f[2])),
            34 => value(f[0]).and_then(|_| value(f[1])),
            35 => block(f[0]).and_then(|_| block(f[1])),
            17..=20 | 30 | 37 | 40 | 43 => block(f[0]),
            38 | 44 => region(f[0]),
            _ => op(f[0]),
        }
    }

    /// 7 to 21 and, where none of them holds, the edit.
    pub fn carry_out(&mut self, r: &Record) -> Reply {
        self.all_live(r)?;
        match r.kind {
            1 => self.new_operation(&r.fields),
            2 => self.new_block(&r.fields),
            3..=7 => self.edit_uses(r.kind, &r.fields, |o| &mut o.operands),
            8..=12 => self.edit_uses(r.kind - 5, &r.fields, |o| &mut o.successors),
            13..=16 => self.edit_values(r.kind, &r.fields, |s, n| &mut s.ops.get_mut(&n).unwrap().results),
            17..=20 => self.edit_values(r.kind - 4, &r.fields, |s, n| &mut s.blocks.get_mut(&n).unwrap().arguments),
            21..=25 => self.link_op(r.kind, &r.fields),
            26..=30 => self.link_block(r.kind - 5, &r.fields),
            31 => self.move_region(r.fields[0], r.fields[1]),
            32..=35 => self.move_uses(r.kind, &r.fields),
            36..=41 => self.drop_or_erase(r.kind, &r.fields),
            _ => self.verdict(r.kind, r.fields[0]),
        }
    }

    fn new_operation(&mut self, f: &[u32]) -> Reply {
        let [r, a, s, g] = [f[1], f[2], f[3], f[4]].map(|n| n as usize);
        self.room([1, 0, g, r, a + s])?;
        let n = self.birth(OPS);
        let types = &f[5..5 + r];
        let (operands, successors) = f[5 + r..].split_at(a);
        let results = types.iter().map(|&t| self.new_value(t)).collect();
        let operands = operands.iter().map(|&v| (self.birth(USES), v)).collect();
        let successors = successors.iter().map(|&b| (self.birth(USES), b)).collect();
        let regions: Vec<u32> = (0..g).map(|_| self.birth(REGIONS)).collect();
        for &region in &regions {
            self.regions.insert(region, Region { op: n, blocks: vec![] });
        }
        self.ops.insert(n, Op { flags: f[0], block: None, results, operands, successors, regions });
        Ok((n, 0))
    }

    fn new_block(&mut self, f: &[u32]) -> Reply {
        self.room([0, 1, 0, f[0] as usize, 0])?;
        let n = self.birth(BLOCKS);
        let arguments = f[1..].iter().map(|&t| self.new_value(t)).collect();
        self.blocks.insert(n, Block { region: None, arguments, ops: vec![] });
        Ok((n, 0))
    }

    /// Push 3, insert 4, replace 5, remove 6, pop 7, of operands or of successors.
    fn edit_uses(&mut self, kind: u16, f: &[u32], list: fn(&mut Op) -> &mut Vec<(u32, u32)>) -> Reply {
        let length = list(self.ops.get_mut(&f[0]).unwrap()).len();
        let index = match kind {
            3 => length,
            7 => length.wrapping_sub(1),
            _ => f[1] as usize,
        };
        need(if kind <= 4 { index <= length } else { index < length }, 12)?;
        if kind <= 4 {
            need(length < 64, 19)?;
            self.room([0, 0, 0, 0, 1])?;
        }
        if kind == 5 {
            self.numbers([0, 0, 0, 0, 1])?;
        }
        let born = if kind <= 5 { self.birth(USES) } else { 0 };
        let uses = list(self.ops.get_mut(&f[0]).unwrap());
        match kind {
            3 => uses.push((born, f[1])),
            4 => uses.insert(index, (born, f[2])),
            5 => uses[index] = (born, f[2]),
            _ => return Ok((uses.remove(index).1, 0)),
        }
        Ok((if kind == 3 { length as u32 } else { 0 }, 0))
    }

    /// Push 13, insert 14, remove 15, pop 16, of results or of arguments.
    fn edit_values(&mut self, kind: u16, f: &[u32], list: fn(&mut Store, u32) -> &mut Vec<u32>) -> Reply {
        let values = list(self, f[0]).clone();
        let length = values.len();
        let index = match kind {
            13 => length,
            16 => length.wrapping_sub(1),
            _ => f[1] as usize,
        };
        need(if kind <= 14 { index <= length } else { index < length }, 12)?;
        if kind >= 15 {
            need(self.uses_of_value(values[index]).is_empty(), 13)?;
            list(self, f[0]).remove(index);
            self.values.remove(&values[index]);
            return Ok((0, 0));
        }
        need(length < 64, 19)?;
        self.room([0, 0, 0, 1, 0])?;
        let born = self.new_value(*f.last().unwrap());
        list(self, f[0]).insert(index, born);
        Ok((if kind == 13 { length as u32 } else { 0 }, 0))
    }

    /// After a mark 21, before it 22, at the front 23, at the back 24, unlink 25.
    fn link_op(&mut self, kind: u16, f: &[u32]) -> Reply {
        let x = f[0];
        if kind == 25 {
            let b = self.ops[&x].block.ok_or(16u32)?;
            self.unlink_op(x, b);
            return Ok((0, 0));
        }
        need(self.ops[&x].block.is_none(), 15)?;
        let b = if kind <= 22 { self.ops[&f[1]].block.ok_or(16u32)? } else { f[1] };
        need(!self.in_op(b, x), 17)?;
        let ops = &mut self.blocks.get_mut(&b).unwrap().ops;
        let mark = ops.iter().position(|&y| kind <= 22 && y == f[1]);
        let index = match kind {
            21 => mark.unwrap() + 1,
            22 => mark.unwrap(),
            23 => 0,
            _ => ops.len(),
        };
        ops.insert(index, x);
        self.ops.get_mut(&x).unwrap().block = Some(b);
        Ok((0, 0))
    }
    fn unlink_op(&mut self, x: u32, b: u32) {
        self.blocks.get_mut(&b).unwrap().ops.retain(|&y| y != x);
        self.ops.get_mut(&x).unwrap().block = None;
    }

    /// The same for blocks, with the kinds of `link_op`.
    fn link_block(&mut self, kind: u16, f: &[u32]) -> Reply {
        let x = f[0];
        if kind == 25 {
            let r = self.blocks[&x].region.ok_or(16u32)?;
            self.unlink_block(x, r);
            return Ok((0, 0));
        }
        need(self.blocks[&x].region.is_none(), 15)?;
        let r = if kind <= 22 { self.blocks[&f[1]].region.ok_or(16u32)? } else { f[1] };
        need(!self.in_block(r, x), 17)?;
        let blocks = &mut self.regions.get_mut(&r).unwrap().blocks;
        let mark = blocks.iter().position(|&y| kind <= 22 && y == f[1]);
        let index = match kind {
            21 => mark.unwrap() + 1,
            22 => mark.unwrap(),
            23 => 0,
            _ => blocks.len(),
        };
        blocks.insert(index, x);
        self.blocks.get_mut(&x).unwrap().region = Some(r);
        Ok((0, 0))
    }
    fn unlink_block(&mut self, x: u32, r: u32) {
        self.regions.get_mut(&r).unwrap().blocks.retain(|&y| y != x);
        self.blocks.get_mut(&x).unwrap().region = None;
    }

    fn move_region(&mut self, r: u32, to: u32) -> Reply {
        let from = self.regions[&r].op;
        if from == to {
            return Ok((0, 0));
        }
        need(!self.in_region(to, r), 17)?;
        need(self.ops[&to].regions.len() < 64, 19)?;
        let regions = &mut self.ops.get_mut(&from).unwrap().regions;
        let gap = regions.iter().position(|&x| x == r).unwrap();
        regions.swap_remove(gap);
        self.ops.get_mut(&to).unwrap().regions.push(r);
        self.regions.get_mut(&r).unwrap().op = to;
        Ok((0, 0))
    }

    fn move_uses(&mut self, kind: u16, f: &[u32]) -> Reply {
        let uses = if kind % 2 == 0 { self.uses_of_value(f[0]) } else { self.uses_of_block(f[0]) };
        if kind <= 33 {
            if f[0] == f[2] {
                return Ok((0, 0));
            }
            need(uses.iter().any(|x| x.0 == f[1]), 11)?;
            self.place(f[1], f[2]);
            return Ok((0, 0));
        }
        if kind == 35 {
            need(uses.iter().all(|(_, user)| self.ops[user].block.is_some()), 18)?;
        }
        for (u, user) in uses {
            let chosen = if kind == 34 { f[2..].contains(&u) } else { f[2..].contains(&self.ops[&user].block.unwrap()) };
            if chosen {
                self.place(u, f[1]);
            }
        }
        Ok((0, 0))
    }

    fn drop_or_erase(&mut self, kind: u16, f: &[u32]) -> Reply {
        let mut inside = Inside::default();
        match kind {
            36 | 39 => self.walk_op(f[0], &mut inside),
            37 | 40 => self.walk_block(f[0], &mut inside),
            38 => self.walk_region(f[0], &mut inside),
            _ => self.walk_region(*self.ops[&f[0]].regions.get(f[1] as usize).ok_or(12u32)?, &mut inside),
        }
        match kind {
            36..=38 => return Ok((0, self.drop_uses(&inside))),
            39 => need(!self.result_used_outside(f[0], &inside), 13)?,
            40 => {
                let direct = self.blocks[&f[0]].ops.iter().any(|&o| self.result_used_outside(o, &inside));
                need(!direct && !self.argument_used_outside(f[0], &inside) && !self.block_used_outside(f[0], &inside), 13)?
            }
            _ => (),
        }
        need(!self.anything_used_outside(&inside), 14)?;
        match kind {
            39 => self.ops[&f[0]].block.into_iter().for_each(|b| self.unlink_op(f[0], b)),
            40 => self.blocks[&f[0]].region.into_iter().for_each(|r| self.unlink_block(f[0], r)),
            _ => drop(self.ops.get_mut(&f[0]).unwrap().regions.remove(f[1] as usize)),
        }
        self.erase(&inside)
    }

    fn verdict(&self, kind: u16, n: u32) -> Reply {
        let met = match kind {
            42 => self.verify_op(n),
            43 => self.verify_block(n),
            _ => self.verify_region(n),
        };
        match met {
            Ok(()) => Ok((0, 0)),
            Err((18, _)) => Err(18),
            Err(verdict) => Ok(verdict),
        }
    }

    // ---- the listing

    pub fn listing(&self, answers: &[[u32; 3]]) -> String {
        let mut s = String::new();
        for (k, a) in answers.iter().enumerate() {
            match a {
                [0, a, b] => writeln!(s, "edit {k} ok {a} {b}"),
                [refusal, ..] => writeln!(s, "edit {k} no {refusal}"),
            }
            .unwrap();
        }
        s + &self.rows()
    }

    pub fn rows(&self) -> String {
        let list = |l: &[u32]| l.iter().map(|n| format!(" {n}")).collect::<String>();
        let pairs = |l: &[(u32, u32)]| l.iter().map(|(u, d)| format!(" {u}:{d}")).collect::<String>();
        let or_none = |x: Option<u32>| x.map_or("-".to_string(), |n| n.to_string());
        let firsts = |l: Vec<(u32, u32)>| l.iter().map(|x| format!(" {}", x.0)).collect::<String>();
        let [o, b, r, v, u] = self.live();
        let mut s = format!("store {o} {b} {r} {v} {u}\n");
        for (n, o) in &self.ops {
            write!(s, "op {n} block {} flags {}", or_none(o.block), o.flags).unwrap();
            writeln!(s, " res{} opd{} suc{} reg{}", list(&o.results), pairs(&o.operands), pairs(&o.successors), list(&o.regions)).unwrap();
        }
        for (&n, b) in &self.blocks {
            let uses = firsts(self.uses_of_block(n));
            writeln!(s, "block {n} region {} arg{} ops{} pred{uses}", or_none(b.region), list(&b.arguments), list(&b.ops)).unwrap();
        }
        for (n, r) in &self.regions {
            writeln!(s, "region {n} op {} blocks{}", r.op, list(&r.blocks)).unwrap();
        }
        for (&n, type_) in &self.values {
            writeln!(s, "value {n} type {type_} uses{}", firsts(self.uses_of_value(n))).unwrap();
        }
        s
    }
}

/// The three numbers of a reply.
pub fn answer(reply: Reply) -> [u32; 3] {
    match reply {
        Ok((a, b)) => [0, a, b],
        Err(refusal) => [refusal, 0, 0],
    }
}
