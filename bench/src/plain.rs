//! The rules of docs/FORMAT.md as a plain Rust program: a `Vec` for each kind in rising birth number, searched by halves. Each definition has its uses in
//! rising number. Bytes in, answers out, as the store's own interface; a store is always sound here, so there is no refusal 6.
use std::fmt::Write;

/// Operations, blocks, regions, values, uses.
pub type Capacities = [u32; 5];
/// A and B, or the refusal.
type Reply = Result<(u32, u32), u32>;

const LAST_NUMBER: u64 = 4_294_967_294;
const LONGEST: usize = 64;
/// Fields that stand before the lists, by kind.
const LEAST: [u8; 45] = [0, 5, 1, 2, 3, 3, 2, 1, 2, 3, 3, 2, 1, 2, 3, 2, 1, 2, 3, 2, 1, 2, 2, 2, 2, 1, 2, 2, 2, 2, 1, 2, 3, 3, 2, 2, 1, 1, 1, 1, 1, 2, 1, 1, 1];

/// An operand or successor: the use's number and the value or block it is of.
#[derive(Clone, Copy)]
pub struct Slot {
    pub number: u32,
    pub def: u32,
}

/// A use as its definition keeps it.
#[derive(Clone, Copy)]
pub struct User {
    pub number: u32,
    pub op: u32,
}

#[derive(Clone)]
pub struct Op {
    number: u32,
    pub flags: u32,
    pub block: Option<u32>,
    pub results: Vec<u32>,
    pub operands: Vec<Slot>,
    pub successors: Vec<Slot>,
    pub regions: Vec<u32>,
}

#[derive(Clone)]
pub struct Block {
    number: u32,
    pub region: Option<u32>,
    pub arguments: Vec<u32>,
    pub ops: Vec<u32>,
    pub uses: Vec<User>,
}

#[derive(Clone)]
pub struct Region {
    number: u32,
    pub op: u32,
    pub blocks: Vec<u32>,
}

#[derive(Clone)]
pub struct Value {
    number: u32,
    type_: u32,
    pub uses: Vec<User>,
}

pub trait Thing {
    fn number(&self) -> u32;
}
macro_rules! things {
    ($($thing:ident),*) => { $(impl Thing for $thing { fn number(&self) -> u32 { self.number } })* };
}
things!(Op, Block, Region, Value, User);

/// The live things of a kind in rising number.
#[derive(Clone)]
pub struct Table<T> {
    things: Vec<T>,
    /// Births so far: the next number.
    born: u64,
    capacity: usize,
}

fn place<T: Thing>(things: &[T], number: u32) -> Result<usize, usize> {
    things.binary_search_by_key(&number, T::number)
}

impl<T: Thing> Table<T> {
    fn new(capacity: u32) -> Self {
        Table { things: Vec::with_capacity(capacity as usize), born: 0, capacity: capacity as usize }
    }
    pub fn len(&self) -> usize {
        self.things.len()
    }
    pub fn is_empty(&self) -> bool {
        self.things.is_empty()
    }
    pub fn has(&self, number: u32) -> bool {
        place(&self.things, number).is_ok()
    }
    /// The live thing of this number.
    pub fn get(&self, number: u32) -> &T {
        &self.things[place(&self.things, number).unwrap()]
    }
    fn get_mut(&mut self, number: u32) -> &mut T {
        let at = place(&self.things, number).unwrap();
        &mut self.things[at]
    }
    pub fn numbers(&self) -> impl Iterator<Item = u32> + '_ {
        self.things.iter().map(T::number)
    }
    pub fn nth(&self, i: usize) -> &T {
        &self.things[i]
    }
    fn next(&mut self) -> u32 {
        self.born += 1;
        (self.born - 1) as u32
    }
    fn remove(&mut self, number: u32) -> T {
        self.things.remove(place(&self.things, number).unwrap())
    }
    fn has_places(&self, wanted: usize) -> bool {
        self.things.len() + wanted <= self.capacity
    }
    fn has_numbers(&self, wanted: usize) -> bool {
        self.born + wanted as u64 <= LAST_NUMBER + 1
    }
}

#[derive(Clone)]
pub struct Store {
    pub ops: Table<Op>,
    pub blocks: Table<Block>,
    pub regions: Table<Region>,
    pub values: Table<Value>,
    /// Live uses, births so far and places; the uses themselves stand at their operations and definitions.
    live_uses: usize,
    born_uses: u64,
    use_places: usize,
}

/// The fields of a record.
#[derive(Clone, Copy)]
struct Fields<'a>(&'a [u8]);

impl Fields<'_> {
    fn len(&self) -> usize {
        self.0.len() / 4
    }
    fn at(&self, i: usize) -> u32 {
        u32::from_le_bytes(self.0[4 * i..4 * i + 4].try_into().unwrap())
    }
    fn from(&self, first: usize) -> impl Iterator<Item = u32> + '_ {
        self.0[4 * first..].chunks_exact(4).map(|c| u32::from_le_bytes(c.try_into().unwrap()))
    }
}

/// The operations, blocks and regions in a thing, the thing included; the operations rising once `walk` is done.
#[derive(Default)]
struct Inside {
    ops: Vec<u32>,
    blocks: Vec<u32>,
    regions: Vec<u32>,
}

impl Inside {
    fn has(&self, op: u32) -> bool {
        self.ops.binary_search(&op).is_ok()
    }
}

fn need(holds: bool, refusal: u32) -> Result<(), u32> {
    if holds { Ok(()) } else { Err(refusal) }
}

fn two_bytes(bytes: &[u8], at: usize) -> usize {
    u16::from_le_bytes([bytes[at], bytes[at + 1]]) as usize
}

/// The length of the record at the front, or refusal 1.
fn length(bytes: &[u8]) -> Result<usize, u32> {
    need(bytes.len() >= 4, 1)?;
    let n = two_bytes(bytes, 0);
    need((4..=2048).contains(&n) && n % 4 == 0 && n <= bytes.len(), 1)?;
    Ok(n)
}

/// The kind and the fields of a record whose length is good, or 2 to 4.
fn take_apart(record: &[u8]) -> Result<(usize, Fields<'_>), u32> {
    let (kind, f) = (two_bytes(record, 2), Fields(&record[4..]));
    need((1..=44).contains(&kind), 2)?;
    let least = LEAST[kind] as usize;
    need(f.len() >= least, 3)?;
    let listed = |first: usize, last: usize| (first..=last).map(|i| f.at(i) as usize);
    let wanted = match kind {
        1 => {
            need(f.at(0) <= 3 && listed(1, 4).all(|n| n <= LONGEST), 4)?;
            5 + listed(1, 3).sum::<usize>()
        }
        2 => {
            need(f.at(0) as usize <= LONGEST, 4)?;
            1 + f.at(0) as usize
        }
        34 | 35 => {
            need(f.len() <= 258, 4)?;
            f.len()
        }
        _ => least,
    };
    need(f.len() == wanted, 3)?;
    Ok((kind, f))
}

fn insert_user(uses: &mut Vec<User>, user: User) {
    let at = place(uses, user.number).unwrap_err();
    uses.insert(at, user);
}
fn remove_user(uses: &mut Vec<User>, number: u32) -> User {
    uses.remove(place(uses, number).unwrap())
}

impl Store {
    pub fn new([o, b, r, v, u]: Capacities) -> Store {
        Store { ops: Table::new(o), blocks: Table::new(b), regions: Table::new(r), values: Table::new(v), live_uses: 0, born_uses: 0, use_places: u as usize }
    }

    /// A script: 0 or the 22 that ended it, and the count of answers.
    pub fn script(&mut self, script: &[u8], answers: &mut [u32]) -> (u32, usize) {
        let (mut rest, mut count) = (script, 0);
        while !rest.is_empty() {
            if answers.len() / 3 <= count {
                return (22, count);
            }
            let next = length(rest);
            let end = next.unwrap_or(0);
            let reply = next.and_then(|n| self.edit(&rest[..n]));
            let answer = match reply {
                Ok((a, b)) => [0, a, b],
                Err(refusal) => [refusal, 0, 0],
            };
            answers[3 * count..3 * count + 3].copy_from_slice(&answer);
            count += 1;
            if next.is_err() {
                break;
            }
            rest = &rest[end..];
        }
        (0, count)
    }

    /// One record of a good length.
    pub fn edit(&mut self, record: &[u8]) -> Reply {
        let (kind, f) = take_apart(record)?;
        match kind {
            1 => self.new_operation(f),
            2 => self.new_block(f),
            3..=7 => self.edit_uses(kind, f, true),
            8..=12 => self.edit_uses(kind - 5, f, false),
            13..=16 => self.edit_values(kind, f, true),
            17..=20 => self.edit_values(kind - 4, f, false),
            21..=25 => self.link_op(kind, f),
            26..=30 => self.link_block(kind - 5, f),
            31 => self.move_region(f.at(0), f.at(1)),
            32 => self.move_one(f, true),
            33 => self.move_one(f, false),
            34 => self.replace_some(f),
            35 => self.retarget_some(f),
            36..=38 => self.drop_uses(kind, f.at(0)),
            39..=41 => self.erase(kind, f),
            _ => self.verdict(kind, f.at(0)),
        }
    }

    // ---- who is live

    fn op_live(&self, n: u32) -> Result<(), u32> {
        need(self.ops.has(n), 7)
    }
    fn block_live(&self, n: u32) -> Result<(), u32> {
        need(self.blocks.has(n), 8)
    }
    fn region_live(&self, n: u32) -> Result<(), u32> {
        need(self.regions.has(n), 9)
    }
    fn value_live(&self, n: u32) -> Result<(), u32> {
        need(self.values.has(n), 10)
    }
    fn def_live(&self, of_value: bool, n: u32) -> Result<(), u32> {
        if of_value { self.value_live(n) } else { self.block_live(n) }
    }
    pub fn live_uses(&self) -> usize {
        self.live_uses
    }

    // ---- births and ends

    /// 20 over all tables, then 21 over all counts.
    fn room(&self, ops: usize, blocks: usize, regions: usize, values: usize, uses: usize) -> Result<(), u32> {
        let places = self.ops.has_places(ops) && self.blocks.has_places(blocks) && self.regions.has_places(regions) && self.values.has_places(values);
        need(places && self.live_uses + uses <= self.use_places, 20)?;
        let numbers = self.ops.has_numbers(ops) && self.blocks.has_numbers(blocks) && self.regions.has_numbers(regions) && self.values.has_numbers(values);
        need(numbers && self.born_uses + uses as u64 <= LAST_NUMBER + 1, 21)
    }
    fn new_value(&mut self, type_: u32) -> u32 {
        let number = self.values.next();
        self.values.things.push(Value { number, type_, uses: vec![] });
        number
    }
    fn uses_of(&mut self, of_value: bool, def: u32) -> &mut Vec<User> {
        if of_value { &mut self.values.get_mut(def).uses } else { &mut self.blocks.get_mut(def).uses }
    }
    fn slots(&mut self, operands: bool, op: u32) -> &mut Vec<Slot> {
        let op = self.ops.get_mut(op);
        if operands { &mut op.operands } else { &mut op.successors }
    }
    /// A use is born at its definition; its number is the highest there.
    fn new_use(&mut self, of_value: bool, op: u32, def: u32) -> Slot {
        let number = self.born_uses as u32;
        self.born_uses += 1;
        self.live_uses += 1;
        self.uses_of(of_value, def).push(User { number, op });
        Slot { number, def }
    }
    fn end_use(&mut self, of_value: bool, slot: Slot) {
        self.live_uses -= 1;
        remove_user(self.uses_of(of_value, slot.def), slot.number);
    }

    fn new_operation(&mut self, f: Fields) -> Reply {
        let [r, a, s, g] = [1, 2, 3, 4].map(|i| f.at(i) as usize);
        let (values, blocks) = (5 + r, 5 + r + a);
        (values..blocks).try_for_each(|i| self.value_live(f.at(i)))?;
        (blocks..blocks + s).try_for_each(|i| self.block_live(f.at(i)))?;
        self.room(1, 0, g, r, a + s)?;
        let number = self.ops.next();
        let results = (5..values).map(|i| self.new_value(f.at(i))).collect();
        let operands = (values..blocks).map(|i| self.new_use(true, number, f.at(i))).collect();
        let successors = (blocks..blocks + s).map(|i| self.new_use(false, number, f.at(i))).collect();
        let regions = (0..g).map(|_| self.new_region(number)).collect();
        self.ops.things.push(Op { number, flags: f.at(0), block: None, results, operands, successors, regions });
        Ok((number, 0))
    }
    fn new_region(&mut self, op: u32) -> u32 {
        let number = self.regions.next();
        self.regions.things.push(Region { number, op, blocks: vec![] });
        number
    }
    fn new_block(&mut self, f: Fields) -> Reply {
        self.room(0, 1, 0, f.at(0) as usize, 0)?;
        let number = self.blocks.next();
        let arguments = f.from(1).map(|t| self.new_value(t)).collect();
        self.blocks.things.push(Block { number, region: None, arguments, ops: vec![], uses: vec![] });
        Ok((number, 0))
    }

    // ---- lists

    /// Push 3, insert 4, replace 5, remove 6, pop 7.
    fn edit_uses(&mut self, kind: usize, f: Fields, operands: bool) -> Reply {
        let o = f.at(0);
        self.op_live(o)?;
        let def = f.at(f.len() - 1);
        if kind <= 5 {
            self.def_live(operands, def)?;
        }
        let length = self.slots(operands, o).len();
        let index = match kind {
            3 => length,
            7 => length.wrapping_sub(1),
            _ => f.at(1) as usize,
        };
        need(if kind <= 4 { index <= length } else { index < length }, 12)?;
        match kind {
            3 | 4 => {
                need(length < LONGEST, 19)?;
                self.room(0, 0, 0, 0, 1)?;
                let slot = self.new_use(operands, o, def);
                self.slots(operands, o).insert(index, slot);
                Ok((if kind == 3 { length as u32 } else { 0 }, 0))
            }
            5 => {
                need(self.born_uses <= LAST_NUMBER, 21)?;
                let slot = self.new_use(operands, o, def);
                let old = std::mem::replace(&mut self.slots(operands, o)[index], slot);
                self.end_use(operands, old);
                Ok((0, 0))
            }
            _ => {
                let old = self.slots(operands, o).remove(index);
                self.end_use(operands, old);
                Ok((old.def, 0))
            }
        }
    }

    fn values_of(&mut self, results: bool, owner: u32) -> &mut Vec<u32> {
        if results { &mut self.ops.get_mut(owner).results } else { &mut self.blocks.get_mut(owner).arguments }
    }
    /// Push 13, insert 14, remove 15, pop 16.
    fn edit_values(&mut self, kind: usize, f: Fields, results: bool) -> Reply {
        let owner = f.at(0);
        if results {
            self.op_live(owner)?
        } else {
            self.block_live(owner)?
        }
        let length = self.values_of(results, owner).len();
        let index = match kind {
            13 => length,
            16 => length.wrapping_sub(1),
            _ => f.at(1) as usize,
        };
        need(if kind <= 14 { index <= length } else { index < length }, 12)?;
        if kind >= 15 {
            let v = self.values_of(results, owner)[index];
            need(self.values.get(v).uses.is_empty(), 13)?;
            self.values_of(results, owner).remove(index);
            self.values.remove(v);
            return Ok((0, 0));
        }
        need(length < LONGEST, 19)?;
        self.room(0, 0, 0, 1, 0)?;
        let v = self.new_value(f.at(f.len() - 1));
        self.values_of(results, owner).insert(index, v);
        Ok((if kind == 13 { length as u32 } else { 0 }, 0))
    }

    // ---- the nest

    /// Whether the block lies in what `found` names: a block by its number and its region.
    fn block_lies(&self, block: Option<u32>, found: impl Fn(&Block) -> bool) -> bool {
        let mut next = block;
        while let Some(b) = next {
            let b = self.blocks.get(b);
            if found(b) {
                return true;
            }
            next = b.region.and_then(|r| self.ops.get(self.regions.get(r).op).block);
        }
        false
    }
    fn in_op(&self, block: u32, op: u32) -> bool {
        self.block_lies(Some(block), |b| b.region.is_some_and(|r| self.regions.get(r).op == op))
    }
    fn region_in_block(&self, region: u32, block: u32) -> bool {
        self.block_lies(self.ops.get(self.regions.get(region).op).block, |b| b.number == block)
    }
    fn in_region(&self, op: u32, region: u32) -> bool {
        self.block_lies(self.ops.get(op).block, |b| b.region == Some(region))
    }

    /// After a mark 21, before it 22, at the front 23, at the back 24, unlink 25.
    fn link_op(&mut self, kind: usize, f: Fields) -> Reply {
        let x = f.at(0);
        self.op_live(x)?;
        match kind {
            21 | 22 => self.op_live(f.at(1))?,
            23 | 24 => self.block_live(f.at(1))?,
            _ => {
                let b = self.ops.get(x).block.ok_or(16u32)?;
                self.unlink_op(x, b);
                return Ok((0, 0));
            }
        }
        need(self.ops.get(x).block.is_none(), 15)?;
        let b = if kind <= 22 { self.ops.get(f.at(1)).block.ok_or(16u32)? } else { f.at(1) };
        need(!self.in_op(b, x), 17)?;
        put(&mut self.blocks.get_mut(b).ops, kind, x, f.at(1));
        self.ops.get_mut(x).block = Some(b);
        Ok((0, 0))
    }
    fn unlink_op(&mut self, x: u32, b: u32) {
        take(&mut self.blocks.get_mut(b).ops, x);
        self.ops.get_mut(x).block = None;
    }
    /// The same for blocks, with the kinds of `link_op`.
    fn link_block(&mut self, kind: usize, f: Fields) -> Reply {
        let x = f.at(0);
        self.block_live(x)?;
        match kind {
            21 | 22 => self.block_live(f.at(1))?,
            23 | 24 => self.region_live(f.at(1))?,
            _ => {
                let r = self.blocks.get(x).region.ok_or(16u32)?;
                self.unlink_block(x, r);
                return Ok((0, 0));
            }
        }
        need(self.blocks.get(x).region.is_none(), 15)?;
        let r = if kind <= 22 { self.blocks.get(f.at(1)).region.ok_or(16u32)? } else { f.at(1) };
        need(!self.region_in_block(r, x), 17)?;
        put(&mut self.regions.get_mut(r).blocks, kind, x, f.at(1));
        self.blocks.get_mut(x).region = Some(r);
        Ok((0, 0))
    }
    fn unlink_block(&mut self, x: u32, r: u32) {
        take(&mut self.regions.get_mut(r).blocks, x);
        self.blocks.get_mut(x).region = None;
    }

    fn move_region(&mut self, r: u32, to: u32) -> Reply {
        self.region_live(r)?;
        self.op_live(to)?;
        let from = self.regions.get(r).op;
        if from == to {
            return Ok((0, 0));
        }
        need(!self.in_region(to, r), 17)?;
        need(self.ops.get(to).regions.len() < LONGEST, 19)?;
        let regions = &mut self.ops.get_mut(from).regions;
        regions.swap_remove(index_of(regions, r));
        self.ops.get_mut(to).regions.push(r);
        self.regions.get_mut(r).op = to;
        Ok((0, 0))
    }

    // ---- moved uses

    /// A use goes from one set to another and keeps its number and place.
    fn move_use(&mut self, of_value: bool, number: u32, this: u32, other: u32) {
        let user = remove_user(self.uses_of(of_value, this), number);
        insert_user(self.uses_of(of_value, other), user);
        let slots = self.slots(of_value, user.op);
        slots.iter_mut().find(|s| s.number == number).unwrap().def = other;
    }
    fn move_one(&mut self, f: Fields, of_value: bool) -> Reply {
        let (this, number, other) = (f.at(0), f.at(1), f.at(2));
        self.def_live(of_value, this)?;
        self.def_live(of_value, other)?;
        if this == other {
            return Ok((0, 0));
        }
        need(place(self.uses_of(of_value, this), number).is_ok(), 11)?;
        self.move_use(of_value, number, this, other);
        Ok((0, 0))
    }
    fn replace_some(&mut self, f: Fields) -> Reply {
        let (this, other) = (f.at(0), f.at(1));
        self.value_live(this)?;
        self.value_live(other)?;
        if this == other {
            return Ok((0, 0));
        }
        for number in f.from(2) {
            if place(&self.values.get(this).uses, number).is_ok() {
                self.move_use(true, number, this, other);
            }
        }
        Ok((0, 0))
    }
    fn retarget_some(&mut self, f: Fields) -> Reply {
        let (this, other) = (f.at(0), f.at(1));
        self.block_live(this)?;
        self.block_live(other)?;
        let mut chosen = vec![];
        for user in &self.blocks.get(this).uses {
            let block = self.ops.get(user.op).block.ok_or(18u32)?;
            if f.from(2).any(|b| b == block) {
                chosen.push(user.number);
            }
        }
        if this != other {
            chosen.iter().for_each(|&number| self.move_use(false, number, this, other));
        }
        Ok((0, 0))
    }

    // ---- dropping and erasing

    fn walk_op(&self, o: u32, into: &mut Inside) {
        into.ops.push(o);
        self.ops.get(o).regions.iter().for_each(|&r| self.walk_region(r, into));
    }
    fn walk_region(&self, r: u32, into: &mut Inside) {
        into.regions.push(r);
        self.regions.get(r).blocks.iter().for_each(|&b| self.walk_block(b, into));
    }
    fn walk_block(&self, b: u32, into: &mut Inside) {
        into.blocks.push(b);
        self.blocks.get(b).ops.iter().for_each(|&o| self.walk_op(o, into));
    }

    fn drop_inside(&mut self, inside: &Inside) -> u32 {
        let before = self.live_uses;
        for &o in &inside.ops {
            for operands in [true, false] {
                let slots = std::mem::take(self.slots(operands, o));
                slots.iter().for_each(|&s| self.end_use(operands, s));
            }
        }
        (before - self.live_uses) as u32
    }
    fn drop_uses(&mut self, kind: usize, n: u32) -> Reply {
        let mut inside = Inside::default();
        match kind {
            36 => self.op_live(n).map(|_| self.walk_op(n, &mut inside))?,
            37 => self.block_live(n).map(|_| self.walk_block(n, &mut inside))?,
            _ => self.region_live(n).map(|_| self.walk_region(n, &mut inside))?,
        }
        Ok((0, self.drop_inside(&inside)))
    }

    fn used_outside(&self, uses: &[User], inside: &Inside) -> bool {
        uses.iter().any(|u| !inside.has(u.op))
    }
    fn value_used_outside(&self, values: &[u32], inside: &Inside) -> bool {
        values.iter().any(|&v| self.used_outside(&self.values.get(v).uses, inside))
    }
    /// An argument of the block, or the block itself.
    fn block_used_outside(&self, b: u32, inside: &Inside) -> bool {
        let b = self.blocks.get(b);
        self.value_used_outside(&b.arguments, inside) || self.used_outside(&b.uses, inside)
    }
    fn op_used_outside(&self, o: u32, inside: &Inside) -> bool {
        self.value_used_outside(&self.ops.get(o).results, inside)
    }

    fn erase(&mut self, kind: usize, f: Fields) -> Reply {
        let (n, mut inside) = (f.at(0), Inside::default());
        match kind {
            39 => self.op_live(n).map(|_| self.walk_op(n, &mut inside))?,
            40 => self.block_live(n).map(|_| self.walk_block(n, &mut inside))?,
            _ => {
                self.op_live(n)?;
                let r = *self.ops.get(n).regions.get(f.at(1) as usize).ok_or(12u32)?;
                self.walk_region(r, &mut inside);
            }
        }
        inside.ops.sort_unstable();
        match kind {
            39 => need(!self.op_used_outside(n, &inside), 13)?,
            40 => {
                let direct = self.blocks.get(n).ops.iter().any(|&o| self.op_used_outside(o, &inside));
                need(!direct && !self.block_used_outside(n, &inside), 13)?
            }
            _ => (),
        }
        let deep = inside.ops.iter().any(|&o| self.op_used_outside(o, &inside)) || inside.blocks.iter().any(|&b| self.block_used_outside(b, &inside));
        need(!deep, 14)?;
        let ended = self.drop_inside(&inside);
        match kind {
            39 => self.ops.get(n).block.into_iter().for_each(|b| self.unlink_op(n, b)),
            40 => self.blocks.get(n).region.into_iter().for_each(|r| self.unlink_block(n, r)),
            _ => drop(self.ops.get_mut(n).regions.remove(f.at(1) as usize)),
        }
        self.end_inside(&inside);
        Ok((inside.ops.len() as u32, ended))
    }
    fn end_inside(&mut self, inside: &Inside) {
        for &o in &inside.ops {
            let results = self.ops.remove(o).results;
            results.iter().for_each(|&v| drop(self.values.remove(v)));
        }
        for &b in &inside.blocks {
            let arguments = self.blocks.remove(b).arguments;
            arguments.iter().for_each(|&v| drop(self.values.remove(v)));
        }
        inside.regions.iter().for_each(|&r| drop(self.regions.remove(r)));
    }

    // ---- verdicts: Err is what is met first, (verdict, offender), with 18 for the refusal

    fn terminator(&self, b: u32) -> Option<&Op> {
        self.blocks.get(b).ops.last().map(|&o| self.ops.get(o)).filter(|o| o.flags % 2 == 1)
    }
    fn verify_block(&self, n: u32) -> Result<(), (u32, u32)> {
        let b = self.blocks.get(n);
        let Some(region) = b.region else { return Err((1, n)) };
        let parent = self.ops.get(self.regions.get(region).op);
        if parent.flags < 2 && self.terminator(n).is_none() {
            return Err((2, n));
        }
        let block_of = |u: &User| self.ops.get(u.op).block;
        if b.uses.iter().any(|u| block_of(u).is_none()) {
            return Err((18, 0));
        }
        let leads_here = |p: u32| self.terminator(p).is_some_and(|t| t.successors.iter().any(|s| s.def == n));
        if b.uses.iter().any(|u| !block_of(u).is_some_and(leads_here)) {
            return Err((4, n));
        }
        b.ops.iter().try_for_each(|&o| self.verify_op(o))
    }
    fn verify_region(&self, r: u32) -> Result<(), (u32, u32)> {
        self.regions.get(r).blocks.iter().try_for_each(|&b| self.verify_block(b))
    }
    fn verify_op(&self, n: u32) -> Result<(), (u32, u32)> {
        let o = self.ops.get(n);
        o.regions.iter().try_for_each(|&r| self.verify_region(r))?;
        let has_next = o.flags % 2 == 1 && o.block.is_some_and(|b| self.blocks.get(b).ops.last() != Some(&n));
        if has_next { Err((3, n)) } else { Ok(()) }
    }
    fn verdict(&self, kind: usize, n: u32) -> Reply {
        let met = match kind {
            42 => self.op_live(n).map(|_| self.verify_op(n))?,
            43 => self.block_live(n).map(|_| self.verify_block(n))?,
            _ => self.region_live(n).map(|_| self.verify_region(n))?,
        };
        match met {
            Ok(()) => Ok((0, 0)),
            Err((18, _)) => Err(18),
            Err(verdict) => Ok(verdict),
        }
    }

    // ---- the listing

    /// The lines of the store, from `store` on.
    pub fn rows(&self) -> String {
        let list = |l: &[u32]| l.iter().map(|n| format!(" {n}")).collect::<String>();
        let slots = |l: &[Slot]| l.iter().map(|s| format!(" {}:{}", s.number, s.def)).collect::<String>();
        let users = |l: &[User]| l.iter().map(|u| format!(" {}", u.number)).collect::<String>();
        let or_none = |x: Option<u32>| x.map_or("-".to_string(), |n| n.to_string());
        let mut s = format!("store {} {} {} {} {}\n", self.ops.len(), self.blocks.len(), self.regions.len(), self.values.len(), self.live_uses);
        for o in &self.ops.things {
            write!(s, "op {} block {} flags {}", o.number, or_none(o.block), o.flags).unwrap();
            writeln!(s, " res{} opd{} suc{} reg{}", list(&o.results), slots(&o.operands), slots(&o.successors), list(&o.regions)).unwrap();
        }
        for b in &self.blocks.things {
            let (arguments, ops, uses) = (list(&b.arguments), list(&b.ops), users(&b.uses));
            writeln!(s, "block {} region {} arg{arguments} ops{ops} pred{uses}", b.number, or_none(b.region)).unwrap();
        }
        for r in &self.regions.things {
            writeln!(s, "region {} op {} blocks{}", r.number, r.op, list(&r.blocks)).unwrap();
        }
        for v in &self.values.things {
            writeln!(s, "value {} type {} uses{}", v.number, v.type_, users(&v.uses)).unwrap();
        }
        s
    }
}

fn index_of(list: &[u32], x: u32) -> usize {
    list.iter().position(|&y| y == x).unwrap()
}
fn take(list: &mut Vec<u32>, x: u32) {
    list.remove(index_of(list, x));
}
/// Puts x into a list by the kinds of `link_op`.
fn put(list: &mut Vec<u32>, kind: usize, x: u32, mark: u32) {
    let index = match kind {
        21 => index_of(list, mark) + 1,
        22 => index_of(list, mark),
        23 => 0,
        _ => list.len(),
    };
    list.insert(index, x);
}
