//! One edit at a time on the published Rust: birth numbers, the answer or the panic, the listing.
//! Values and uses are numbered by the Rust's own counters, and their order of birth is asserted; operations, blocks and regions are numbered here.
use crate::{
    basic_block::{BasicBlock, BasicBlockVerifyErr},
    common_traits::Verify,
    context::{ArenaIndex, Context, Ptr, private::ArenaObj},
    linked_list::ContainsLinkedList,
    location::Location,
    op::{Concrete, ConcreteOpInfo, Op},
    operation::{DefUseVerifyErr, Operation},
    record::Record,
    region::Region,
    r#type::{TypeHandle, Typed},
    value::{DefUseParticipant, DefiningEntity, Use, Value},
};
use std::{
    cell::RefCell,
    collections::HashMap,
    fmt::Write,
    marker::PhantomData,
    panic::{AssertUnwindSafe, catch_unwind},
};

pub enum Outcome {
    Accepted(u32, u32),
    /// The Rust stops: what it says, and where.
    Stopped(String, String),
}

thread_local! { static LAST: RefCell<(String, String)> = RefCell::default(); }

/// Panics are kept for `Published::edit` and not printed. A panic outside `edit` is printed by `last_panic`.
pub fn quiet_panics() {
    std::panic::set_hook(Box::new(|info| {
        let message = info.payload_as_str().unwrap_or("no message").to_string();
        let at = info.location().map(|l| format!("{}:{}", l.file().rsplit('/').next().unwrap(), l.line()));
        LAST.with(|l| *l.borrow_mut() = (message, at.unwrap_or_default()));
    }));
}
pub fn last_panic() -> (String, String) {
    LAST.with(|l| l.borrow().clone())
}

/// The refusal that a panic of an edit of this kind stands for; none if it stands for no refusal that this kind has.
pub fn refusal_of(kind: u16, message: &str) -> Option<u32> {
    let says = |text: &str| message.contains(text);
    let list_end = says("index") && (says("out of bounds") || says("should be <")) || says("Can't pop");
    match kind {
        4..=7 | 9..=12 | 41 if list_end => Some(12),
        14..=16 | 18..=20 if list_end => Some(12),
        15 | 16 | 19 | 20 if says("Can't remove") && says("with uses") => Some(13),
        // erasing a block names a predecessor in its message and stops there if that is in no block: it is 13 all the same
        39 if says("being erased") => Some(13),
        40 if says("being erased") || says("outside the block") || says("not in any basic block") => Some(13),
        21..=24 | 26..=29 if says("must be unlinked before relinking") => Some(15),
        21 | 22 | 26 | 27 if says("Mark node itself is unlinked") => Some(16),
        25 | 30 if says("Attempt to remove unlinked node") => Some(16),
        35 if says("must be in a Region") => Some(18),
        42..=44 if says("not in any basic block") => Some(18),
        _ => None,
    }
}

/// What stops kind 5 on an own result.
pub fn is_borrow(message: &str) -> bool {
    message.contains("already mutably borrowed") || message.contains("already borrowed")
}

#[derive(Default)]
pub struct Published {
    pub ctx: Context,
    pub ops: Vec<Ptr<Operation>>,
    pub blocks: Vec<Ptr<BasicBlock>>,
    pub regions: Vec<Ptr<Region>>,
    /// By birth number, which is the Rust's own.
    pub values: Vec<Value>,
    /// By birth number, which is the Rust's own: the operation that has the use.
    pub uses: Vec<Ptr<Operation>>,
    region_numbers: HashMap<ArenaIndex, u32>,
}

/// The key that no slot map gives.
fn null<T: ArenaObj>() -> Ptr<T> {
    Ptr { idx: slotmap::Key::null(), _dummy: PhantomData }
}

/// The concrete op that stands for these flags.
fn op_info(flags: u32) -> ConcreteOpInfo {
    match flags {
        0 => Concrete::<0>::get_concrete_op_info(),
        1 => Concrete::<1>::get_concrete_op_info(),
        2 => Concrete::<2>::get_concrete_op_info(),
        _ => Concrete::<3>::get_concrete_op_info(),
    }
}

impl Published {
    // ---- who is live, and under which number

    pub fn op_live(&self, n: u32) -> bool {
        self.ops.get(n as usize).is_some_and(|p| self.ctx.operations.contains_key(p.idx))
    }
    pub fn block_live(&self, n: u32) -> bool {
        self.blocks.get(n as usize).is_some_and(|p| self.ctx.basic_blocks.contains_key(p.idx))
    }
    pub fn region_live(&self, n: u32) -> bool {
        self.regions.get(n as usize).is_some_and(|p| self.ctx.regions.contains_key(p.idx))
    }
    pub fn value_live(&self, n: u32) -> bool {
        self.values.get(n as usize).is_some_and(|v| {
            let owned = match v.defining_entity {
                DefiningEntity::Op(o) => self.ctx.operations.contains_key(o.idx),
                DefiningEntity::Block(b) => self.ctx.basic_blocks.contains_key(b.idx),
            };
            owned && v.try_find_index(&self.ctx).is_ok()
        })
    }
    pub fn live_values(&self) -> usize {
        (0..self.values.len() as u32).filter(|&n| self.value_live(n)).count()
    }
    /// Counted where they stand, at the operations.
    pub fn live_uses(&self) -> usize {
        self.ctx.operations.values().map(|o| o.borrow()).map(|o| o.operands.len() + o.successors.len()).sum()
    }
    /// The Rust's own set of uses of a live value or block, rising.
    pub fn uses_of(&self, block: bool, n: u32) -> Vec<u32> {
        let mut uses: Vec<u32> = if block {
            self.block(n).uses(&self.ctx).iter().map(|u| u.use_uid as u32).collect()
        } else {
            self.value(n).uses(&self.ctx).iter().map(|u| u.use_uid as u32).collect()
        };
        uses.sort();
        uses
    }
    fn op_number(&self, p: Ptr<Operation>) -> u32 {
        match p.deref(&self.ctx).loc() {
            Location::Op(n) => *n,
            _ => unreachable!(),
        }
    }
    fn block_number(&self, p: Ptr<BasicBlock>) -> u32 {
        match p.deref(&self.ctx).loc() {
            Location::Block(n) => *n,
            _ => unreachable!(),
        }
    }
    fn region_number(&self, p: Ptr<Region>) -> u32 {
        self.region_numbers[&p.idx]
    }

    // An ended number gives the pointer that it had, one never born the null key: it is the Rust that finds nothing there.
    fn op(&self, n: u32) -> Ptr<Operation> {
        self.ops.get(n as usize).copied().unwrap_or(null())
    }
    fn block(&self, n: u32) -> Ptr<BasicBlock> {
        self.blocks.get(n as usize).copied().unwrap_or(null())
    }
    fn region(&self, n: u32) -> Ptr<Region> {
        self.regions.get(n as usize).copied().unwrap_or(null())
    }
    fn value(&self, n: u32) -> Value {
        let never_born = Value { val_uid: n as u64, defining_entity: DefiningEntity::Op(null()) };
        self.values.get(n as usize).copied().unwrap_or(never_born)
    }
    fn use_<T: DefUseParticipant>(&self, n: u32) -> Use<T> {
        let user_op = self.uses.get(n as usize).copied().unwrap_or(null());
        Use { user_op, use_uid: n as u64, _dummy: PhantomData }
    }

    // ---- births: the Rust's counters must have gone up one by one, in the order of the lists

    fn values_born(&mut self, entity: DefiningEntity, mut values: Vec<Value>) {
        values.sort_by_key(|v| v.val_uid);
        for v in values.into_iter().skip_while(|v| (v.val_uid as usize) < self.values.len()).collect::<Vec<_>>() {
            assert!(v.val_uid as usize == self.values.len() && v.defining_entity == entity, "value births out of order");
            self.values.push(v);
        }
        assert_eq!(self.values.len() as u64, self.ctx.value_counter.get(), "value births out of order");
    }
    fn births_of_op(&mut self, p: Ptr<Operation>) {
        let results = p.deref(&self.ctx).results().collect();
        self.values_born(DefiningEntity::Op(p), results);
        let mut uses: Vec<u64> = {
            let op = p.deref(&self.ctx);
            op.operands.iter().map(|x| x.use_uid).chain(op.successors.iter().map(|x| x.use_uid)).collect()
        };
        uses.sort();
        let new = uses.iter().filter(|&&u| u as usize >= self.uses.len()).count();
        self.uses.extend(std::iter::repeat_n(p, new));
        assert_eq!(self.uses.len() as u64, self.ctx.use_counter.get(), "use births out of order");
    }
    fn births_of_block(&mut self, p: Ptr<BasicBlock>) {
        let arguments = p.deref(&self.ctx).arguments().collect();
        self.values_born(DefiningEntity::Block(p), arguments);
    }

    // ---- edits

    /// One edit. After `Stopped` the store is worthless: the Rust may have stopped half way.
    pub fn edit(&mut self, r: &Record) -> Outcome {
        match catch_unwind(AssertUnwindSafe(|| self.carry_out(r))) {
            Ok((a, b)) => Outcome::Accepted(a, b),
            Err(_) => {
                let (message, at) = last_panic();
                Outcome::Stopped(message, at)
            }
        }
    }

    fn carry_out(&mut self, r: &Record) -> (u32, u32) {
        let f = &r.fields[..];
        match r.kind {
            1 => (self.new_operation(f), 0),
            2 => (self.new_block(f), 0),
            3..=7 => (self.edit_operands(r.kind, f), 0),
            8..=12 => (self.edit_successors(r.kind, f), 0),
            13..=16 => (self.edit_results(r.kind, f), 0),
            17..=20 => (self.edit_arguments(r.kind, f), 0),
            21..=31 => self.link(r.kind, f),
            32..=35 => self.move_uses(r.kind, f),
            36..=41 => self.drop_or_erase(r.kind, f),
            _ => self.verdict(r.kind, f[0]),
        }
    }

    fn new_operation(&mut self, f: &[u32]) -> u32 {
        let [r, a] = [f[1] as usize, f[2] as usize];
        let types = f[5..5 + r].iter().map(|&t| TypeHandle(t)).collect();
        let (operands, successors) = f[5 + r..].split_at(a);
        let operands = operands.iter().map(|&v| self.value(v)).collect();
        let successors = successors.iter().map(|&b| self.block(b)).collect();
        let p = Operation::new(&mut self.ctx, op_info(f[0]), types, operands, successors, f[4] as usize);
        let n = self.ops.len() as u32;
        self.ops.push(p);
        p.deref_mut(&self.ctx).set_loc(Location::Op(n));
        self.births_of_op(p);
        let regions: Vec<_> = p.deref(&self.ctx).regions().collect();
        for region in regions {
            self.region_numbers.insert(region.idx, self.regions.len() as u32);
            self.regions.push(region);
        }
        n
    }

    fn new_block(&mut self, f: &[u32]) -> u32 {
        let types = f[1..].iter().map(|&t| TypeHandle(t)).collect();
        let p = BasicBlock::new(&mut self.ctx, None, types);
        let n = self.blocks.len() as u32;
        self.blocks.push(p);
        p.deref_mut(&self.ctx).set_loc(Location::Block(n));
        self.births_of_block(p);
        n
    }

    fn edit_operands(&mut self, kind: u16, f: &[u32]) -> u32 {
        let (o, ctx, mut a) = (self.op(f[0]), &self.ctx, 0);
        match kind {
            3 => a = Operation::push_operand(o, ctx, self.value(f[1])) as u32,
            4 => Operation::insert_operand(o, ctx, f[1] as usize, self.value(f[2])),
            5 => Operation::replace_operand(o, ctx, f[1] as usize, self.value(f[2])),
            6 => a = Operation::remove_operand(o, ctx, f[1] as usize).val_uid as u32,
            _ => a = Operation::pop_operand(o, ctx).val_uid as u32,
        }
        self.births_of_op(o);
        a
    }

    fn edit_successors(&mut self, kind: u16, f: &[u32]) -> u32 {
        let (o, ctx, mut a) = (self.op(f[0]), &self.ctx, 0);
        match kind {
            8 => a = Operation::push_successor(o, ctx, self.block(f[1])) as u32,
            9 => Operation::insert_successor(o, ctx, f[1] as usize, self.block(f[2])),
            10 => Operation::replace_successor(o, ctx, f[1] as usize, self.block(f[2])),
            11 => a = self.block_number(Operation::remove_successor(o, ctx, f[1] as usize)),
            _ => a = self.block_number(Operation::pop_successor(o, ctx)),
        }
        self.births_of_op(o);
        a
    }

    fn edit_results(&mut self, kind: u16, f: &[u32]) -> u32 {
        let (o, ctx, mut a) = (self.op(f[0]), &self.ctx, 0);
        match kind {
            13 => a = Operation::push_result(o, ctx, TypeHandle(f[1])) as u32,
            14 => Operation::insert_result(o, ctx, f[1] as usize, TypeHandle(f[2])),
            15 => Operation::remove_result(o, ctx, f[1] as usize),
            _ => Operation::pop_result(o, ctx),
        }
        self.births_of_op(o);
        a
    }

    fn edit_arguments(&mut self, kind: u16, f: &[u32]) -> u32 {
        let (b, ctx, mut a) = (self.block(f[0]), &self.ctx, 0);
        match kind {
            17 => a = BasicBlock::push_argument(b, ctx, TypeHandle(f[1])) as u32,
            18 => BasicBlock::insert_argument(b, ctx, f[1] as usize, TypeHandle(f[2])),
            19 => BasicBlock::remove_argument(b, ctx, f[1] as usize),
            _ => BasicBlock::pop_argument(b, ctx),
        }
        self.births_of_block(b);
        a
    }

    fn link(&mut self, kind: u16, f: &[u32]) -> (u32, u32) {
        let ctx = &self.ctx;
        match kind {
            21 => self.op(f[0]).insert_after(ctx, self.op(f[1])),
            22 => self.op(f[0]).insert_before(ctx, self.op(f[1])),
            23 => self.op(f[0]).insert_at_front(self.block(f[1]), ctx),
            24 => self.op(f[0]).insert_at_back(self.block(f[1]), ctx),
            25 => self.op(f[0]).unlink(ctx),
            26 => self.block(f[0]).insert_after(ctx, self.block(f[1])),
            27 => self.block(f[0]).insert_before(ctx, self.block(f[1])),
            28 => self.block(f[0]).insert_at_front(self.region(f[1]), ctx),
            29 => self.block(f[0]).insert_at_back(self.region(f[1]), ctx),
            30 => self.block(f[0]).unlink(ctx),
            _ => Region::move_to_op(self.region(f[0]), self.op(f[1]), ctx),
        }
        (0, 0)
    }

    fn move_uses(&mut self, kind: u16, f: &[u32]) -> (u32, u32) {
        let ctx = &self.ctx;
        match kind {
            32 => self.value(f[0]).replace_use_with(ctx, self.use_::<Value>(f[1]), &self.value(f[2])),
            33 => self.block(f[0]).retarget_pred_to(ctx, self.use_::<Ptr<BasicBlock>>(f[1]), self.block(f[2])),
            34 => {
                let listed = |_: &Context, u: &Use<Value>| f[2..].contains(&(u.use_uid as u32));
                self.value(f[0]).replace_some_uses_with(ctx, listed, &self.value(f[1]))
            }
            _ => {
                let listed = |_: &Context, p: Ptr<BasicBlock>| f[2..].contains(&self.block_number(p));
                self.block(f[0]).retarget_some_preds_to(ctx, listed, self.block(f[1]))
            }
        }
        (0, 0)
    }

    fn drop_or_erase(&mut self, kind: u16, f: &[u32]) -> (u32, u32) {
        let (ops, uses) = (self.ctx.operations.len(), self.live_uses());
        let (op, block, region) = (self.op(f[0]), self.block(f[0]), self.region(f[0]));
        match kind {
            36 => Operation::drop_all_uses(op, &self.ctx),
            37 => BasicBlock::drop_all_uses(block, &self.ctx),
            38 => Region::drop_all_uses(region, &self.ctx),
            39 => Operation::erase(op, &mut self.ctx),
            40 => BasicBlock::erase(block, &mut self.ctx),
            _ => Operation::erase_region(op, &mut self.ctx, f[1] as usize),
        }
        ((ops - self.ctx.operations.len()) as u32, (uses - self.live_uses()) as u32)
    }

    /// The error of the Rust's `verify` carries the location of the offender, which `set_loc` gave at birth.
    fn verdict(&self, kind: u16, n: u32) -> (u32, u32) {
        let result = match kind {
            42 => self.op(n).verify(&self.ctx),
            43 => self.block(n).verify(&self.ctx),
            _ => self.region(n).verify(&self.ctx),
        };
        let Err(e) = result else { return (0, 0) };
        let verdict = match (e.err.downcast_ref::<BasicBlockVerifyErr>(), e.err.downcast_ref::<DefUseVerifyErr>()) {
            (Some(BasicBlockVerifyErr::NoParent(_)), _) => 1,
            (Some(BasicBlockVerifyErr::MissingTerminator(_)), _) => 2,
            (Some(BasicBlockVerifyErr::TerminatorNotLast(_)), _) => 3,
            (_, Some(DefUseVerifyErr::OperandNotUseOfDef)) if e.file.ends_with("basic_block.rs") => 4,
            _ => panic!("a def-use test that always passes has failed: {e} {}:{}", e.file, e.line),
        };
        match e.loc {
            Location::Op(n) if verdict == 3 => (verdict, n),
            Location::Block(n) if verdict != 3 => (verdict, n),
            _ => panic!("verdict {verdict} names another kind of thing"),
        }
    }

    // ---- the listing, without its edit lines

    pub fn rows(&self) -> String {
        let ctx = &self.ctx;
        let (values, uses) = (self.live_values(), self.live_uses());
        let mut s = format!("store {} {} {} {values} {uses}\n", ctx.operations.len(), ctx.basic_blocks.len(), ctx.regions.len());
        for n in (0..self.ops.len() as u32).filter(|&n| self.op_live(n)) {
            self.op_row(n, &mut s);
        }
        for n in (0..self.blocks.len() as u32).filter(|&n| self.block_live(n)) {
            self.block_row(n, &mut s);
        }
        for n in (0..self.regions.len() as u32).filter(|&n| self.region_live(n)) {
            let r = self.region(n).deref(ctx);
            assert!(r.iter(ctx).rev().eq(r.iter(ctx).collect::<Vec<_>>().into_iter().rev()), "region {n} reads otherwise backwards");
            let blocks = list(r.iter(ctx).map(|b| self.block_number(b)));
            writeln!(s, "region {n} op {} blocks{blocks}", self.op_number(r.get_parent_op())).unwrap();
        }
        for n in (0..self.values.len() as u32).filter(|&n| self.value_live(n)) {
            let v = self.value(n);
            let uses = rising(v.uses(ctx).iter().map(|u| u.use_uid as u32));
            writeln!(s, "value {n} type {} uses{uses}", v.get_type(ctx).0).unwrap();
        }
        s
    }
    fn op_row(&self, n: u32, s: &mut String) {
        let ctx = &self.ctx;
        let flags = Operation::get_op_dyn(self.op(n), ctx).flags();
        let o = self.op(n).deref(ctx);
        let block = o.get_parent_block().map_or("-".into(), |b| self.block_number(b).to_string());
        write!(s, "op {n} block {block} flags {flags} res{} opd", list(o.results().map(|v| v.val_uid as u32))).unwrap();
        for u in o.operands_as_uses() {
            write!(s, " {}:{}", u.use_uid, u.get_def(ctx).val_uid).unwrap();
        }
        s.push_str(" suc");
        for u in o.successors_as_uses() {
            write!(s, " {}:{}", u.use_uid, self.block_number(u.get_def(ctx))).unwrap();
        }
        writeln!(s, " reg{}", list(o.regions().map(|r| self.region_number(r)))).unwrap();
    }
    fn block_row(&self, n: u32, s: &mut String) {
        let ctx = &self.ctx;
        let b = self.block(n).deref(ctx);
        assert!(b.iter(ctx).rev().eq(b.iter(ctx).collect::<Vec<_>>().into_iter().rev()), "block {n} reads otherwise backwards");
        let region = b.get_parent_region().map_or("-".into(), |r| self.region_number(r).to_string());
        let arguments = list(b.arguments().map(|v| v.val_uid as u32));
        let ops = list(b.iter(ctx).map(|o| self.op_number(o)));
        let uses = rising(self.block(n).uses(ctx).iter().map(|u| u.use_uid as u32));
        writeln!(s, "block {n} region {region} arg{arguments} ops{ops} pred{uses}").unwrap();
    }
}

fn list(numbers: impl Iterator<Item = u32>) -> String {
    numbers.map(|n| format!(" {n}")).collect()
}
fn rising(numbers: impl Iterator<Item = u32>) -> String {
    let mut numbers: Vec<u32> = numbers.collect();
    numbers.sort();
    list(numbers.into_iter())
}
