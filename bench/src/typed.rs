//! The published Rust: a script as calls of it, decoded before any clock runs. A dry run finds every handle (`Ptr`, `Value`, `Use`) beforehand. Handles depend only on
//! the calls before them, so they are good in any later run of the same calls, and no birth number is looked up while the clock runs.
use crate::plain;
use differential::{
    basic_block::BasicBlock,
    common_traits::Verify,
    context::{Context, Ptr},
    op::{Concrete, ConcreteOpInfo, Op},
    operation::Operation,
    published::{Outcome, Published},
    record::{pieces, take_apart},
    region::Region,
    r#type::TypeHandle,
    value::{Use, Value},
};
use std::hint::black_box;

type OpPtr = Ptr<Operation>;
type BlockPtr = Ptr<BasicBlock>;
type RegionPtr = Ptr<Region>;

#[derive(Clone)]
pub enum Call {
    NewOperation(ConcreteOpInfo, Vec<TypeHandle>, Vec<Value>, Vec<BlockPtr>, usize),
    NewBlock(Vec<TypeHandle>),
    PushOperand(OpPtr, Value),
    InsertOperand(OpPtr, usize, Value),
    ReplaceOperand(OpPtr, usize, Value),
    RemoveOperand(OpPtr, usize),
    PopOperand(OpPtr),
    PushSuccessor(OpPtr, BlockPtr),
    InsertSuccessor(OpPtr, usize, BlockPtr),
    ReplaceSuccessor(OpPtr, usize, BlockPtr),
    RemoveSuccessor(OpPtr, usize),
    PopSuccessor(OpPtr),
    PushResult(OpPtr, TypeHandle),
    InsertResult(OpPtr, usize, TypeHandle),
    RemoveResult(OpPtr, usize),
    PopResult(OpPtr),
    PushArgument(BlockPtr, TypeHandle),
    InsertArgument(BlockPtr, usize, TypeHandle),
    RemoveArgument(BlockPtr, usize),
    PopArgument(BlockPtr),
    OpAfter(OpPtr, OpPtr),
    OpBefore(OpPtr, OpPtr),
    OpFront(OpPtr, BlockPtr),
    OpBack(OpPtr, BlockPtr),
    UnlinkOp(OpPtr),
    BlockAfter(BlockPtr, BlockPtr),
    BlockBefore(BlockPtr, BlockPtr),
    BlockFront(BlockPtr, RegionPtr),
    BlockBack(BlockPtr, RegionPtr),
    UnlinkBlock(BlockPtr),
    MoveRegion(RegionPtr, OpPtr),
    ReplaceUse(Value, Use<Value>, Value),
    RetargetUse(BlockPtr, Use<BlockPtr>, BlockPtr),
    ReplaceSome(Value, Value, Vec<Use<Value>>),
    RetargetSome(BlockPtr, BlockPtr, Vec<BlockPtr>),
    DropOp(OpPtr),
    DropBlock(BlockPtr),
    DropRegion(RegionPtr),
    EraseOp(OpPtr),
    EraseBlock(BlockPtr),
    EraseRegion(OpPtr, usize),
    VerifyOp(OpPtr),
    VerifyBlock(BlockPtr),
    VerifyRegion(RegionPtr),
}
use Call::*;

fn info(flags: u32) -> ConcreteOpInfo {
    match flags {
        0 => Concrete::<0>::get_concrete_op_info(),
        1 => Concrete::<1>::get_concrete_op_info(),
        2 => Concrete::<2>::get_concrete_op_info(),
        _ => Concrete::<3>::get_concrete_op_info(),
    }
}

/// One call; what it returns is kept from being optimised away.
fn call(ctx: &mut Context, c: Call) {
    match c {
        NewOperation(info, types, operands, successors, regions) => drop(black_box(Operation::new(ctx, info, types, operands, successors, regions))),
        NewBlock(types) => drop(black_box(BasicBlock::new(ctx, None, types))),
        PushOperand(o, v) => drop(black_box(Operation::push_operand(o, ctx, v))),
        InsertOperand(o, i, v) => Operation::insert_operand(o, ctx, i, v),
        ReplaceOperand(o, i, v) => Operation::replace_operand(o, ctx, i, v),
        RemoveOperand(o, i) => drop(black_box(Operation::remove_operand(o, ctx, i))),
        PopOperand(o) => drop(black_box(Operation::pop_operand(o, ctx))),
        PushSuccessor(o, b) => drop(black_box(Operation::push_successor(o, ctx, b))),
        InsertSuccessor(o, i, b) => Operation::insert_successor(o, ctx, i, b),
        ReplaceSuccessor(o, i, b) => Operation::replace_successor(o, ctx, i, b),
        RemoveSuccessor(o, i) => drop(black_box(Operation::remove_successor(o, ctx, i))),
        PopSuccessor(o) => drop(black_box(Operation::pop_successor(o, ctx))),
        PushResult(o, t) => drop(black_box(Operation::push_result(o, ctx, t))),
        InsertResult(o, i, t) => Operation::insert_result(o, ctx, i, t),
        RemoveResult(o, i) => Operation::remove_result(o, ctx, i),
        PopResult(o) => Operation::pop_result(o, ctx),
        PushArgument(b, t) => drop(black_box(BasicBlock::push_argument(b, ctx, t))),
        InsertArgument(b, i, t) => BasicBlock::insert_argument(b, ctx, i, t),
        RemoveArgument(b, i) => BasicBlock::remove_argument(b, ctx, i),
        PopArgument(b) => BasicBlock::pop_argument(b, ctx),
        OpAfter(x, mark) => x.insert_after(ctx, mark),
        OpBefore(x, mark) => x.insert_before(ctx, mark),
        OpFront(x, b) => x.insert_at_front(b, ctx),
        OpBack(x, b) => x.insert_at_back(b, ctx),
        UnlinkOp(x) => x.unlink(ctx),
        BlockAfter(x, mark) => x.insert_after(ctx, mark),
        BlockBefore(x, mark) => x.insert_before(ctx, mark),
        BlockFront(x, r) => x.insert_at_front(r, ctx),
        BlockBack(x, r) => x.insert_at_back(r, ctx),
        UnlinkBlock(x) => x.unlink(ctx),
        MoveRegion(r, o) => Region::move_to_op(r, o, ctx),
        ReplaceUse(this, u, other) => this.replace_use_with(ctx, u, &other),
        RetargetUse(this, u, other) => this.retarget_pred_to(ctx, u, other),
        ReplaceSome(this, other, listed) => this.replace_some_uses_with(ctx, |_, u| listed.contains(u), &other),
        RetargetSome(this, other, listed) => this.retarget_some_preds_to(ctx, |_, b| listed.contains(&b), other),
        DropOp(o) => Operation::drop_all_uses(o, ctx),
        DropBlock(b) => BasicBlock::drop_all_uses(b, ctx),
        DropRegion(r) => Region::drop_all_uses(r, ctx),
        EraseOp(o) => Operation::erase(o, ctx),
        EraseBlock(b) => BasicBlock::erase(b, ctx),
        EraseRegion(o, i) => Operation::erase_region(o, ctx, i),
        VerifyOp(o) => drop(black_box(o.verify(ctx))),
        VerifyBlock(b) => drop(black_box(b.verify(ctx))),
        VerifyRegion(r) => drop(black_box(r.verify(ctx))),
    }
}

pub fn run(ctx: &mut Context, calls: Vec<Call>) {
    for c in calls {
        call(ctx, c);
    }
}

/// The dry run: the published Rust under its numbers, beside the plain program, which knows where a use stands.
pub struct Decoder {
    published: Published,
    plain: plain::Store,
}

impl Decoder {
    pub fn new(capacities: plain::Capacities) -> Decoder {
        Decoder { published: Published::default(), plain: plain::Store::new(capacities) }
    }

    /// The calls of a script. Every record must be accepted, with one answer from the Rust and from the plain program.
    pub fn calls(&mut self, script: &[u8]) -> Vec<Call> {
        pieces(script).into_iter().map(|bytes| self.one(bytes)).collect()
    }
    fn one(&mut self, bytes: &[u8]) -> Call {
        let record = take_apart(bytes).unwrap();
        let c = self.decode(record.kind, &record.fields);
        let expected = self.plain.edit(bytes).expect("an accepted edit");
        match self.published.edit(&record) {
            Outcome::Accepted(a, b) => assert_eq!((a, b), expected, "{record:?}"),
            Outcome::Stopped(message, at) => panic!("{record:?}: {message} at {at}"),
        }
        c
    }

    fn op(&self, n: u32) -> OpPtr {
        self.published.ops[n as usize]
    }
    fn block(&self, n: u32) -> BlockPtr {
        self.published.blocks[n as usize]
    }
    fn region(&self, n: u32) -> RegionPtr {
        self.published.regions[n as usize]
    }
    fn value(&self, n: u32) -> Value {
        self.published.values[n as usize]
    }
    fn value_use(&self, this: u32, n: u32) -> Use<Value> {
        let user = self.plain.values.get(this).uses.iter().find(|u| u.number == n).expect("a use of it").op;
        let index = self.plain.ops.get(user).operands.iter().position(|s| s.number == n).unwrap();
        self.op(user).deref(&self.published.ctx).get_operand_as_use(index)
    }
    fn block_use(&self, this: u32, n: u32) -> Use<BlockPtr> {
        let user = self.plain.blocks.get(this).uses.iter().find(|u| u.number == n).expect("a use of it").op;
        let index = self.plain.ops.get(user).successors.iter().position(|s| s.number == n).unwrap();
        self.op(user).deref(&self.published.ctx).get_successor_as_use(index)
    }

    fn decode(&self, kind: u16, f: &[u32]) -> Call {
        let at = |i: usize| f[i] as usize;
        let of_type = |i: usize| TypeHandle(f[i]);
        match kind {
            1 => self.new_operation(f),
            2 => NewBlock(f[1..].iter().map(|&t| TypeHandle(t)).collect()),
            3 => PushOperand(self.op(f[0]), self.value(f[1])),
            4 => InsertOperand(self.op(f[0]), at(1), self.value(f[2])),
            5 => ReplaceOperand(self.op(f[0]), at(1), self.value(f[2])),
            6 => RemoveOperand(self.op(f[0]), at(1)),
            7 => PopOperand(self.op(f[0])),
            8 => PushSuccessor(self.op(f[0]), self.block(f[1])),
            9 => InsertSuccessor(self.op(f[0]), at(1), self.block(f[2])),
            10 => ReplaceSuccessor(self.op(f[0]), at(1), self.block(f[2])),
            11 => RemoveSuccessor(self.op(f[0]), at(1)),
            12 => PopSuccessor(self.op(f[0])),
            13 => PushResult(self.op(f[0]), of_type(1)),
            14 => InsertResult(self.op(f[0]), at(1), of_type(2)),
            15 => RemoveResult(self.op(f[0]), at(1)),
            16 => PopResult(self.op(f[0])),
            17 => PushArgument(self.block(f[0]), of_type(1)),
            18 => InsertArgument(self.block(f[0]), at(1), of_type(2)),
            19 => RemoveArgument(self.block(f[0]), at(1)),
            20 => PopArgument(self.block(f[0])),
            21..=31 => self.link(kind, f),
            32..=35 => self.move_uses(kind, f),
            36 => DropOp(self.op(f[0])),
            37 => DropBlock(self.block(f[0])),
            38 => DropRegion(self.region(f[0])),
            39 => EraseOp(self.op(f[0])),
            40 => EraseBlock(self.block(f[0])),
            41 => EraseRegion(self.op(f[0]), at(1)),
            42 => VerifyOp(self.op(f[0])),
            43 => VerifyBlock(self.block(f[0])),
            _ => VerifyRegion(self.region(f[0])),
        }
    }
    fn new_operation(&self, f: &[u32]) -> Call {
        let (types, rest) = f[5..].split_at(f[1] as usize);
        let (operands, successors) = rest.split_at(f[2] as usize);
        let types = types.iter().map(|&t| TypeHandle(t)).collect();
        let operands = operands.iter().map(|&v| self.value(v)).collect();
        let successors = successors.iter().map(|&b| self.block(b)).collect();
        NewOperation(info(f[0]), types, operands, successors, f[4] as usize)
    }
    fn link(&self, kind: u16, f: &[u32]) -> Call {
        match kind {
            21 => OpAfter(self.op(f[0]), self.op(f[1])),
            22 => OpBefore(self.op(f[0]), self.op(f[1])),
            23 => OpFront(self.op(f[0]), self.block(f[1])),
            24 => OpBack(self.op(f[0]), self.block(f[1])),
            25 => UnlinkOp(self.op(f[0])),
            26 => BlockAfter(self.block(f[0]), self.block(f[1])),
            27 => BlockBefore(self.block(f[0]), self.block(f[1])),
            28 => BlockFront(self.block(f[0]), self.region(f[1])),
            29 => BlockBack(self.block(f[0]), self.region(f[1])),
            30 => UnlinkBlock(self.block(f[0])),
            _ => MoveRegion(self.region(f[0]), self.op(f[1])),
        }
    }
    fn move_uses(&self, kind: u16, f: &[u32]) -> Call {
        match kind {
            32 => ReplaceUse(self.value(f[0]), self.value_use(f[0], f[1]), self.value(f[2])),
            33 => RetargetUse(self.block(f[0]), self.block_use(f[0], f[1]), self.block(f[2])),
            34 => ReplaceSome(self.value(f[0]), self.value(f[1]), f[2..].iter().map(|&u| self.value_use(f[0], u)).collect()),
            _ => RetargetSome(self.block(f[0]), self.block(f[1]), f[2..].iter().map(|&b| self.block(b)).collect()),
        }
    }
}
