//! The refusals that the Rust does not have, 7 to 10 and 11, 14, 17, 19, 20, read off the Rust's own store by the Rust's own readers.
use crate::{
    basic_block::BasicBlock, context::Ptr, operation::Operation, published::Published, reading::Capacities, record::Record, region::Region,
    value::DefiningEntity,
};

impl Published {
    // ---- the nest, outward

    fn op_in_op(&self, inner: Ptr<Operation>, outer: Ptr<Operation>) -> bool {
        let mut next = Some(inner);
        while let Some(o) = next {
            if o == outer {
                return true;
            }
            next = o.deref(&self.ctx).get_parent_op(&self.ctx);
        }
        false
    }
    fn block_in_op(&self, b: Ptr<BasicBlock>, outer: Ptr<Operation>) -> bool {
        b.deref(&self.ctx).get_parent_op(&self.ctx).is_some_and(|o| self.op_in_op(o, outer))
    }
    fn region_in_block(&self, r: Ptr<Region>, outer: Ptr<BasicBlock>) -> bool {
        let mut next = Some(r);
        while let Some(r) = next {
            let Some(b) = r.deref(&self.ctx).get_parent_block(&self.ctx) else { return false };
            if b == outer {
                return true;
            }
            next = b.deref(&self.ctx).get_parent_region();
        }
        false
    }
    fn block_in_block(&self, b: Ptr<BasicBlock>, outer: Ptr<BasicBlock>) -> bool {
        b == outer || b.deref(&self.ctx).get_parent_region().is_some_and(|r| self.region_in_block(r, outer))
    }
    fn op_in_block(&self, o: Ptr<Operation>, outer: Ptr<BasicBlock>) -> bool {
        o.deref(&self.ctx).get_parent_block().is_some_and(|b| self.block_in_block(b, outer))
    }
    fn op_in_region(&self, o: Ptr<Operation>, outer: Ptr<Region>) -> bool {
        let mut next = Some(o);
        while let Some(o) = next {
            if o.deref(&self.ctx).get_parent_region(&self.ctx) == Some(outer) {
                return true;
            }
            next = o.deref(&self.ctx).get_parent_op(&self.ctx);
        }
        false
    }
    fn block_in_region(&self, b: Ptr<BasicBlock>, outer: Ptr<Region>) -> bool {
        let region = b.deref(&self.ctx).get_parent_region();
        region.is_some_and(|r| r == outer || self.op_in_region(r.deref(&self.ctx).get_parent_op(), outer))
    }

    /// Has an operation that is not inside a use of a definition that is?
    fn used_from_outside(&self, op_inside: impl Fn(Ptr<Operation>) -> bool, block_inside: impl Fn(Ptr<BasicBlock>) -> bool) -> bool {
        let live = self.ops.iter().copied().filter(|p| self.ctx.operations.contains_key(p.idx));
        let names_inside = |p: Ptr<Operation>| {
            let o = p.deref(&self.ctx);
            let value_inside = |v: crate::value::Value| match v.defining_entity() {
                DefiningEntity::Op(d) => op_inside(d),
                DefiningEntity::Block(d) => block_inside(d),
            };
            o.operands().any(value_inside) || o.successors().any(&block_inside)
        };
        live.filter(|&p| !op_inside(p)).any(names_inside)
    }

    // ---- the refusals

    /// 7 to 10, over the fields from left to right.
    pub fn not_live(&self, r: &Record) -> Option<u32> {
        const O: u32 = 7;
        const B: u32 = 8;
        const R: u32 = 9;
        const V: u32 = 10;
        let f = &r.fields;
        let named: Vec<(u32, u32)> = match r.kind {
            1 => {
                let (operands, successors) = f[5 + f[1] as usize..].split_at(f[2] as usize);
                operands.iter().map(|&v| (V, v)).chain(successors.iter().map(|&b| (B, b))).collect()
            }
            2 => vec![],
            3 => vec![(O, f[0]), (V, f[1])],
            4 | 5 => vec![(O, f[0]), (V, f[2])],
            8 => vec![(O, f[0]), (B, f[1])],
            9 | 10 => vec![(O, f[0]), (B, f[2])],
            6 | 7 | 11..=16 | 25 | 36 | 39 | 41 | 42 => vec![(O, f[0])],
            17..=20 | 30 | 37 | 40 | 43 => vec![(B, f[0])],
            21 | 22 => vec![(O, f[0]), (O, f[1])],
            23 | 24 => vec![(O, f[0]), (B, f[1])],
            26 | 27 => vec![(B, f[0]), (B, f[1])],
            28 | 29 => vec![(B, f[0]), (R, f[1])],
            31 => vec![(R, f[0]), (O, f[1])],
            32 => vec![(V, f[0]), (V, f[2])],
            33 => vec![(B, f[0]), (B, f[2])],
            34 => vec![(V, f[0]), (V, f[1])],
            35 => vec![(B, f[0]), (B, f[1])],
            _ => vec![(R, f[0])],
        };
        let live = |&(kind, n): &(u32, u32)| match kind {
            O => self.op_live(n),
            B => self.block_live(n),
            R => self.region_live(n),
            _ => self.value_live(n),
        };
        named.iter().find(|x| !live(x)).map(|x| x.0)
    }

    /// Kind 5 where the operand that goes is a result of the operation itself: the Rust stops, the store carries it out.
    pub fn replaces_own_result(&self, r: &Record) -> bool {
        r.kind == 5 && {
            let p = self.ops[r.fields[0] as usize];
            let (o, index) = (p.deref(&self.ctx), r.fields[1] as usize);
            index < o.operands.len() && o.get_operand(index).defining_op() == Some(p)
        }
    }

    /// The least of 11, 14, 17, 19 and 20 that holds, where all that the record names is live.
    pub fn added(&self, r: &Record, capacities: Capacities) -> Option<u32> {
        let (ctx, f) = (&self.ctx, &r.fields);
        let op = |n: u32| self.ops[n as usize];
        let block = |n: u32| self.blocks[n as usize];
        let [ops, blocks, regions, values, uses] = capacities.map(|c| c as usize);
        let full = |entries: usize| (entries >= 64).then_some(19);
        let lacks = |live: usize, wanted: usize, places: usize| (live + wanted > places).then_some(20);
        let one_use = || lacks(self.live_uses(), 1, uses);
        let one_value = || lacks(self.live_values(), 1, values);
        match r.kind {
            1 => lacks(ctx.operations.len(), 1, ops)
                .or(lacks(self.live_values(), f[1] as usize, values))
                .or(lacks(self.live_uses(), (f[2] + f[3]) as usize, uses))
                .or(lacks(ctx.regions.len(), f[4] as usize, regions)),
            2 => lacks(ctx.basic_blocks.len(), 1, blocks).or(lacks(self.live_values(), f[0] as usize, values)),
            3 | 4 => full(op(f[0]).deref(ctx).operands.len()).or_else(one_use),
            8 | 9 => full(op(f[0]).deref(ctx).successors.len()).or_else(one_use),
            13 | 14 => full(op(f[0]).deref(ctx).results.len()).or_else(one_value),
            17 | 18 => full(block(f[0]).deref(ctx).args.len()).or_else(one_value),
            21..=24 | 26..=29 | 31 => self.inside_itself(r).or_else(|| {
                let moves = r.kind == 31 && self.regions[f[0] as usize].deref(ctx).get_parent_op() != op(f[1]);
                if moves { full(op(f[1]).deref(ctx).regions.len()) } else { None }
            }),
            32 | 33 if f[0] == f[2] => None,
            32 => (!self.values[f[0] as usize].uses(ctx).iter().any(|u| u.use_uid == f[1] as u64)).then_some(11),
            33 => (!block(f[0]).uses(ctx).iter().any(|u| u.use_uid == f[1] as u64)).then_some(11),
            39..=41 => self.erased_used_from_outside(r).then_some(14),
            _ => None,
        }
    }

    /// 17: the container lies in the thing.
    fn inside_itself(&self, r: &Record) -> Option<u32> {
        let (ctx, f) = (&self.ctx, &r.fields);
        let op = |n: u32| self.ops[n as usize];
        let block = |n: u32| self.blocks[n as usize];
        let region = |n: u32| self.regions[n as usize];
        let inside = match r.kind {
            21 | 22 => op(f[1]).deref(ctx).get_parent_block().is_some_and(|b| self.block_in_op(b, op(f[0]))),
            23 | 24 => self.block_in_op(block(f[1]), op(f[0])),
            26 | 27 => block(f[1]).deref(ctx).get_parent_region().is_some_and(|x| self.region_in_block(x, block(f[0]))),
            28 | 29 => self.region_in_block(region(f[1]), block(f[0])),
            _ => region(f[0]).deref(ctx).get_parent_op() != op(f[1]) && self.op_in_region(op(f[1]), region(f[0])),
        };
        inside.then_some(17)
    }

    /// Is anything in what 39, 40 or 41 erases used from outside? (Where 13 holds too, it is 13.)
    fn erased_used_from_outside(&self, r: &Record) -> bool {
        let n = r.fields[0] as usize;
        match r.kind {
            39 => self.used_from_outside(|o| self.op_in_op(o, self.ops[n]), |b| self.block_in_op(b, self.ops[n])),
            40 => self.used_from_outside(|o| self.op_in_block(o, self.blocks[n]), |b| self.block_in_block(b, self.blocks[n])),
            _ => {
                let region = self.ops[n].deref(&self.ctx).regions.get(r.fields[1] as usize).copied();
                region.is_some_and(|g| self.used_from_outside(|o| self.op_in_region(o, g), |b| self.block_in_region(b, g)))
            }
        }
    }
}
