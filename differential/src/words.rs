//! The words of a store, read and written by a plain second reading of their layout: header, five tables, six families of lists, flags, types.
//! `read` says whether they are a sound store: it reads what the words tell, tests that, and then writes it again; the words must be the same.
use crate::reading::{Block, Capacities, MOST, Op, Region, Store, words};
use std::collections::{BTreeMap, BTreeSet};

/// For each kind: the birth number at each place.
pub type Places = [BTreeMap<usize, u32>; 5];

/// A family of lists: its containers and its nodes; the lists, by container.
struct Family {
    containers: usize,
    nodes: usize,
    lists: Vec<Vec<usize>>,
}

impl Family {
    /// Heads and tails of the containers, then next, previous and container of the nodes; 0 for none, k + 1 for k.
    fn write(&self) -> Vec<u32> {
        let (c, n) = (self.containers, self.nodes);
        let mut part = vec![0; 2 * c + 3 * n];
        for (k, list) in self.lists.iter().enumerate() {
            part[k] = list.first().map_or(0, |x| x + 1) as u32;
            part[c + k] = list.last().map_or(0, |x| x + 1) as u32;
            for (i, x) in list.iter().enumerate() {
                part[2 * c + x] = list.get(i + 1).map_or(0, |y| y + 1) as u32;
                part[2 * c + n + x] = if i == 0 { 0 } else { list[i - 1] + 1 } as u32;
                part[2 * c + 2 * n + x] = k as u32 + 1;
            }
        }
        part
    }
    /// The lists along next; none where they leave the part or meet a node twice.
    fn read(part: &[u32], containers: usize, nodes: usize) -> Option<Family> {
        let mut seen = BTreeSet::new();
        let mut lists = vec![];
        for k in 0..containers {
            let mut list = vec![];
            let mut next = part[k] as usize;
            while next != 0 {
                if next > nodes || !seen.insert(next) {
                    return None;
                }
                list.push(next - 1);
                next = part[2 * containers + next - 1] as usize;
            }
            lists.push(list);
        }
        Some(Family { containers, nodes, lists })
    }
}

/// Next number, live count, places by rising number, stamps (number + 1) by place, occupancy by bits.
fn write_table(places: &BTreeMap<usize, u32>, capacity: usize, next: u64) -> Vec<u32> {
    let mut part = vec![0; 2 + 2 * capacity + 2 * capacity.div_ceil(64)];
    part[0] = next as u32;
    part[1] = places.len() as u32;
    let mut order: Vec<usize> = places.keys().copied().collect();
    order.sort_by_key(|p| places[p]);
    for (i, p) in order.iter().enumerate() {
        part[2 + i] = *p as u32;
        part[2 + capacity + p] = places[p] + 1;
        part[2 + 2 * capacity + p / 32] |= 1 << (p % 32);
    }
    part
}

/// The words of a store whose things stand at these places. Use sets are chained by rising number.
pub fn write(store: &Store, places: &Places) -> Vec<u32> {
    let at: [BTreeMap<u32, usize>; 5] = std::array::from_fn(|k| places[k].iter().map(|(p, n)| (*n, *p)).collect());
    let c = store.capacities.map(|n| n as usize);
    let empty = |n: usize| vec![vec![]; n];
    let [mut slots, mut sets, mut values] = [empty(2 * c[0]), empty(c[3] + c[1]), empty(c[0] + c[1])];
    let [mut regions, mut ops, mut blocks] = [empty(c[0]), empty(c[1]), empty(c[2])];
    let [mut flags, mut types] = [vec![0; c[0]], vec![0; c[3]]];
    let to = |kind: usize, l: &[u32]| l.iter().map(|n| at[kind][n]).collect::<Vec<_>>();
    for (n, o) in &store.ops {
        let p = at[0][n];
        flags[p] = o.flags;
        slots[2 * p] = o.operands.iter().map(|x| at[4][&x.0]).collect();
        slots[2 * p + 1] = o.successors.iter().map(|x| at[4][&x.0]).collect();
        values[p] = to(3, &o.results);
        regions[p] = to(2, &o.regions);
    }
    for (&n, b) in &store.blocks {
        let p = at[1][&n];
        values[c[0] + p] = to(3, &b.arguments);
        ops[p] = to(0, &b.ops);
        sets[c[3] + p] = store.uses_of_block(n).iter().map(|x| at[4][&x.0]).collect();
    }
    for (n, r) in &store.regions {
        blocks[at[2][n]] = to(1, &r.blocks);
    }
    for (&n, type_) in &store.values {
        types[at[3][&n]] = *type_;
        sets[at[3][&n]] = store.uses_of_value(n).iter().map(|x| at[4][&x.0]).collect();
    }
    let families = [(slots, 4), (sets, 4), (values, 3), (regions, 2), (ops, 0), (blocks, 1)];
    let mut all = store.capacities.to_vec();
    for k in 0..5 {
        all.extend(write_table(&places[k], c[k], store.born[k]));
    }
    for (lists, node_kind) in families {
        all.extend(Family { containers: lists.len(), nodes: c[node_kind], lists }.write());
    }
    all.extend(flags);
    all.extend(types);
    all
}

/// The store that the words are, with its places; none if they are no sound store. Words past the sum are not looked at.
pub fn read(all: &[u32]) -> Option<(Store, Places)> {
    let capacities: Capacities = all.get(..5)?.try_into().unwrap();
    if capacities.iter().zip(MOST).any(|(&c, most)| c == 0 || c > most) || (all.len() as u64) < words(capacities) {
        return None;
    }
    let c = capacities.map(|n| n as usize);
    let mut at = 5;
    let mut part = |n: usize| {
        at += n;
        &all[at - n..at]
    };
    let mut born = [0; 5];
    let mut places: Places = Default::default();
    for k in 0..5 {
        let table = part(2 + 2 * c[k] + 2 * c[k].div_ceil(64));
        born[k] = table[0] as u64;
        let stamps = table[2 + c[k]..2 + 2 * c[k]].iter().enumerate().filter(|s| *s.1 != 0);
        places[k] = stamps.map(|(p, stamp)| (p, stamp - 1)).collect();
        let numbers: BTreeSet<u32> = places[k].values().copied().collect();
        if numbers.len() < places[k].len() || numbers.iter().any(|&n| n as u64 >= born[k]) || write_table(&places[k], c[k], born[k]) != table {
            return None;
        }
    }
    let mut families = vec![];
    for (containers, node_kind) in [(2 * c[0], 4), (c[3] + c[1], 4), (c[0] + c[1], 3), (c[0], 2), (c[1], 0), (c[2], 1)] {
        let cells = part(2 * containers + 3 * c[node_kind]);
        let family = Family::read(cells, containers, c[node_kind])?;
        if family.write() != cells {
            return None;
        }
        families.push(family.lists);
    }
    let (flags, types) = (part(c[0]), part(c[3]));
    let store = assemble(capacities, born, &places, &families, flags, types)?;
    is_sound(&store).then_some((store, places))
}

/// The store by numbers; none where a list has or owns what is not live, a live thing that must stand somewhere does not, or a free place has flags or a type.
fn assemble(capacities: Capacities, born: [u64; 5], places: &Places, families: &[Vec<Vec<usize>>], flags: &[u32], types: &[u32]) -> Option<Store> {
    let [slots, sets, values, regions, ops, blocks] = families else { unreachable!() };
    let c = capacities.map(|n| n as usize);
    let number = |kind: usize, p: usize| places[kind].get(&p).copied();
    let numbers = |kind: usize, list: &[usize]| list.iter().map(|&p| number(kind, p)).collect::<Option<Vec<u32>>>();
    let idle = |lists: &[Vec<usize>], kind: usize| lists.iter().enumerate().all(|(p, l)| l.is_empty() || places[kind].contains_key(&p));
    let slots_of = |role: usize| slots.iter().skip(role).step_by(2).cloned().collect::<Vec<_>>();
    let containers_live = idle(&slots_of(0), 0)
        && idle(&slots_of(1), 0)
        && idle(&sets[..c[3]], 3)
        && idle(&sets[c[3]..], 1)
        && idle(&values[..c[0]], 0)
        && idle(&values[c[0]..], 1)
        && idle(regions, 0)
        && idle(ops, 1)
        && idle(blocks, 2);
    let blank = (0..c[0]).all(|p| flags[p] == 0 || places[0].contains_key(&p)) && (0..c[3]).all(|p| types[p] == 0 || places[3].contains_key(&p));
    let all_placed = |lists: &[Vec<usize>], kind: usize| lists.iter().map(Vec::len).sum::<usize>() == places[kind].len();
    if !containers_live || !blank || !all_placed(slots, 4) || !all_placed(sets, 4) || !all_placed(values, 3) || !all_placed(regions, 2) {
        return None;
    }
    let mut definition: BTreeMap<usize, (bool, u32)> = BTreeMap::new();
    for (k, set) in sets.iter().enumerate() {
        let d = if k < c[3] { number(3, k) } else { number(1, k - c[3]) };
        for &u in set {
            definition.insert(u, (k >= c[3], d?));
        }
    }
    let uses = |list: &[usize], successor: bool| {
        list.iter().map(|u| definition.get(u).filter(|d| d.0 == successor).and_then(|d| Some((number(4, *u)?, d.1)))).collect::<Option<Vec<_>>>()
    };
    let home = |lists: &[Vec<usize>], kind: usize, p: usize| lists.iter().position(|l| l.contains(&p)).map(|k| number(kind, k));
    let mut store = Store { capacities, born, ops: BTreeMap::new(), blocks: BTreeMap::new(), regions: BTreeMap::new(), values: BTreeMap::new() };
    for (&p, &n) in &places[0] {
        let (results, regions) = (numbers(3, &values[p])?, numbers(2, &regions[p])?);
        let (operands, successors) = (uses(&slots[2 * p], false)?, uses(&slots[2 * p + 1], true)?);
        let block = home(ops, 1, p).flatten();
        store.ops.insert(n, Op { flags: flags[p], block, results, operands, successors, regions });
    }
    for (&p, &n) in &places[1] {
        let region = home(blocks, 2, p).flatten();
        store.blocks.insert(n, Block { region, arguments: numbers(3, &values[c[0] + p])?, ops: numbers(0, &ops[p])? });
    }
    for (&p, &n) in &places[2] {
        store.regions.insert(n, Region { op: home(regions, 0, p)??, blocks: numbers(1, &blocks[p])? });
    }
    for (&p, &n) in &places[3] {
        store.values.insert(n, types[p]);
    }
    Some(store)
}

/// What is left to test once the store is read: flags, list limits, nothing inside itself.
fn is_sound(s: &Store) -> bool {
    let short = |o: &Op| o.flags <= 3 && [o.results.len(), o.operands.len(), o.successors.len(), o.regions.len()].iter().all(|&n| n <= 64);
    let outward = |o: u32| s.ops[&o].block.and_then(|b| s.blocks[&b].region).map(|r| s.regions[&r].op);
    let ends = |o: u32| {
        let mut next = Some(o);
        (0..=s.ops.len()).any(|_| {
            next = next.and_then(outward);
            next.is_none()
        })
    };
    s.ops.values().all(short) && s.blocks.values().all(|b| b.arguments.len() <= 64) && s.ops.keys().all(|&o| ends(o))
}
