//! The look-ups and primitives of crate `context`, each called many times on a store of the largest capacities, three quarters full.
//! They require what their callers have tested: here every call is one that the store's own edits could make.
use crate::{
    grow::{Grower, LARGEST, Rng},
    timing::{Lent, Samples, clock},
};
use std::hint::black_box;

/// The capacities, as the library takes them.
#[repr(C)]
#[derive(Clone, Copy)]
struct Layout([usize; 5]);

mod library {
    use super::Layout;
    unsafe extern "C" {
        pub fn primitive_find_operation(m: *const u32, n: usize, l: Layout, number: u32) -> usize;
        pub fn primitive_find_block(m: *const u32, n: usize, l: Layout, number: u32) -> usize;
        pub fn primitive_find_value(m: *const u32, n: usize, l: Layout, number: u32) -> usize;
        pub fn primitive_find_use(m: *const u32, n: usize, l: Layout, number: u32) -> usize;
        pub fn primitive_home_of_use_sets(m: *const u32, n: usize, l: Layout, node: usize) -> usize;
        pub fn primitive_home_of_operations(m: *const u32, n: usize, l: Layout, node: usize) -> usize;
        pub fn primitive_row_length_slots(m: *const u32, n: usize, l: Layout, list: usize) -> usize;
        pub fn primitive_first_of_use_sets(m: *const u32, n: usize, l: Layout, list: usize) -> usize;
        pub fn primitive_next_of_operations(m: *const u32, n: usize, l: Layout, node: usize) -> usize;
        pub fn primitive_last_of_operations(m: *const u32, n: usize, l: Layout, list: usize) -> usize;
        pub fn primitive_nth_of_slots(m: *const u32, n: usize, l: Layout, list: usize, index: usize) -> usize;
        pub fn primitive_number_of_value(m: *const u32, n: usize, l: Layout, place: usize) -> u32;
        pub fn primitive_live_count_operation(m: *const u32, n: usize, l: Layout) -> usize;
        pub fn primitive_nth_live_use(m: *const u32, n: usize, l: Layout, index: usize) -> usize;
        pub fn primitive_flags_of(m: *const u32, n: usize, l: Layout, place: usize) -> u32;
        pub fn primitive_type_of(m: *const u32, n: usize, l: Layout, place: usize) -> u32;
        pub fn primitive_room_for_use(m: *const u32, n: usize, l: Layout) -> u32;
        pub fn primitive_birth_use(m: *mut u32, n: usize, l: Layout, slots: usize, index: usize, set: usize) -> usize;
        pub fn primitive_end_use(m: *mut u32, n: usize, l: Layout, place: usize);
        pub fn primitive_move_use(m: *mut u32, n: usize, l: Layout, place: usize, set: usize);
        pub fn primitive_birth_op(m: *mut u32, n: usize, l: Layout, flags: u32) -> usize;
        pub fn primitive_end_operation(m: *mut u32, n: usize, l: Layout, place: usize);
        pub fn primitive_birth_block(m: *mut u32, n: usize, l: Layout) -> usize;
        pub fn primitive_end_block(m: *mut u32, n: usize, l: Layout, place: usize);
        pub fn primitive_birth_region(m: *mut u32, n: usize, l: Layout, op: usize) -> usize;
        pub fn primitive_end_region(m: *mut u32, n: usize, l: Layout, place: usize);
        pub fn primitive_birth_value(m: *mut u32, n: usize, l: Layout, list: usize, index: usize, type_: u32) -> usize;
        pub fn primitive_end_value(m: *mut u32, n: usize, l: Layout, place: usize);
        pub fn primitive_link_front_operation(m: *mut u32, n: usize, l: Layout, list: usize, node: usize);
        pub fn primitive_link_back_operation(m: *mut u32, n: usize, l: Layout, list: usize, node: usize);
        pub fn primitive_link_after_operation(m: *mut u32, n: usize, l: Layout, mark: usize, node: usize);
        pub fn primitive_link_before_operation(m: *mut u32, n: usize, l: Layout, mark: usize, node: usize);
        pub fn primitive_unlink_operation(m: *mut u32, n: usize, l: Layout, node: usize);
        pub fn primitive_move_region(m: *mut u32, n: usize, l: Layout, region: usize, op: usize);
    }
}
use library::*;

const OPS: usize = 0;
const USES: usize = 4;
/// Calls in one measurement of a primitive; so many places are free in each table.
const CALLS: usize = 200;
const ROUNDS: usize = 41;

/// One line of the table.
pub struct Line {
    pub what: &'static str,
    pub ns: f64,
}

struct Bench {
    words: Vec<u32>,
    layout: Layout,
    /// Live things of each kind; they stand at the places below these counts.
    live: [usize; 5],
    rng: Rng,
    lines: Vec<Line>,
}

impl Bench {
    fn any(&mut self, kind: usize) -> usize {
        self.rng.below(self.live[kind])
    }
    /// CALLS numbers of live things, as places.
    fn places(&mut self, kind: usize) -> Vec<usize> {
        (0..CALLS).map(|_| self.any(kind)).collect()
    }

    /// CALLS places of operations that have an operand.
    fn with_operands(&mut self) -> Vec<usize> {
        let (m, n, l) = (self.words.as_ptr(), self.words.len(), self.layout);
        let has_operand = |&o: &usize| unsafe { primitive_row_length_slots(m, n, l, 2 * o) } > 0;
        std::iter::repeat_with(|| self.any(OPS)).filter(has_operand).take(CALLS).collect()
    }

    fn look_up<T>(&mut self, what: &'static str, kind: usize, f: impl Fn(*const u32, usize, Layout, usize) -> T) {
        self.look_up_at(what, |bench| bench.places(kind), f);
    }

    /// A look-up at the places that are chosen for it.
    fn look_up_at<T>(&mut self, what: &'static str, choose: impl Fn(&mut Self) -> Vec<usize>, f: impl Fn(*const u32, usize, Layout, usize) -> T) {
        let mut samples = Samples::default();
        for _ in 0..ROUNDS {
            let (places, m, l) = (choose(self), &self.words, self.layout);
            samples.add(clock(|| places.iter().for_each(|&p| drop(black_box(f(m.as_ptr(), m.len(), l, p))))));
        }
        self.lines.push(Line { what, ns: samples.median() / CALLS as f64 });
    }

    /// A pair of primitives of which the second takes back the first: `there` gets two random places and gives the place that `back` gets, in another order.
    fn pair(
        &mut self,
        whats: [&'static str; 2],
        kinds: [usize; 2],
        there: impl Fn(*mut u32, usize, Layout, usize, usize) -> usize,
        back: impl Fn(*mut u32, usize, Layout, usize),
    ) {
        let [mut first, mut second] = [Samples::default(), Samples::default()];
        for _ in 0..ROUNDS {
            let arguments: Vec<(usize, usize)> = self.places(kinds[0]).into_iter().zip(self.places(kinds[1])).collect();
            let (m, l) = (&mut self.words, self.layout);
            let (p, n) = (m.as_mut_ptr(), m.len());
            let mut born = Vec::with_capacity(CALLS);
            first.add(clock(|| arguments.iter().for_each(|&(x, y)| born.push(there(p, n, l, x, y)))));
            for i in 0..CALLS {
                born.swap(i, self.rng.below(CALLS));
            }
            second.add(clock(|| born.iter().for_each(|&x| back(p, n, l, x))));
        }
        for (what, samples) in whats.into_iter().zip([first, second]) {
            if !what.is_empty() {
                self.lines.push(Line { what, ns: samples.median() / CALLS as f64 });
            }
        }
    }

    fn look_ups(&mut self) {
        self.look_up("an empty call", OPS, |_, _, _, p| p);
        self.look_up("`live_count`", OPS, |m, n, l, _| unsafe { primitive_live_count_operation(m, n, l) });
        self.look_up("`room_for` a use", OPS, |m, n, l, _| unsafe { primitive_room_for_use(m, n, l) });
        self.look_up("`find` an operation by its number", 0, |m, n, l, p| unsafe { primitive_find_operation(m, n, l, p as u32) });
        self.look_up("`find` a block", 1, |m, n, l, p| unsafe { primitive_find_block(m, n, l, p as u32) });
        self.look_up("`find` a value", 3, |m, n, l, p| unsafe { primitive_find_value(m, n, l, p as u32) });
        self.look_up("`find` a use", 4, |m, n, l, p| unsafe { primitive_find_use(m, n, l, p as u32) });
        self.look_up("`number_of` a value", 3, |m, n, l, p| unsafe { primitive_number_of_value(m, n, l, p) });
        self.look_up("`nth_live` use", 4, |m, n, l, p| unsafe { primitive_nth_live_use(m, n, l, p) });
        self.look_up("`home_of` a use: its definition", 4, |m, n, l, p| unsafe { primitive_home_of_use_sets(m, n, l, p) });
        self.look_up("`home_of` an operation: its block", 0, |m, n, l, p| unsafe { primitive_home_of_operations(m, n, l, p) });
        self.look_up("`row_length` of operands", 0, |m, n, l, p| unsafe { primitive_row_length_slots(m, n, l, 2 * p) });
        self.look_up_at("`nth_of` operands, the first of those that have one", Self::with_operands, |m, n, l, p| unsafe { primitive_nth_of_slots(m, n, l, 2 * p, 0) });
        self.look_up("`first_of` a use set", 3, |m, n, l, p| unsafe { primitive_first_of_use_sets(m, n, l, p) });
        self.look_up("`last_of` the operations of a block", 1, |m, n, l, p| unsafe { primitive_last_of_operations(m, n, l, p) });
        self.look_up("`next_of` an operation", 0, |m, n, l, p| unsafe { primitive_next_of_operations(m, n, l, p) });
        self.look_up("`flags_of` an operation", 0, |m, n, l, p| unsafe { primitive_flags_of(m, n, l, p) });
        self.look_up("`type_of` a value", 3, |m, n, l, p| unsafe { primitive_type_of(m, n, l, p) });
    }

    fn births(&mut self) {
        let [values, ops] = [LARGEST[3] as usize, LARGEST[0] as usize];
        let end_use = |m, n, l, u| unsafe { primitive_end_use(m, n, l, u) };
        self.pair(
            ["`birth_use`, operand pushed", "`end_use`, a young one"],
            [0, 3],
            |m, n, l, o, v| unsafe { primitive_birth_use(m, n, l, 2 * o, 64, v) },
            end_use,
        );
        self.pair(["`birth_use`, successor first", ""], [0, 1], |m, n, l, o, b| unsafe { primitive_birth_use(m, n, l, 2 * o + 1, 0, values + b) }, end_use);
        self.pair(
            ["`birth_op`", "`end_operation`"],
            [0, 0],
            |m, n, l, _, _| unsafe { primitive_birth_op(m, n, l, 1) },
            |m, n, l, o| unsafe { primitive_end_operation(m, n, l, o) },
        );
        self.pair(
            ["`birth_block`", "`end_block`"],
            [0, 0],
            |m, n, l, _, _| unsafe { primitive_birth_block(m, n, l) },
            |m, n, l, b| unsafe { primitive_end_block(m, n, l, b) },
        );
        self.pair(
            ["`birth_region`", "`end_region`"],
            [0, 0],
            |m, n, l, o, _| unsafe { primitive_birth_region(m, n, l, o) },
            |m, n, l, r| unsafe { primitive_end_region(m, n, l, r) },
        );
        let end_value = |m, n, l, v| unsafe { primitive_end_value(m, n, l, v) };
        self.pair(["`birth_value`, result pushed", "`end_value`"], [0, 0], |m, n, l, o, _| unsafe { primitive_birth_value(m, n, l, o, 64, 7) }, end_value);
        self.pair(["`birth_value`, argument first", ""], [1, 0], |m, n, l, b, _| unsafe { primitive_birth_value(m, n, l, ops + b, 0, 7) }, end_value);
    }

    /// The oldest uses end, each followed by a birth that is not in the figure: the order of numbers is shifted over all that are younger.
    fn end_old_use(&mut self) {
        let mut samples = Samples::default();
        let copy = self.words.clone();
        for _ in 0..ROUNDS {
            let (m, l) = (&mut self.words, self.layout);
            let (p, n) = (m.as_mut_ptr(), m.len());
            samples.add(clock(|| (0..CALLS).for_each(|u| unsafe { primitive_end_use(p, n, l, u) })));
            self.words.copy_from_slice(&copy);
        }
        self.lines.push(Line { what: "`end_use`, an old one", ns: samples.median() / CALLS as f64 });
    }

    fn links(&mut self) {
        // operations that are born for it, linked and unlinked
        let (l, n) = (self.layout, self.words.len());
        let p = self.words.as_mut_ptr();
        let loose: Vec<usize> = (0..CALLS).map(|_| unsafe { primitive_birth_op(p, n, l, 0) }).collect();
        let next = std::cell::Cell::new(0);
        let take = || {
            let i = next.get();
            next.set((i + 1) % CALLS);
            loose[i]
        };
        let unlink = |m, n, l, o| unsafe { primitive_unlink_operation(m, n, l, o) };
        let to = |f: unsafe extern "C" fn(*mut u32, usize, Layout, usize, usize)| {
            let take = &take;
            move |m, n, l, at, _| {
                let o = take();
                unsafe { f(m, n, l, at, o) };
                o
            }
        };
        self.pair(["`link_back`, an operation", "`unlink`"], [1, 0], to(primitive_link_back_operation), unlink);
        self.pair(["`link_front`", ""], [1, 0], to(primitive_link_front_operation), unlink);
        // marks: every operation but the root, which is in no block, is linked
        self.pair(["`link_after`", ""], [0, 0], |m, n, l, at, x| to(primitive_link_after_operation)(m, n, l, at.max(1), x), unlink);
        self.pair(["`link_before`", ""], [0, 0], |m, n, l, at, x| to(primitive_link_before_operation)(m, n, l, at.max(1), x), unlink);
        // the youngest uses are successors, three of each block (`populate`)
        self.live[USES] -= 3 * self.live[1];
        self.pair(
            ["`move_use`", ""],
            [4, 3],
            |m, n, l, u, v| {
                unsafe { primitive_move_use(m, n, l, u, v) };
                u
            },
            |_, _, _, _| (),
        );
    }

    /// New regions go from one operation to another and end.
    fn move_regions(&mut self) {
        let mut samples = Samples::default();
        let copy = self.words.clone();
        for _ in 0..ROUNDS {
            let (l, n, p) = (self.layout, self.words.len(), self.words.as_mut_ptr());
            let regions: Vec<usize> = (0..CALLS).map(|i| unsafe { primitive_birth_region(p, n, l, 1 + i) }).collect();
            samples.add(clock(|| regions.iter().enumerate().for_each(|(i, &r)| unsafe { primitive_move_region(p, n, l, r, 1 + CALLS + i) })));
            self.words.copy_from_slice(&copy);
        }
        self.lines.push(Line { what: "`move_region`", ns: samples.median() / CALLS as f64 });
    }
}

pub fn lines() -> Vec<Line> {
    let mut g = Grower::new(LARGEST, 3);
    g.populate(LARGEST);
    let live = [g.store.ops.len(), g.store.blocks.len(), g.store.regions.len(), g.store.values.len(), g.store.live_uses()];
    let words = Lent::new(LARGEST, &g.bytes).words();
    let mut bench = Bench { words, layout: Layout(LARGEST.map(|n| n as usize)), live, rng: Rng::new(5), lines: vec![] };
    bench.look_ups();
    bench.births();
    bench.end_old_use();
    bench.move_regions();
    bench.links();
    assert!(differential::interface::is_sound(&bench.words), "a primitive was called against what it requires");
    bench.lines
}
