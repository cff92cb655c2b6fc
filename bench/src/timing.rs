//! The clock: contestants in turn over the same scripts, and the check of a store.
use crate::{
    grow::{self, FAMILIES, LARGEST, Script},
    plain,
    plain::Capacities,
    typed::{self, Decoder},
};
use differential::{context::Context, interface, reading::words};
use std::hint::black_box;

/// The processor time of this thread, so that other programs on the machine count as little as may be.
mod thread_time {
    #[repr(C)]
    struct Timespec {
        seconds: i64,
        nanoseconds: i64,
    }
    unsafe extern "C" {
        fn clock_gettime(clock: i32, time: *mut Timespec) -> i32;
    }
    const CLOCK_THREAD_CPUTIME_ID: i32 = 3;

    pub fn now() -> f64 {
        let mut t = Timespec { seconds: 0, nanoseconds: 0 };
        assert_eq!(unsafe { clock_gettime(CLOCK_THREAD_CPUTIME_ID, &mut t) }, 0);
        t.seconds as f64 * 1e9 + t.nanoseconds as f64
    }
}

/// Nanoseconds that f takes.
pub fn clock<T>(f: impl FnOnce() -> T) -> f64 {
    let start = thread_time::now();
    black_box(f());
    thread_time::now() - start
}

/// Measurements of one thing.
#[derive(Default, Clone)]
pub struct Samples(Vec<f64>);

impl Samples {
    pub fn add(&mut self, x: f64) {
        self.0.push(x);
    }
    fn sorted(&self) -> Vec<f64> {
        let mut s = self.0.clone();
        s.sort_by(f64::total_cmp);
        s
    }
    pub fn median(&self) -> f64 {
        self.sorted()[self.0.len() / 2]
    }
    /// The distance of the quartiles as a share of the median.
    pub fn spread(&self) -> f64 {
        let s = self.sorted();
        (s[s.len() * 3 / 4] - s[s.len() / 4]) / self.median()
    }
}

/// The store in lent buffers, after a setup.
pub struct Lent {
    template: Vec<u32>,
    store: Vec<u32>,
    scratch: Vec<u32>,
    answers: Vec<u32>,
}

impl Lent {
    pub fn new(capacities: Capacities, setup: &[u8]) -> Lent {
        let mut template = vec![0; words(capacities) as usize];
        assert_eq!(interface::start(&mut template, capacities), 0);
        let (mut scratch, mut answers) = (vec![0; capacities[0] as usize], vec![0; 3 * 50_000]);
        let [code, count] = interface::script(&mut template, &mut scratch, setup, &mut answers);
        let refused = answers.chunks(3).take(count as usize).find(|a| a[0] != 0);
        assert!(code == 0 && refused.is_none(), "the setup is refused: {code} {refused:?}");
        Lent { store: template.clone(), template, scratch, answers }
    }
    pub fn words(self) -> Vec<u32> {
        self.template
    }
    fn reset(&mut self) {
        self.store.copy_from_slice(&self.template);
        self.answers.fill(0);
    }
    fn script(&mut self, edits: &[u8]) -> [u32; 2] {
        interface::script(&mut self.store, &mut self.scratch, edits, &mut self.answers)
    }
    /// The script once more on the store as it was set up.
    pub fn again(&mut self, edits: &[u8]) {
        self.reset();
        self.script(edits);
    }
    pub fn check_ns(&mut self, rounds: usize) -> Samples {
        let mut samples = Samples::default();
        for _ in 0..rounds {
            self.reset();
            samples.add(clock(|| assert!(interface::is_sound(&self.store))));
        }
        samples
    }
    /// The first edits, each as a call of its own, all together.
    fn singles(&mut self, edits: &[&[u8]]) -> f64 {
        self.reset();
        clock(|| edits.iter().for_each(|e| assert_eq!(interface::edit(&mut self.store, &mut self.scratch, e, &mut [0; 3]), 0)))
    }
}

/// One line of a table of contestants: nanoseconds per edit.
pub struct Row {
    pub family: usize,
    pub count: usize,
    pub live: [usize; 5],
    pub store: f64,
    pub check: f64,
    pub pliron: f64,
    pub plain: f64,
    pub spread: f64,
    /// A single edit, its check included.
    pub single: f64,
}

/// All replies are the same: the store's and the plain program's here, the Rust's in `Decoder`.
fn same_replies(lent: &mut Lent, store: &plain::Store, s: &Script) {
    lent.reset();
    assert_eq!(lent.script(&s.edits), [0, s.count as u32]);
    let mut answers = vec![0; lent.answers.len()];
    assert_eq!(store.clone().script(&s.edits, &mut answers), (0, s.count));
    assert!(answers == lent.answers, "the plain program's replies differ");
    assert!(answers.chunks(3).all(|a| a[0] == 0), "an edit is refused");
}

/// The same script on the three contestants, in turn in every round.
pub fn contest(family: usize, capacities: Capacities, rounds: usize) -> Row {
    let s = grow::script(family, capacities);
    let mut lent = Lent::new(capacities, &s.setup);
    let mut plain_store = plain::Store::new(capacities);
    plain_store.script(&s.setup, &mut vec![0; 3 * 50_000]);
    same_replies(&mut lent, &plain_store, &s);
    let mut decoder = Decoder::new(capacities);
    let (setup, calls) = (decoder.calls(&s.setup), decoder.calls(&s.edits));
    let [mut script, mut check, mut pliron, mut plain] = [(); 4].map(|_| Samples::default());
    let mut answers = vec![0; 3 * 50_000];
    for _ in 0..rounds {
        lent.reset();
        script.add(clock(|| lent.script(&s.edits)));
        lent.reset();
        check.add(clock(|| interface::is_sound(&lent.store)));
        let mut ctx = Context::default();
        typed::run(&mut ctx, setup.clone());
        let copy = calls.clone();
        pliron.add(clock(|| typed::run(&mut ctx, copy)));
        let mut copy = plain_store.clone();
        plain.add(clock(|| copy.script(&s.edits, &mut answers)));
    }
    let n = s.count as f64;
    let pieces = differential::record::pieces(&s.edits);
    let some = &pieces[..pieces.len().min(if capacities == LARGEST { 100 } else { 1000 })];
    let mut single = Samples::default();
    (0..5).for_each(|_| single.add(lent.singles(some) / some.len() as f64));
    Row {
        family,
        count: s.count,
        live: s.live,
        store: (script.median() - check.median()) / n,
        check: check.median(),
        pliron: pliron.median() / n,
        plain: plain.median() / n,
        spread: [&script, &check, &pliron, &plain].map(Samples::spread).into_iter().fold(0.0, f64::max),
        single: single.median(),
    }
}

pub fn contests(capacities: Capacities, rounds: usize) -> Vec<Row> {
    (0..FAMILIES.len()).map(|f| contest(f, capacities, rounds)).collect()
}

/// One line of a table of checks.
pub struct Check {
    pub what: String,
    pub words: u64,
    /// From each operation up to the outermost one: the levels passed, all operations together.
    pub steps: u64,
    pub ns: f64,
}

fn check_of(what: String, capacities: Capacities, setup: &[u8], steps: u64) -> Check {
    let ns = Lent::new(capacities, setup).check_ns(41).median();
    Check { what, words: words(capacities), steps, ns }
}

/// A binary tree of regions.
fn tree(block: u32) -> Option<u32> {
    (block > 0).then(|| (block - 1) / 2)
}
fn steps(capacities: Capacities, parent: impl Fn(u32) -> Option<u32>) -> u64 {
    let per_block = (capacities[0] / capacities[1]) as u64;
    let levels = |b: u32| std::iter::successors(Some(b), |&b| parent(b)).count() as u64 - 1;
    (0..capacities[1]).map(|b| per_block * levels(b)).sum()
}

/// Stores of growing capacities, empty and full.
pub fn growing_checks() -> Vec<Check> {
    let mut rows = vec![];
    for part in [8, 4, 2, 1] {
        let c = LARGEST.map(|n| n / part);
        rows.push(check_of("empty".into(), c, &[], 0));
        rows.push(check_of("full".into(), c, &grow::fill(c, tree).bytes, steps(c, tree)));
    }
    rows
}

/// Full stores of the largest capacities whose blocks lie in each other so many levels deep.
pub fn nested_checks() -> Vec<Check> {
    let of_depth = |levels: u32| {
        let chain = move |b: u32| (b % (levels + 1) != 0).then(|| b - 1);
        check_of(format!("{levels}"), LARGEST, &grow::fill(LARGEST, chain).bytes, steps(LARGEST, chain))
    };
    [0, 15, 127, 511, 1023].map(of_depth).into_iter().collect()
}
