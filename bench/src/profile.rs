//! The store alone on the script of one family, for a profiler.
use crate::{
    grow::{self, FAMILIES, LARGEST, SMALL},
    timing::Lent,
};

pub fn run(family: &str, capacities: &str, rounds: usize) {
    let capacities = if capacities == "small" { SMALL } else { LARGEST };
    let family = FAMILIES.iter().position(|f| f.0 == family).expect("a family");
    let s = grow::script(family, capacities);
    let mut lent = Lent::new(capacities, &s.setup);
    (0..rounds).for_each(|_| lent.again(&s.edits));
}
