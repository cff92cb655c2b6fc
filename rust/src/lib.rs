//! The recipe store for Rust: a mutable store of operations, blocks, regions, values and uses, in memory that the caller lends.
//!
//! The store itself is the proved library (`rt lib` in `crates/ffi`), linked statically. This crate is its safe face and is not proved. It allocates
//! nothing and keeps nothing between calls. `docs/FORMAT.md` says what every edit does and when it is refused; `docs/EMBEDDING.md` has sizes,
//! threads and lifetimes.
//!
//! ```
//! use recipe_store::{Capacities, Flags, Refusal, Store, Type, Use, Value};
//!
//! const SIZE: Capacities = Capacities { operations: 8, blocks: 4, regions: 4, values: 16, uses: 32 };
//! let mut words = [0; SIZE.store_words()];
//! let mut scratch = [0; SIZE.scratch_words()];
//! let mut store = Store::start(&mut words, &mut scratch, SIZE)?;
//!
//! let block = store.new_block(&[Type(7)])?;
//! let argument = Value(0);
//! let add = store.new_operation(Flags::None, &[Type(7)], &[argument, argument], &[], 0)?;
//! store.link_operation_back(add, block)?;
//!
//! let mut uses = [Use(0); 32];
//! assert_eq!(store.view().value_uses(argument, &mut uses)?, [Use(0), Use(1)]);
//! assert_eq!(store.remove_argument(block, 0), Err(Refusal::StillUsed));
//! # Ok::<(), Refusal>(())
//! ```
//!
//! Many edits are one script, which checks the store once:
//!
//! ```
//! use recipe_store::{Answer, Capacities, Edit, ScriptWriter, Store, Type};
//! # const SIZE: Capacities = Capacities { operations: 8, blocks: 4, regions: 4, values: 16, uses: 32 };
//! # let (mut words, mut scratch) = ([0; SIZE.store_words()], [0; SIZE.scratch_words()]);
//! # let mut store = Store::start(&mut words, &mut scratch, SIZE)?;
//! let mut bytes = [0; 256];
//! let mut script = ScriptWriter::new(&mut bytes);
//! for of_type in 0..4 {
//!     script.push(&Edit::NewBlock { arguments: &[Type(of_type)] }).expect("12 bytes each");
//! }
//! let mut answers = [Answer::default(); 4];
//! let ran = store.script(script.script(), &mut answers);
//! assert_eq!(ran.ended, None);
//! assert_eq!(ran.answers[3], Answer { refusal: 0, a: 3, b: 0 });
//! # Ok::<(), recipe_store::Refusal>(())
//! ```
#![no_std]
#![deny(unsafe_code, unsafe_op_in_unsafe_fn)]
#![warn(missing_debug_implementations)]

mod capacities;
mod edit;
mod numbers;
#[allow(unsafe_code)]
pub mod raw;
mod refusal;
mod reply;
mod store;

pub use capacities::Capacities;
pub use edit::{DoesNotFit, Edit, NAMES, RECORD_BYTES};
pub use numbers::{Block, Flags, Operation, Region, Type, Use, Value};
pub use refusal::Refusal;
pub use reply::{Answer, Dropped, Erased, Reply, Verdict};
pub use store::{Counts, Ran, ScriptWriter, Store, View};
