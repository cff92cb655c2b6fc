//! The store of pliron 0.20.0, built from its published text, beside a second reading of the rules and the proved store.
extern crate alloc;
extern crate self as pliron;

// the published files as build.rs cut them
include!(concat!(env!("OUT_DIR"), "/published.rs"));

// what the published files use and is not published here
#[allow(dead_code, unused_macros)]
pub mod standins;
pub use standins::{attribute, common_traits, dialect, identifier, location, op, printable, result, std_deps, storage_uniquer, r#type, uniqued_any};
pub mod builtin {
    pub use crate::given_names_cut as given_names;
    pub use crate::standins::op_interfaces;
}
pub mod utils {
    pub use crate::standins::vec_exns;
    pub use crate::table_cut as table;
}

// ours
pub mod added;
pub mod compare;
pub mod definitions;
#[cfg(feature = "store")]
pub mod interface;
pub mod published;
pub mod reading;
pub mod record;
pub mod recorded;
pub mod replay;
pub mod scripts;
pub mod small;
#[cfg(feature = "store")]
pub mod store;
#[cfg(feature = "store")]
pub mod words;
#[cfg(feature = "faults")]
pub mod faults {
    include!(concat!(env!("OUT_DIR"), "/faults.rs"));
}
