//! The store's library as the Rust crate calls it (`rust/src/raw.rs`).
use recipe_store::raw;

pub use raw::{check as is_sound, edit, listing, start, words};

/// A script: 0 or what ended it, and the count of answers written.
pub fn script(store: &mut [u32], scratch: &mut [u32], script: &[u8], answers: &mut [u32]) -> [u32; 2] {
    let (code, count) = raw::script(store, scratch, script, answers);
    [code, u32::try_from(count).expect("a count of answers")]
}

/// The uses of a value or a block, written to the front of `uses`: 0 or the refusal, and the count.
pub fn uses_of(store: &[u32], block: bool, number: u32, uses: &mut [u32]) -> (u32, u64) {
    let call = if block { raw::block_uses } else { raw::value_uses };
    call(store, number, uses)
}
