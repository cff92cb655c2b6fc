//! The library's functions over slices, with the contract's own numbers: one Rust function for each function of
//! `include/recipe_store.h`. Each takes any contents and any lengths. This is the only module with unsafe code.

mod library {
    extern "C" {
        pub fn recipe_words(ops: u32, blocks: u32, regions: u32, values: u32, uses: u32) -> usize;
        pub fn recipe_start(store: *mut u32, store_len: usize, ops: u32, blocks: u32, regions: u32, values: u32, uses: u32) -> u32;
        pub fn recipe_edit(
            store: *mut u32,
            store_len: usize,
            scratch: *mut u32,
            scratch_len: usize,
            record: *const u8,
            record_len: usize,
            answer: *mut u32,
            answer_len: usize,
        ) -> u32;
        pub fn recipe_script(
            store: *mut u32,
            store_len: usize,
            scratch: *mut u32,
            scratch_len: usize,
            script: *const u8,
            script_len: usize,
            answers: *mut u32,
            answers_len: usize,
            count: *mut u64,
        ) -> u32;
        pub fn recipe_check(store: *const u32, store_len: usize) -> bool;
        pub fn recipe_value_uses(store: *const u32, store_len: usize, value: u32, uses: *mut u32, uses_len: usize, count: *mut u64) -> u32;
        pub fn recipe_block_uses(store: *const u32, store_len: usize, block: u32, uses: *mut u32, uses_len: usize, count: *mut u64) -> u32;
        pub fn recipe_listing(
            store: *const u32,
            store_len: usize,
            answers: *const u32,
            answers_len: usize,
            out: *mut u8,
            out_len: usize,
            length: *mut u64,
        ) -> u32;
    }
}

use crate::{Answer, Use};

/// No count that the library gives: it writes its own over it in every call.
const NOT_WRITTEN: u64 = u64::MAX;

/// The words that a store of these capacities needs; 0 where one is 0 or over its limit.
pub fn words([ops, blocks, regions, values, uses]: [u32; 5]) -> usize {
    // SAFETY: numbers alone go in and come out.
    unsafe { library::recipe_words(ops, blocks, regions, values, uses) }
}

/// Starts an empty store: 0 or 5.
pub fn start(store: &mut [u32], [ops, blocks, regions, values, uses]: [u32; 5]) -> u32 {
    // SAFETY: pointer and length are those of one live slice, borrowed as long as the call lasts.
    unsafe { library::recipe_start(store.as_mut_ptr(), store.len(), ops, blocks, regions, values, uses) }
}

/// One edit record: its refusal or 0, which stands in `answer` too. For 6, and for 22 where `answer` has under three words, `answer` is kept.
pub fn edit(store: &mut [u32], scratch: &mut [u32], record: &[u8], answer: &mut [u32]) -> u32 {
    let (scratch_at, answer_at) = (scratch.as_mut_ptr(), answer.as_mut_ptr());
    // SAFETY: each pointer has the length of its slice; the slices that are written are borrowed mutably, so no two overlap.
    unsafe { library::recipe_edit(store.as_mut_ptr(), store.len(), scratch_at, scratch.len(), record.as_ptr(), record.len(), answer_at, answer.len()) }
}

/// A script: 0 or the 6 or 22 that ended it, and how many answers were written, three words for each.
pub fn script(store: &mut [u32], scratch: &mut [u32], script: &[u8], answers: &mut [u32]) -> (u32, u64) {
    let mut count = NOT_WRITTEN;
    let (scratch_at, answers_at) = (scratch.as_mut_ptr(), answers.as_mut_ptr());
    // SAFETY: as for `edit`; `count` is a local of its own.
    let code = unsafe {
        library::recipe_script(store.as_mut_ptr(), store.len(), scratch_at, scratch.len(), script.as_ptr(), script.len(), answers_at, answers.len(), &mut count)
    };
    (code, count)
}

/// Whether the words are a sound store.
pub fn check(store: &[u32]) -> bool {
    // SAFETY: pointer and length are those of one slice, which is only read.
    unsafe { library::recipe_check(store.as_ptr(), store.len()) }
}

/// The uses of a value, rising: 0, 6, 10 or 22, and the count that the library gave.
pub fn value_uses(store: &[u32], value: u32, uses: &mut [u32]) -> (u32, u64) {
    let mut count = NOT_WRITTEN;
    // SAFETY: each pointer has the length of its slice; `uses` is borrowed mutably and so apart from the store.
    let code = unsafe { library::recipe_value_uses(store.as_ptr(), store.len(), value, uses.as_mut_ptr(), uses.len(), &mut count) };
    (code, count)
}

/// The uses of a block, rising: 0, 6, 8 or 22, and the count that the library gave.
pub fn block_uses(store: &[u32], block: u32, uses: &mut [u32]) -> (u32, u64) {
    let mut count = NOT_WRITTEN;
    // SAFETY: as for `value_uses`.
    let code = unsafe { library::recipe_block_uses(store.as_ptr(), store.len(), block, uses.as_mut_ptr(), uses.len(), &mut count) };
    (code, count)
}

/// The listing of the answers and the store, as far as `out` has room: 0, 6 or 22, and how many bytes the library wrote.
pub fn listing(store: &[u32], answers: &[u32], out: &mut [u8]) -> (u32, u64) {
    let mut length = NOT_WRITTEN;
    // SAFETY: each pointer has the length of its slice; `out` is borrowed mutably and so apart from the others.
    let code = unsafe { library::recipe_listing(store.as_ptr(), store.len(), answers.as_ptr(), answers.len(), out.as_mut_ptr(), out.len(), &mut length) };
    (code, length)
}

/// The words of the answers, to be written.
pub(crate) fn answer_words_mut(answers: &mut [Answer]) -> &mut [u32] {
    // SAFETY: an `Answer` is three words and nothing else (`repr(C)`), and every word is good for each of them.
    unsafe { core::slice::from_raw_parts_mut(answers.as_mut_ptr().cast(), 3 * answers.len()) }
}

/// The words of the answers, to be read.
pub(crate) fn answer_words(answers: &[Answer]) -> &[u32] {
    // SAFETY: as for `answer_words_mut`.
    unsafe { core::slice::from_raw_parts(answers.as_ptr().cast(), 3 * answers.len()) }
}

/// The words of a list of uses.
pub(crate) fn use_words(uses: &mut [Use]) -> &mut [u32] {
    // SAFETY: a `Use` is one word (`repr(transparent)`), and every word is good for it.
    unsafe { core::slice::from_raw_parts_mut(uses.as_mut_ptr().cast(), uses.len()) }
}
