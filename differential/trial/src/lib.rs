//! A stand-in for the proved store's library, made of the second reading and of the reading of the words. It shows nothing about the store:
//! it is there to try the comparison. TRIAL_FAULT=k plants the fault k of `FAULTS`; the comparison must then find a difference, and none without.
#![allow(dead_code)]
#[path = "../../src/reading.rs"]
mod reading;
#[path = "../../src/record.rs"]
mod record;
#[path = "../../src/words.rs"]
mod words;

use reading::Store;
use std::{collections::BTreeMap, slice, sync::OnceLock};

const FAULTS: [&str; 22] = [
    "none",
    "an edit that is refused leaves its scratch",
    "an edit that gets 12 changes a word",
    "a script writes past its last answer",
    "a script writes past the sum",
    "the check always says yes",
    "the check says no where the use numbers are nearly spent",
    "the listing lacks its last byte",
    "a script without room for an answer returns 0",
    "an edit does not look at the length of its scratch",
    "a refused start writes a word",
    "births do not take the lowest free place",
    "an edit on an unsound store is accepted",
    "an accepted edit writes past the sum",
    "an edit on an unsound store changes a word",
    "the check says no where a terminator with flags 3 is linked",
    "a reader with too little room writes what fits",
    "the uses of a block lack the last",
    "the words of a store are one too few where an occupancy map ends in a half word",
    "an edit without room for its answer leaves its scratch",
    "an edit on an unsound store writes an answer",
    "an unsound store is listed as nothing",
];

fn fault(name: &str) -> bool {
    static PLANTED: OnceLock<usize> = OnceLock::new();
    let planted = *PLANTED.get_or_init(|| std::env::var("TRIAL_FAULT").map_or(0, |k| k.parse().unwrap()));
    assert!(FAULTS.contains(&name), "{name}");
    FAULTS[planted] == name
}

unsafe fn lent<'a, T>(p: *const T, n: usize) -> &'a [T] {
    unsafe { slice::from_raw_parts(p, n) }
}
unsafe fn lent_mut<'a, T>(p: *mut T, n: usize) -> &'a mut [T] {
    unsafe { slice::from_raw_parts_mut(p, n) }
}

/// Who was there keeps the place; the born take the lowest free ones in order.
fn places_after(before: &words::Places, was: &Store, store: &Store) -> words::Places {
    let uses = store.ops.values().flat_map(|o| o.operands.iter().chain(&o.successors).map(|x| x.0)).collect();
    let keys = |k: usize| -> Vec<u32> {
        match k {
            0 => store.ops.keys().copied().collect(),
            1 => store.blocks.keys().copied().collect(),
            2 => store.regions.keys().copied().collect(),
            _ => store.values.keys().copied().collect(),
        }
    };
    let mut live: [Vec<u32>; 5] = [keys(0), keys(1), keys(2), keys(3), uses];
    std::array::from_fn(|k| {
        live[k].sort();
        let mut places: BTreeMap<usize, u32> = before[k].iter().filter(|x| live[k].contains(x.1)).map(|x| (*x.0, *x.1)).collect();
        for &n in live[k].iter().filter(|&&n| n as u64 >= was.born[k]) {
            let free = (0..).find(|p| !places.contains_key(p)).unwrap();
            let next_too = !places.contains_key(&(free + 1)) && free + 1 < store.capacities[k] as usize;
            let shift = next_too && fault("births do not take the lowest free place");
            places.insert(free + shift as usize, n);
        }
        places
    })
}

fn edit(store: &mut [u32], record: &[u8], scratch: usize) -> [u32; 3] {
    let whole = record::length(record).and_then(|n| if n == record.len() { Ok(n) } else { Err(1) });
    if let Err(refusal) = whole.and_then(|_| record::take_apart(record)) {
        return [refusal, 0, 0];
    }
    let Some((mut now, places)) = words::read(store) else {
        if fault("an edit on an unsound store changes a word") {
            store[0] = 1;
        }
        return if fault("an edit on an unsound store is accepted") { [0; 3] } else { [6, 0, 0] };
    };
    let was = now.clone();
    let answer = now.edit(record, if fault("an edit does not look at the length of its scratch") { usize::MAX } else { scratch });
    if answer[0] == 12 && fault("an edit that gets 12 changes a word") {
        store[5] += 1;
    }
    if answer[0] == 0 {
        let after = words::write(&now, &places_after(&places, &was, &now));
        store[..after.len()].copy_from_slice(&after);
        if fault("an accepted edit writes past the sum") {
            *store.last_mut().unwrap() = 0;
        }
    }
    answer
}

fn script(store: &mut [u32], scratch: usize, script: &[u8], answers: &mut [u32]) -> [u32; 2] {
    let Some((begun, _)) = words::read(store) else { return [6, 0] };
    if scratch < begun.capacities[0] as usize {
        return [22, 0];
    }
    let mut count = 0;
    for record in record::pieces(script) {
        if answers.len() / 3 <= count {
            return [if fault("a script without room for an answer returns 0") { 0 } else { 22 }, count as u32];
        }
        let answer = edit(store, record, scratch);
        answers[3 * count..3 * count + 3].copy_from_slice(&answer);
        count += 1;
    }
    if answers.len() > 3 * count && fault("a script writes past its last answer") {
        answers[3 * count] = 0;
    }
    if fault("a script writes past the sum") {
        *store.last_mut().unwrap() = 7;
    }
    [0, count as u32]
}

fn check(store: &[u32]) -> bool {
    if fault("the check always says yes") {
        return true;
    }
    words::read(store).is_some_and(|(s, _)| {
        let spent = s.born[4] > 4_000_000_000 && fault("the check says no where the use numbers are nearly spent");
        let linked = s.ops.values().any(|o| o.flags == 3 && o.block.is_some());
        !spent && !(linked && fault("the check says no where a terminator with flags 3 is linked"))
    })
}

#[unsafe(no_mangle)]
pub unsafe extern "C" fn recipe_start(p: *mut u32, n: usize, ops: u32, blocks: u32, regions: u32, values: u32, uses: u32) -> u32 {
    let store = unsafe { lent_mut(p, n) };
    match reading::start([ops, blocks, regions, values, uses], n as u64) {
        Ok(empty) => {
            let words = words::write(&empty, &Default::default());
            store[..words.len()].copy_from_slice(&words);
            0
        }
        Err(refusal) => {
            if n > 3 && fault("a refused start writes a word") {
                store[3] = 0;
            }
            refusal
        }
    }
}

#[unsafe(no_mangle)]
pub unsafe extern "C" fn recipe_edit(p: *mut u32, n: usize, s: *mut u32, m: usize, record: *const u8, length: usize, answer: *mut u32, three: usize) -> u32 {
    let (scratch, answer) = unsafe { (lent_mut(s, m), lent_mut(answer, three)) };
    if three < 3 {
        if !fault("an edit without room for its answer leaves its scratch") {
            scratch.fill(0);
        }
        return 22;
    }
    let got = unsafe { edit(lent_mut(p, n), lent(record, length), m) };
    if got[0] == 0 || !fault("an edit that is refused leaves its scratch") {
        scratch.fill(0);
    }
    if got[0] != 6 || fault("an edit on an unsound store writes an answer") {
        answer.copy_from_slice(&got);
    }
    got[0]
}

#[unsafe(no_mangle)]
pub unsafe extern "C" fn recipe_script(
    p: *mut u32,
    n: usize,
    s: *mut u32,
    m: usize,
    bytes: *const u8,
    length: usize,
    answers: *mut u32,
    room: usize,
    count: *mut u64,
) -> u32 {
    unsafe { lent_mut(s, m) }.fill(0);
    let [code, answered] = unsafe { script(lent_mut(p, n), m, lent(bytes, length), lent_mut(answers, room)) };
    unsafe { *count = answered as u64 };
    code
}

#[unsafe(no_mangle)]
pub unsafe extern "C" fn recipe_check(p: *const u32, n: usize) -> bool {
    check(unsafe { lent(p, n) })
}

#[unsafe(no_mangle)]
pub extern "C" fn recipe_words(ops: u32, blocks: u32, regions: u32, values: u32, uses: u32) -> usize {
    let capacities = [ops, blocks, regions, values, uses];
    let short = uses % 64 > 32 && fault("the words of a store are one too few where an occupancy map ends in a half word");
    reading::start(capacities, u64::MAX).map_or(0, |_| reading::words(capacities) as usize - short as usize)
}

fn uses_of(store: &[u32], block: bool, number: u32, out: &mut [u32]) -> Result<usize, u32> {
    let (store, _) = words::read(store).ok_or(6u32)?;
    let live = if block { store.blocks.contains_key(&number) } else { store.values.contains_key(&number) };
    let mut uses = match (live, block) {
        (false, _) => return Err(if block { 8 } else { 10 }),
        (true, false) => store.uses_of_value(number),
        (true, true) => store.uses_of_block(number),
    };
    if block && fault("the uses of a block lack the last") {
        uses.pop();
    }
    if uses.len() <= out.len() || fault("a reader with too little room writes what fits") {
        out.iter_mut().zip(&uses).for_each(|(w, u)| *w = u.0);
    }
    if uses.len() <= out.len() { Ok(uses.len()) } else { Err(22) }
}

#[unsafe(no_mangle)]
pub unsafe extern "C" fn recipe_value_uses(p: *const u32, n: usize, number: u32, out: *mut u32, room: usize, count: *mut u64) -> u32 {
    let told = unsafe { uses_of(lent(p, n), false, number, lent_mut(out, room)) };
    unsafe { *count = told.unwrap_or(0) as u64 };
    told.err().unwrap_or(0)
}

#[unsafe(no_mangle)]
pub unsafe extern "C" fn recipe_block_uses(p: *const u32, n: usize, number: u32, out: *mut u32, room: usize, count: *mut u64) -> u32 {
    let told = unsafe { uses_of(lent(p, n), true, number, lent_mut(out, room)) };
    unsafe { *count = told.unwrap_or(0) as u64 };
    told.err().unwrap_or(0)
}

#[unsafe(no_mangle)]
pub unsafe extern "C" fn recipe_listing(p: *const u32, n: usize, answers: *const u32, words: usize, out: *mut u8, room: usize, written: *mut u64) -> u32 {
    unsafe { *written = 0 };
    let Some((store, _)) = words::read(unsafe { lent(p, n) }) else {
        return if fault("an unsound store is listed as nothing") { 0 } else { 6 };
    };
    let answers: Vec<[u32; 3]> = unsafe { lent(answers, words) }.chunks(3).map(|c| c.try_into().unwrap()).collect();
    let text = store.listing(&answers);
    let length = text.len() - fault("the listing lacks its last byte") as usize;
    let out = unsafe { lent_mut(out, room) };
    out[..length].copy_from_slice(&text.as_bytes()[..length]);
    unsafe { *written = length as u64 };
    0
}
