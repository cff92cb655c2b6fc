//! The proved store against the second reading: replies, listings, and every lent buffer after every call.
use crate::{
    compare::{Expected, expected, fnv, text},
    interface,
    published::Published,
    reading::{self, Capacities, MOST, Store},
    record::pieces,
    scripts::{self, Rng},
    words::{self, Places},
};
use std::collections::{BTreeMap, HashSet};

type Outcome = Result<(), String>;

fn expect(holds: bool, what: &str) -> Outcome {
    expect_or(holds, || what.to_string())
}

/// The message is made only where it is needed: this runs after every call.
fn expect_or(holds: bool, what: impl FnOnce() -> String) -> Outcome {
    if holds { Ok(()) } else { Err(format!("the store: {}", what())) }
}

/// What lent words hold before a call that is to keep them.
const KEPT: u32 = 0xA5A5_5A5A;
/// Words lent past what a call needs.
const SPARE: usize = 9;

/// A store buffer that is longer than the sum, and what is lent beside it.
#[derive(Clone)]
struct Lent {
    words: Vec<u32>,
    sum: usize,
    scratch: usize,
}

impl Lent {
    /// Started in a buffer full of old words.
    fn start(capacities: Capacities, rng: &mut Rng) -> Result<Lent, String> {
        let sum = reading::words(capacities) as usize;
        let mut words = vec![KEPT; sum + SPARE];
        let mut old = rng.next() | 1;
        for w in &mut words[..sum] {
            old = old.wrapping_mul(0x9E37_79B9_7F4A_7C15);
            *w = (old >> 32) as u32;
        }
        expect(interface::start(&mut words, capacities) == 0, "start is refused")?;
        let lent = Lent { words, sum, scratch: capacities[0] as usize + rng.below(3) };
        lent.kept_spare()?;
        Ok(lent)
    }
    fn kept_spare(&self) -> Outcome {
        expect(self.words[self.sum..].iter().all(|&w| w == KEPT), "words past the sum were written")
    }
    /// Scratch with old words in it; it must be all zeros afterwards.
    fn with_scratch<T>(&mut self, scratch: usize, call: impl FnOnce(&mut [u32], &mut [u32]) -> T) -> Result<T, String> {
        let mut lent: Vec<u32> = (0..scratch as u32).map(|k| k.wrapping_mul(0x9E37_79B9) | 1).collect();
        let out = call(&mut self.words, &mut lent);
        expect(lent.iter().all(|&w| w == 0), "the scratch is not all zeros")?;
        self.kept_spare()?;
        Ok(out)
    }
    /// One edit with so many words for its answer: its reply, and those words after it.
    fn edit_into(&mut self, record: &[u8], scratch: usize, room: usize) -> Result<(u32, Vec<u32>), String> {
        let mut answer = vec![KEPT; room];
        let code = self.with_scratch(scratch, |s, t| interface::edit(s, t, record, &mut answer))?;
        Ok((code, answer))
    }
    /// Its answer; 6 writes none.
    fn edit(&mut self, record: &[u8], scratch: usize) -> Result<[u32; 3], String> {
        let (code, answer) = self.edit_into(record, scratch, 3)?;
        if code == 6 {
            expect(answer == [KEPT; 3], "an answer is written for 6")?;
            return Ok([6, 0, 0]);
        }
        expect_or(code == answer[0], || format!("an edit returns {code} and writes {answer:?}"))?;
        Ok([code, answer[1], answer[2]])
    }
    /// The answers, and what ended the script. Answer words past the last are kept.
    fn script(&mut self, script: &[u8], scratch: usize, answer_words: usize) -> Result<(Vec<[u32; 3]>, u32), String> {
        let mut answers = vec![KEPT; answer_words];
        let [code, count] = self.with_scratch(scratch, |s, t| interface::script(s, t, script, &mut answers))?;
        expect(3 * count as usize <= answer_words, "more answers are counted than fit")?;
        let (written, rest) = answers.split_at(3 * count as usize);
        expect(rest.iter().all(|&w| w == KEPT), "answer words past the last were written")?;
        Ok((written.chunks(3).map(|a| a.try_into().unwrap()).collect(), code))
    }
    fn listing(&self, answers: &[[u32; 3]], longest: usize) -> Result<String, String> {
        let mut out = vec![0xA5; longest + 64];
        let (code, length) = interface::listing(&self.words, &answers.concat(), &mut out);
        expect_or(code == 0, || format!("the listing is refused, {code}"))?;
        expect(length <= out.len() as u64, "the listing is longer than its buffer")?;
        let (written, rest) = out.split_at(length as usize);
        expect(rest.iter().all(|&b| b == 0xA5), "bytes past the listing were written")?;
        String::from_utf8(written.to_vec()).map_err(|_| "the store: the listing is no text".into())
    }
}

/// The first difference between the store and the second reading on this script, if any.
pub fn difference(script: &[u8], capacities: Capacities, second: &Expected, rust: &Published) -> Option<String> {
    let run = || -> Outcome {
        let mut rng = Rng(fnv(script));
        let room = rng.below(3 * pieces(script).len() + 1);
        let (single, cut_short) = by_edits(script, capacities, room / 3, &mut rng)?;
        let whole = by_script(script, capacities, second, &mut rng)?;
        expect(whole.words[..whole.sum] == single.words[..single.sum], "a script and its single edits end in other words")?;
        readers(&whole.words, rust, &mut rng)?;
        short_buffers(script, capacities, second, room, &cut_short, &mut rng)
    };
    run().err()
}

fn by_script(script: &[u8], capacities: Capacities, second: &Expected, rng: &mut Rng) -> Result<Lent, String> {
    let mut lent = Lent::start(capacities, rng)?;
    let room = 3 * second.answers.len() + rng.below(7);
    let scratch = lent.scratch;
    let (answers, code) = lent.script(script, scratch, room)?;
    for (k, (a, b)) in answers.iter().zip(&second.answers).enumerate() {
        expect_or(a == b, || format!("edit {k} of the script gets {a:?}, the second reading {b:?}"))?;
    }
    expect_or(answers == second.answers && code == 0, || format!("the script returns {code} after {} answers", answers.len()))?;
    let listing = lent.listing(&answers, second.listing.len())?;
    let line = || listing.lines().zip(second.listing.lines()).find(|(a, b)| a != b);
    expect_or(listing == second.listing, || format!("other listing: {:?}", line()))?;
    Ok(lent)
}

/// The store after the script by single edits, and its words after `k` of them.
fn by_edits(script: &[u8], capacities: Capacities, k: usize, rng: &mut Rng) -> Result<(Lent, Vec<u32>), String> {
    let second = reading::start(capacities, u64::MAX).unwrap();
    let mut lent = Lent::start(capacities, rng)?;
    let empty = Standing::of(capacities, &Places::default());
    let cut_short = edits_from(second, empty, &mut lent, script, k, rng)?;
    Ok((lent, cut_short))
}

/// Single edits on both, with every buffer looked at after each. Each edit begins with the store's own check, so one that leaves an unsound store shows
/// in the next answer. Returns the words after `keep` edits.
fn edits_from(mut second: Store, mut standing: Standing, lent: &mut Lent, script: &[u8], keep: usize, rng: &mut Rng) -> Result<Vec<u32>, String> {
    let records = pieces(script);
    let look = rng.below(4 * records.len() + 1);
    let mut before = lent.words.clone();
    let mut kept = lent.words.clone();
    for (k, record) in records.into_iter().enumerate() {
        let (scratch, born) = (lent.scratch, second.born);
        let (got, wanted) = (lent.edit(record, scratch)?, second.edit(record, scratch));
        expect_or(got == wanted, || format!("single edit {k} gets {got:?}, the second reading {wanted:?}"))?;
        if wanted[0] != 0 {
            expect_or(lent.words == before, || format!("edit {k} is refused, {}, and has changed a word", wanted[0]))?;
        } else {
            before.copy_from_slice(&lent.words);
            standing.follow(&second, born);
            if k == look {
                reads_as(&second, lent, &standing, "on the way")?;
            }
        }
        if k < keep {
            kept.copy_from_slice(&lent.words);
        }
    }
    expect(interface::is_sound(&lent.words), "not sound after single edits")?;
    reads_as(&second, lent, &standing, "at the end")?;
    Ok(kept)
}

/// The words, read apart from the library, are this store, with everything at its place.
fn reads_as(second: &Store, lent: &Lent, standing: &Standing, when: &str) -> Outcome {
    let Some((store, places)) = words::read(&lent.words) else { return Err(format!("the store: its words are no sound store {when}")) };
    expect_or(store == *second, || format!("its words read otherwise {when}"))?;
    for (kind, numbers) in standing.0.iter().enumerate() {
        let here = |p: usize| places[kind].get(&p).copied();
        let wrong = (0..numbers.len()).find(|&p| here(p) != numbers[p]);
        expect_or(wrong.is_none(), || format!("a birth was not at the lowest free place: kind {kind}, place {wrong:?}, {when}"))?;
    }
    Ok(())
}

/// The birth number at each place, by kind: what an edit ends leaves its place, and then each birth takes the lowest free one.
struct Standing([Vec<Option<u32>>; 5]);

impl Standing {
    fn of(capacities: Capacities, places: &Places) -> Standing {
        Standing(std::array::from_fn(|k| (0..capacities[k] as usize).map(|p| places[k].get(&p).copied()).collect()))
    }
    /// After an edit of the second reading, before which so many had been born.
    fn follow(&mut self, store: &Store, born: [u64; 5]) {
        let live = store.live();
        for (k, numbers) in self.0.iter_mut().enumerate() {
            let births = (store.born[k] - born[k]) as usize;
            if numbers.iter().flatten().count() + births > live[k] {
                let all: HashSet<u32> = store.numbers_of(k).collect();
                numbers.iter_mut().filter(|n| n.is_some_and(|n| !all.contains(&n))).for_each(|n| *n = None);
            }
            for n in born[k]..store.born[k] {
                let free = numbers.iter_mut().find(|n| n.is_none()).expect("a free place");
                *free = Some(n as u32);
            }
        }
    }
}

/// The use readers on a store that is the Rust's: values and blocks, against the Rust's own use sets; some that have ended; and some never born.
/// Each call begins with the store's own check, so all that live are read in one script of four, and about six of each kind in the others.
fn readers(words: &[u32], rust: &Published, rng: &mut Rng) -> Outcome {
    let all = rng.percent(25);
    for block in [false, true] {
        let (born, refusal) = if block { (rust.blocks.len() as u32, 8) } else { (rust.values.len() as u32, 10) };
        let mut ended = 2;
        for n in (0..born).chain([born, u32::MAX]) {
            let live = if block { rust.block_live(n) } else { rust.value_live(n) };
            if live && !all && rng.below(born as usize) >= 6 {
                continue;
            }
            if live {
                let uses = rust.uses_of(block, n);
                if !uses.is_empty() && rng.percent(30) {
                    reads(words, block, n, rng.below(uses.len()), Err(22))?;
                }
                reads(words, block, n, uses.len() + rng.below(3), Ok(&uses))?;
            } else if ended > 0 || n >= born {
                ended -= (ended > 0) as u32;
                reads(words, block, n, rng.below(3), Err(refusal))?;
            }
        }
    }
    Ok(())
}

/// One call of a reader with so much room: the uses or the refusal; what is not written is kept.
fn reads(words: &[u32], block: bool, n: u32, room: usize, wanted: Result<&[u32], u32>) -> Outcome {
    let mut buffer = vec![KEPT; room];
    let (code, count) = interface::uses_of(words, block, n, &mut buffer);
    let (wanted_code, uses) = wanted.map_or_else(|refusal| (refusal, &[][..]), |uses| (0, uses));
    let good = code == wanted_code && count == uses.len() as u64;
    let (written, rest) = buffer.split_at(uses.len());
    let what = if block { "block" } else { "value" };
    let told = || format!("the uses of {what} {n}, with room for {room}: {code}, {count}, {buffer:?}; wanted {wanted:?}");
    expect_or(good && written == uses && rest.iter().all(|&w| w == KEPT), told)
}

/// 22 for answers and for scratch.
fn short_buffers(script: &[u8], capacities: Capacities, second: &Expected, room: usize, cut_short: &[u32], rng: &mut Rng) -> Outcome {
    let mut lent = Lent::start(capacities, rng)?;
    let scratch = lent.scratch;
    let fit = (room / 3).min(second.answers.len());
    let wanted = (second.answers[..fit].to_vec(), if fit < second.answers.len() { 22 } else { 0 });
    expect_or(lent.script(script, scratch, room)? == wanted, || format!("other answers with room for {room} words"))?;
    expect(lent.words[..lent.sum] == cut_short[..lent.sum], "a script cut short by 22 and its single edits end in other words")?;
    let short = rng.below(capacities[0] as usize);
    expect(lent.script(script, short, 30)? == (vec![], 22), "a short scratch is not answered by 22")?;
    if let Some(record) = pieces(script).first() {
        let wanted = reading::start(capacities, u64::MAX).unwrap().edit(record, short);
        expect(lent.edit(record, short)? == wanted, "a single edit with a short scratch gets another answer")?;
        let room = rng.below(3);
        let told = lent.edit_into(record, scratch, room)?;
        expect_or(told == (22, vec![KEPT; room]), || format!("a single edit with room for {room} words gets {told:?}"))?;
    }
    expect(lent.words[..lent.sum] == cut_short[..lent.sum], "a call refused by 22 has changed a word")
}

/// A store that follows record by record, for the small scripts.
#[derive(Clone)]
pub struct Follower(Lent);

impl Follower {
    pub fn start(capacities: Capacities) -> Result<Follower, String> {
        Lent::start(capacities, &mut Rng(1)).map(Follower)
    }
    /// One edit, with the answer and the rows that it must have.
    pub fn step(&mut self, record: &[u8], answer: [u32; 3], rows: &str) -> Outcome {
        let before = self.0.words.clone();
        let scratch = self.0.scratch;
        let got = self.0.edit(record, scratch)?;
        expect_or(got == answer, || format!("{got:?}, the second reading {answer:?}"))?;
        expect(answer[0] == 0 || self.0.words == before, "a refused edit has changed a word")?;
        expect(self.0.listing(&[], rows.len())? == rows, "other rows")
    }
}

// ---- the start, damaged stores, spent numbers

/// Refusal 5: capacities of 0 and over their limits, buffers too short; nothing is written.
fn starts(rng: &mut Rng) -> Outcome {
    let mut capacities: Capacities = std::array::from_fn(|k| match rng.below(8) {
        0 => rng.of(&[0, MOST[k] + 1, u32::MAX]),
        1 => MOST[k],
        _ => 1 + rng.below(70) as u32,
    });
    if rng.percent(50) {
        capacities = capacities.map(|c| c.clamp(1, 70));
    }
    let sum = if capacities.iter().any(|&c| c > 20_000) { 500 } else { reading::words(capacities) };
    let any = rng.next() % (sum + 1);
    let length = rng.of(&[sum, sum + 3, sum - 1, sum.saturating_sub(40), any, 0]);
    let mut buffer = vec![KEPT; length as usize];
    let wanted = reading::start(capacities, length).err().unwrap_or(0);
    let allowed = reading::start(capacities, u64::MAX).is_ok();
    let needed = if allowed { reading::words(capacities) as usize } else { 0 };
    expect_or(interface::words(capacities) == needed, || format!("{capacities:?} need {} words, the second reading {needed}", interface::words(capacities)))?;
    let got = interface::start(&mut buffer, capacities);
    expect_or(got == wanted, || format!("start {capacities:?} in {length} words gives {got}, the second reading {wanted}"))?;
    if got == 5 {
        return expect(buffer.iter().all(|&w| w == KEPT), "a refused start has written a word");
    }
    expect(buffer[sum as usize..].iter().all(|&w| w == KEPT), "start has written past the sum")?;
    expect(words::read(&buffer).is_some_and(|(s, _)| s.rows() == "store 0 0 0 0 0\n"), "a started store is not empty")
}

/// The store of a random script, its things at random places.
fn scattered(rng: &mut Rng) -> (Store, Places, Vec<u32>) {
    let (script, _, capacities) = scripts::script_of(rng.of(&["mixed", "deep", "moves", "branches", "small"]), rng);
    let mut store = reading::start(capacities, u64::MAX).unwrap();
    store.script(&script, usize::MAX, usize::MAX);
    let uses: Vec<u32> = store.ops.values().flat_map(|o| o.operands.iter().chain(&o.successors).map(|x| x.0)).collect();
    let live: [Vec<u32>; 5] = [
        store.ops.keys().copied().collect(),
        store.blocks.keys().copied().collect(),
        store.regions.keys().copied().collect(),
        store.values.keys().copied().collect(),
        uses,
    ];
    let places: Places = std::array::from_fn(|k| {
        let mut free: Vec<usize> = (0..capacities[k] as usize).collect();
        live[k].iter().map(|&n| (free.swap_remove(rng.below(free.len())), n)).collect::<BTreeMap<_, _>>()
    });
    if rng.percent(30) {
        // numbers nearly spent
        for k in 0..5 {
            store.born[k] = rng.of(&[store.born[k], u32::MAX as u64, u32::MAX as u64 - 1, u32::MAX as u64 - 2]);
        }
    }
    let words = words::write(&store, &places);
    (store, places, words)
}

fn damage_words(words: &mut Vec<u32>, rng: &mut Rng) {
    let n = words.len();
    let near = |rng: &mut Rng, at: usize| (at + rng.below(9)).min(n - 1);
    for _ in 0..1 + rng.below(2) {
        let at = rng.below(n);
        match rng.below(9) {
            0 => words[at] = words[at].wrapping_add(1),
            1 => words[at] = words[at].wrapping_sub(1),
            2 => words[at] = 0,
            3 => words[at] = rng.below(70) as u32,
            4 => words[at] ^= 1 << rng.below(32),
            5 => {
                let other = near(rng, at);
                words.swap(at, other);
            }
            6 => words[rng.below(5)] = rng.below(130) as u32,
            7 => {
                let held: Vec<usize> = (0..n).filter(|&k| words[k] != 0).collect();
                let (a, b) = (rng.of(&held), rng.of(&held));
                words[a] = words[b];
            }
            _ => {
                let held: Vec<usize> = (0..n).filter(|&k| words[k] != 0).collect();
                let a = rng.of(&held);
                words[a] = rng.of(&[0, 1, words[a].wrapping_add(1), words[a] - 1]);
            }
        }
    }
    if rng.percent(5) {
        words.truncate(n - 1 - rng.below(n / 2));
    }
}

/// One damaged store: the check says what the reading of the words says, and an unsound one is refused by 6, untouched.
fn damaged(rng: &mut Rng, sound_met: &mut u64) -> Outcome {
    let (_, _, mut words) = scattered(rng);
    expect(interface::is_sound(&words), "a sound store at scattered places is called unsound")?;
    damage_words(&mut words, rng);
    let sound = words::read(&words).is_some();
    *sound_met += sound as u64;
    expect_or(interface::is_sound(&words) == sound, || format!("the check does not say {sound}"))?;
    if sound {
        return Ok(());
    }
    let sum = words.len();
    words.extend([KEPT; SPARE].iter().take(if sum < 50 { 0 } else { SPARE }));
    // a damaged header may make the spare words part of the store: then judge again with them
    if words::read(&words).is_some() {
        return Ok(());
    }
    let before = words.clone();
    let mut lent = Lent { sum, scratch: 4096, words };
    let record = crate::record::script("2 0");
    expect(lent.edit(&record, 4096)? == [6, 0, 0], "an edit on an unsound store does not get 6")?;
    expect(lent.edit(&record[..3], 4096)? == [1, 0, 0], "a broken record on an unsound store does not get 1")?;
    expect(lent.script(&record, 0, 12)? == (vec![], 6), "a script on an unsound store does not get 6")?;
    expect(lent.script(&[], 4096, 12)? == (vec![], 6), "an empty script on an unsound store does not get 6")?;
    expect(lent.words == before, "a call refused by 6 has changed a word")?;
    let mut out = [0xA5; 64];
    let told = interface::listing(&lent.words, &[], &mut out);
    expect_or(told == (6, 0) && out == [0xA5; 64], || format!("the listing of an unsound store gives {told:?}"))?;
    reads(&lent.words, rng.percent(50), rng.below(3) as u32, rng.below(3), Err(6))
}

/// Single edits from a scattered store on, its numbers often nearly spent (21).
fn from_scattered(rng: &mut Rng, refused_21: &mut u64) -> Outcome {
    let (store, places, words) = scattered(rng);
    let standing = Standing::of(store.capacities, &places);
    let sum = words.len();
    let mut lent = Lent { words, sum, scratch: store.capacities[0] as usize };
    lent.words.extend([KEPT; SPARE]);
    let (script, _, _) = scripts::script_of("mixed", rng);
    let mut again = store.clone();
    *refused_21 += pieces(&script).iter().filter(|r| again.edit(r, usize::MAX)[0] == 21).count() as u64;
    let edits = edits_from(store, standing, &mut lent, &script, 0, rng).map(|_| ());
    edits.map_err(|why| format!("{why}; after a scattered store: {}", text(&script)))
}

/// A script over a store of the largest capacities, often with more births than fit a small one.
fn largest(rng: &mut Rng) -> Outcome {
    let (script, _, _) = scripts::script_of(rng.of(&["mixed", "lists", "erase"]), rng);
    by_script(&script, MOST, &expected(&script, MOST), rng).map(|_| ()).map_err(|why| format!("{why}; at the largest capacities: {}", text(&script)))
}

/// n of each: starts, damaged stores, edits on scattered stores; and some at the largest capacities.
pub fn damage(n: u64, seed: u64) -> usize {
    let (mut failures, mut sound, mut refused_21) = (0, 0, 0);
    for s in seed..seed + n {
        let mut rng = Rng(s.wrapping_mul(0x5851_F42D));
        let large = if s % 50 == 0 { largest(&mut rng) } else { Ok(()) };
        for outcome in [starts(&mut rng), damaged(&mut rng, &mut sound), from_scattered(&mut rng, &mut refused_21), large] {
            if let Err(why) = outcome {
                failures += 1;
                println!("DIFFERS seed {s}: {why}");
            }
        }
    }
    println!(
        "seeds {seed} to {}: {n} starts, {n} damaged stores ({sound} of them still sound), {n} scattered stores, {refused_21} edits refused by 21, {failures} differ",
        seed + n - 1
    );
    failures
}
