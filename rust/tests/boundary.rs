//! The boundary: any lengths, any contents. Every call replies by its contract, and a refusal keeps every word.
mod common;
use recipe_store::{raw, Capacities, Edit, Flags, Refusal, ScriptWriter, Store, Type, Use, Value};

const SMALLEST: [u32; 5] = [1; 5];
const SMALL: Capacities = Capacities { operations: 3, blocks: 2, regions: 2, values: 4, uses: 5 };
const OLD: u32 = 0xa5a5_a5a5;
const NEW_BLOCK: [u8; 8] = [8, 0, 2, 0, 0, 0, 0, 0];

/// A small store with an operation in a block in a region, an argument used twice, and a successor.
fn small_store() -> Vec<u32> {
    let (mut words, mut scratch) = (vec![0; SMALL.store_words()], [0; 3]);
    let mut store = Store::start(&mut words, &mut scratch, SMALL).unwrap();
    let block = store.new_block(&[Type(7)]).unwrap();
    let outer = store.new_operation(Flags::OpenBlocks, &[], &[], &[], 1).unwrap();
    store.link_block_back(block, recipe_store::Region(0)).unwrap();
    let inner = store.new_operation(Flags::Terminator, &[Type(9)], &[Value(0), Value(0)], &[block], 0).unwrap();
    store.link_operation_back(inner, block).unwrap();
    assert_eq!(store.verdict_operation(outer).unwrap(), recipe_store::Verdict::Clean);
    words
}

/// A scratch full of old words is lent; it must be all zeros after the call.
fn with_scratch<T>(length: usize, call: impl FnOnce(&mut [u32]) -> T) -> T {
    let mut scratch = vec![OLD; length];
    let reply = call(&mut scratch);
    assert!(scratch.iter().all(|&word| word == 0));
    reply
}

fn edit(store: &mut [u32], scratch: usize, record: &[u8], answer: &mut [u32]) -> u32 {
    with_scratch(scratch, |scratch| raw::edit(store, scratch, record, answer))
}

fn script(store: &mut [u32], scratch: usize, script: &[u8], answers: &mut [u32]) -> (u32, u64) {
    with_scratch(scratch, |scratch| raw::script(store, scratch, script, answers))
}

/// Every reading and changing call on words that are no sound store: 6, and no word is changed. What comes before 6 comes first.
fn refused_with_6(words: &[u32]) {
    let mut store = words.to_vec();
    let (mut answers, mut uses, mut out) = ([OLD; 7], [OLD; 9], [0xa5; 64]);
    assert_eq!(edit(&mut store, 8, &NEW_BLOCK, &mut answers), 6);
    assert_eq!(edit(&mut store, 0, &NEW_BLOCK, &mut answers[..3]), 6);
    assert_eq!(edit(&mut store, 8, &NEW_BLOCK, &mut answers[..2]), 22);
    assert_eq!(script(&mut store, 8, &NEW_BLOCK, &mut answers), (6, 0));
    assert_eq!(raw::value_uses(&store, 0, &mut uses), (6, 0));
    assert_eq!(raw::block_uses(&store, 0, &mut uses), (6, 0));
    assert_eq!(raw::listing(&store, &answers, &mut out), (6, 0));
    assert_eq!(raw::listing(&store, &[], &mut []), (6, 0));
    assert!(store == words && answers == [OLD; 7] && uses == [OLD; 9] && out == [0xa5; 64]);
    assert_eq!(edit(&mut store, 8, &NEW_BLOCK[..7], &mut answers), 1);
    assert_eq!(answers, [1, 0, 0, OLD, OLD, OLD, OLD]);
    assert_eq!(Store::open(&mut store, &mut [0; 8]).unwrap_err(), Refusal::NotSound);
    assert_eq!(store, words);
}

#[test]
fn short_stores_of_any_contents() {
    for length in 0..=40 {
        let counting: Vec<u32> = (0..length).collect();
        for words in [vec![0; length as usize], vec![1; length as usize], vec![u32::MAX; length as usize], counting] {
            assert!(!raw::check(&words));
            refused_with_6(&words);
            let mut store = words.clone();
            assert_eq!(raw::start(&mut store, SMALLEST), 5);
            assert_eq!(store, words);
        }
    }
}

#[test]
fn a_start_wants_the_sum() {
    for length in 0..=80 {
        let mut words = vec![OLD; length];
        let code = raw::start(&mut words, SMALLEST);
        assert_eq!(code, if length < 73 { 5 } else { 0 });
        assert!(words[length.min(73) * usize::from(code == 0)..].iter().all(|&word| word == OLD));
        assert_eq!(raw::check(&words), code == 0);
    }
}

#[test]
fn a_refused_start_changes_nothing() {
    let none = Capacities { blocks: 0, ..SMALL };
    let over = Capacities { values: 8193, ..SMALL };
    let long = SMALL.store_words();
    let refused = [
        (none, 2 * long, 0, Refusal::BadStart),
        (over, 2 * long, 3, Refusal::BadStart),
        (SMALL, long - 1, 2, Refusal::BadStart),
        (SMALL, long - 1, 3, Refusal::BadStart),
        (SMALL, long, 2, Refusal::BufferShort),
    ];
    for (capacities, words, scratch, refusal) in refused {
        let (mut words, mut scratch) = (vec![OLD; words], vec![OLD; scratch]);
        assert_eq!(Store::start(&mut words, &mut scratch, capacities).unwrap_err(), refusal);
        assert!(words.iter().chain(&scratch).all(|&word| word == OLD));
    }
}

#[test]
fn sizes_agree_with_the_library() {
    let limits = Capacities::LARGEST;
    let ends = |limit: u32| [0, 1, 2, 63, 64, 65, limit - 1, limit, limit + 1, u32::MAX];
    for operations in ends(limits.operations) {
        for blocks in ends(limits.blocks) {
            for regions in ends(limits.regions) {
                for values in ends(limits.values) {
                    for uses in ends(limits.uses) {
                        let capacities = Capacities { operations, blocks, regions, values, uses };
                        assert_eq!(capacities.store_words(), raw::words([operations, blocks, regions, values, uses]));
                    }
                }
            }
        }
    }
}

#[test]
fn sizes_are_those_of_the_documentation() {
    let text = String::from_utf8(common::read("docs/EMBEDDING.md")).unwrap();
    let grouped = |bytes: usize| match (bytes / 1_000_000, bytes / 1000 % 1000, bytes % 1000) {
        (0, 0, ones) => format!("{ones}"),
        (0, thousands, ones) => format!("{thousands},{ones:03}"),
        (millions, thousands, ones) => format!("{millions},{thousands:03},{ones:03}"),
    };
    let sizes = [[1; 5], [8, 4, 4, 16, 32], [128, 64, 64, 256, 512], [4096, 1024, 1024, 8192, 16384]];
    for [operations, blocks, regions, values, uses] in sizes {
        let capacities = Capacities { operations, blocks, regions, values, uses };
        let row = format!("| {} bytes | {} bytes |\n", grouped(4 * capacities.store_words()), grouped(4 * capacities.scratch_words()));
        assert!(text.contains(&row), "{row}");
    }
}

#[test]
fn scratch_of_every_length() {
    for length in 0..=5 {
        let mut words = small_store();
        let before = words.clone();
        let mut answers = [OLD; 3];
        let expected = if length < 3 { 22 } else { 0 };
        let unlink = [8, 0, 25, 0, 1, 0, 0, 0];
        assert_eq!(edit(&mut words, length, &unlink, &mut answers), expected);
        assert_eq!(answers, [expected, 0, 0]);
        assert_eq!(words == before, expected == 22);
        let (mut words, mut answers) = (before.clone(), [OLD; 3]);
        assert_eq!(script(&mut words, length, &unlink, &mut answers), (expected, u64::from(expected == 0)));
        assert_eq!(answers, if expected == 0 { [0; 3] } else { [OLD; 3] });
        assert_eq!(words == before, expected == 22);
        assert_eq!(Store::open(&mut words, &mut vec![0; length]).err(), Refusal::from_number(expected));
    }
}

#[test]
fn answers_of_every_length() {
    let records = [[8, 0, 36, 0, 1, 0, 0, 0], [8, 0, 99, 0, 0, 0, 0, 0]].concat();
    for length in 0..=8 {
        let mut words = small_store();
        let before = words.clone();
        let mut answers = vec![OLD; length];
        let written = (length / 3).min(2);
        assert_eq!(script(&mut words, 3, &records, &mut answers), (if written < 2 { 22 } else { 0 }, written as u64));
        assert_eq!(answers[..3 * written], [0, 0, 3, 2, 0, 0][..3 * written]);
        assert!(answers[3 * written..].iter().all(|&word| word == OLD));
        assert_eq!(words == before, written == 0);
        let mut words = before.clone();
        let mut answer = vec![OLD; length];
        assert_eq!(edit(&mut words, 3, &records[..8], &mut answer), if length < 3 { 22 } else { 0 });
        assert_eq!(words == before, length < 3);
        let written = if length < 3 { 0 } else { 3 };
        assert_eq!(answer[..written], [0, 0, 3][..written]);
        assert!(answer[written..].iter().all(|&word| word == OLD));
        // A listing shows whole answers alone.
        let mut out = [0; 512];
        let (code, lines) = raw::listing(&words, &vec![0; length], &mut out);
        assert_eq!(code, 0);
        assert_eq!(out[..lines as usize].windows(5).filter(|part| *part == b"edit ").count(), length / 3);
    }
}

#[test]
fn records_of_every_length() {
    let mut words = small_store();
    let before = words.clone();
    for length in (0..=40).chain([2047, 2048, 2049, 5000]) {
        for byte in [0, 1, 4, 255] {
            let record = vec![byte; length];
            let mut answer = [OLD; 3];
            let code = edit(&mut words, 3, &record, &mut answer);
            assert!((1..=4).contains(&code), "{code} for {length} bytes of {byte}");
            assert!(answer == [code, 0, 0] && words == before);
        }
    }
}

#[test]
fn empty_slices() {
    refused_with_6(&[]);
    assert_eq!(raw::start(&mut [], SMALLEST), 5);
    assert_eq!(raw::edit(&mut [], &mut [], &[], &mut []), 22);
    assert_eq!(raw::edit(&mut [], &mut [], &[], &mut [OLD; 3]), 1);
    assert_eq!(raw::script(&mut [], &mut [], &[], &mut []), (6, 0));
    let mut words = small_store();
    assert_eq!(raw::script(&mut words, &mut [], &[], &mut []), (22, 0));
    assert_eq!(raw::script(&mut words, &mut [0; 3], &[], &mut []), (0, 0));
    assert_eq!(raw::value_uses(&words, 0, &mut []), (22, 0));
    assert_eq!(raw::value_uses(&words, 1, &mut []), (0, 0));
    assert_eq!(raw::listing(&words, &[], &mut []), (0, 0));
}

#[test]
fn use_lists_of_every_length() {
    let words = small_store();
    let view = recipe_store::View::open(&words).unwrap();
    for length in 0..=4 {
        let mut uses = vec![Use(OLD); length];
        let expected: Result<&[Use], Refusal> = if length < 2 { Err(Refusal::BufferShort) } else { Ok(&[Use(0), Use(1)]) };
        assert_eq!(view.value_uses(Value(0), &mut uses), expected);
        assert!(uses[if length < 2 { 0 } else { 2 }..].iter().all(|&number| number == Use(OLD)));
    }
    assert_eq!(view.block_uses(recipe_store::Block(0), &mut [Use(OLD)]).unwrap(), [Use(2)]);
}

#[test]
fn listings_of_every_length() {
    let words = small_store();
    let view = recipe_store::View::open(&words).unwrap();
    let mut out = vec![0; SMALL.listing_bytes(0)];
    let whole = view.listing(&[], &mut out).unwrap().to_string();
    for length in 0..=whole.len() + 1 {
        let mut out = vec![0xa5; length + 3];
        assert_eq!(raw::listing(&words, &[], &mut out[..length]), (0, length.min(whole.len()) as u64));
        assert_eq!(out[..length.min(whole.len())], whole.as_bytes()[..length.min(whole.len())]);
        assert!(out[length..].iter().all(|&byte| byte == 0xa5));
        assert_eq!(view.listing(&[], &mut out[..length]).is_ok(), length > whole.len());
    }
}

/// A store whose counts of births are nearly spent, so that numbers have ten digits: each has as many left as its kind has places.
fn nearly_spent() -> Vec<u32> {
    let mut words = vec![0; SMALL.store_words()];
    assert_eq!(raw::start(&mut words, [3, 2, 2, 4, 5]), 0);
    let mut at = 5;
    for places in [3, 2, 2, 4, 5] {
        words[at] = u32::MAX - places;
        at += 2 + 2 * places as usize + 2;
    }
    words
}

#[test]
fn the_longest_listing_fits_and_numbers_are_spent() {
    use recipe_store::{Block, Operation, Region};
    let (mut words, mut scratch) = (nearly_spent(), [0; 3]);
    let mut store = Store::open(&mut words, &mut scratch).unwrap();
    let [operation, block, region, value] = [3, 2, 2, 4].map(|places| u32::MAX - places);
    let (long, flags) = (Type(u32::MAX), Flags::TerminatorWithOpenBlocks);
    assert_eq!(store.new_block(&[long]), Ok(Block(block)));
    assert_eq!(store.new_block(&[]), Ok(Block(block + 1)));
    assert_eq!(store.new_operation(flags, &[long, long], &[Value(value)], &[Block(block)], 2), Ok(Operation(operation)));
    store.link_block_back(Block(block), Region(region)).unwrap();
    store.link_block_back(Block(block + 1), Region(region + 1)).unwrap();
    for number in [operation + 1, operation + 2] {
        assert_eq!(store.new_operation(flags, &[], &[Value(value)], &[], 0), Ok(Operation(number)));
        store.link_operation_back(Operation(number), Block(block)).unwrap();
    }
    assert_eq!(store.push_successor(Operation(operation), Block(block + 1)), Ok(1));
    assert_eq!(store.push_result(Operation(operation), long), Ok(2));
    let live = store.view().live();
    assert_eq!([live.operations, live.blocks, live.regions, live.values, live.uses], [3, 2, 2, 4, 5]);
    let answers = [recipe_store::Answer { refusal: 0, a: u32::MAX, b: u32::MAX }; 2];
    let mut out = vec![0; SMALL.listing_bytes(2)];
    let length = store.view().listing(&answers, &mut out).unwrap().len();
    assert!(length + 100 > out.len());
    assert_eq!(store.push_operand(Operation(operation), Value(value)), Err(Refusal::TableFull));
    assert_eq!(store.pop_successor(Operation(operation)), Ok(Block(block + 1)));
    assert_eq!(store.push_operand(Operation(operation), Value(value)), Err(Refusal::NumbersSpent));
}

/// The words of a sound store after damage: either they are refused and kept, or they are another sound store, on which edits go on.
fn survives(words: &[u32], records: &[u8]) {
    if !raw::check(words) {
        return refused_with_6(words);
    }
    let (mut store, mut answers) = (words.to_vec(), [OLD; 36]);
    assert_eq!(script(&mut store, 3, records, &mut answers), (0, 12));
    assert!(raw::check(&store));
    let mut out = vec![0; SMALL.listing_bytes(12)];
    let (code, length) = raw::listing(&store, &answers, &mut out);
    assert!(code == 0 && length > 0);
}

fn twelve_edits(bytes: &mut [u8]) -> usize {
    use recipe_store::{Block, Operation, Region};
    let mut script = ScriptWriter::new(bytes);
    let edits = [
        Edit::VerdictOperation { operation: Operation(0) },
        Edit::NewBlock { arguments: &[Type(1)] },
        Edit::PushOperand { operation: Operation(1), value: Value(1) },
        Edit::UnlinkOperation { operation: Operation(1) },
        Edit::LinkOperationFront { operation: Operation(1), block: Block(1) },
        Edit::MoveBlockUse { this: Block(0), moved: Use(2), other: Block(1) },
        Edit::PopOperand { operation: Operation(1) },
        Edit::RemoveResult { operation: Operation(1), index: 0 },
        Edit::DropBlock { block: Block(1) },
        Edit::MoveRegion { region: Region(0), operation: Operation(1) },
        Edit::EraseOperation { operation: Operation(1) },
        Edit::EraseBlock { block: Block(0) },
    ];
    edits.iter().for_each(|edit| script.push(edit).unwrap());
    script.script().len()
}

#[test]
fn each_word_damaged_in_turn() {
    let sound = small_store();
    let mut bytes = [0; 512];
    let length = twelve_edits(&mut bytes);
    survives(&sound, &bytes[..length]);
    let mut still_sound = 0;
    for at in 0..sound.len() {
        for other in [0, 1, 2, 3, sound[at].wrapping_add(1), sound[at].wrapping_sub(1), !sound[at], sound[at] ^ (1 << 31), u32::MAX] {
            let mut words = sound.clone();
            words[at] = other;
            survives(&words, &bytes[..length]);
            still_sound += u32::from(other != sound[at] && raw::check(&words));
        }
    }
    // Types, flags and birth counts may be others; a store is nothing but its words.
    assert!(still_sound > 0);
}

#[test]
fn two_words_damaged() {
    let sound = small_store();
    let mut bytes = [0; 512];
    let length = twelve_edits(&mut bytes);
    for first in 0..sound.len() {
        for second in 0..first {
            let mut words = sound.clone();
            words.swap(first, second);
            survives(&words, &bytes[..length]);
        }
    }
}
