//! Stores on several threads, readers of one store at the same time, and the deepest nest on a stack of 1 MiB.
mod common;
use recipe_store::*;
use std::thread;

fn is_sendable<T: Send + Sync>() {}

#[test]
fn stores_go_between_threads() {
    is_sendable::<Store<'static>>();
    is_sendable::<View<'static>>();
}

#[test]
fn each_thread_has_its_own_store() {
    let entries = common::recorded();
    let run = |(script, expected): &(Vec<u8>, Vec<u8>)| {
        let (mut words, mut scratch) = (vec![0; common::PROGRAM.store_words()], vec![0; common::PROGRAM.scratch_words()]);
        let mut answers = vec![Answer::default(); script.len() / 4 + 1];
        let mut store = Store::start(&mut words, &mut scratch, common::PROGRAM).unwrap();
        let ran = store.script(script, &mut answers);
        let mut out = vec![0; common::PROGRAM.listing_bytes(ran.answers.len())];
        assert_eq!(store.view().listing(ran.answers, &mut out).unwrap().as_bytes(), expected);
        // Others read what this thread has written.
        let view = store.view();
        thread::scope(|scope| {
            for _ in 0..2 {
                scope.spawn(move || view.listing(&[], &mut vec![0; common::PROGRAM.listing_bytes(0)]).map(str::len).unwrap());
            }
        });
    };
    let short: Vec<_> = entries.iter().filter(|(script, _)| script.len() <= common::SCRIPT_BYTES).take(200).collect();
    thread::scope(|scope| {
        for part in short.chunks(50) {
            scope.spawn(move || part.iter().for_each(|entry| run(entry)));
        }
    });
}

/// A nest of operations, each in a block in a region of the one before: as deep as the regions reach.
fn deepest_nest(store: &mut Store<'_>, depth: u32, bytes: &mut [u8]) {
    let mut script = ScriptWriter::new(bytes);
    for level in 0..depth {
        let edits = [
            Edit::NewOperation { flags: Flags::OpenBlocks, results: &[], operands: &[], successors: &[], regions: 1 },
            Edit::NewBlock { arguments: &[] },
            Edit::LinkBlockBack { block: Block(level), region: Region(level) },
        ];
        edits.iter().for_each(|edit| script.push(edit).unwrap());
        if level > 0 {
            script.push(&Edit::LinkOperationBack { operation: Operation(level), block: Block(level - 1) }).unwrap();
        }
    }
    let mut answers = vec![Answer::default(); 4 * depth as usize];
    let ran = store.script(script.script(), &mut answers);
    assert!(ran.ended.is_none() && ran.answers.iter().all(|answer| answer.refusal == 0));
}

fn judge_and_erase() {
    let size = Capacities::LARGEST;
    let (mut words, mut scratch) = (vec![0; size.store_words()], vec![0; size.scratch_words()]);
    let mut store = Store::start(&mut words, &mut scratch, size).unwrap();
    deepest_nest(&mut store, size.regions, &mut vec![0; 100_000]);
    assert_eq!(store.verdict_operation(Operation(0)), Ok(Verdict::Clean));
    assert_eq!(store.move_region(Region(0), Operation(1023)), Err(Refusal::InsideItself));
    assert_eq!(store.drop_operation(Operation(0)), Ok(Dropped { uses: 0 }));
    assert_eq!(store.erase_operation(Operation(0)), Ok(Erased { operations: 1024, uses: 0 }));
    assert_eq!(store.view().live(), Counts::default());
}

#[test]
fn the_deepest_nest_takes_less_than_a_mebibyte_of_stack() {
    thread::Builder::new().stack_size(1 << 20).spawn(judge_and_erase).unwrap().join().unwrap();
}
