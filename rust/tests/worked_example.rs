//! The worked example of README.md, as typed edits, as single edits and as one script.
mod common;
use recipe_store::{Answer, Block, Capacities, Edit, Flags, Operation, Refusal, Reply, ScriptWriter, Store, Type, Use, Value};

const SIZE: Capacities = common::PROGRAM;

fn edits() -> [Edit<'static>; 6] {
    [
        Edit::NewBlock { arguments: &[Type(7)] },
        Edit::NewOperation { flags: Flags::None, results: &[Type(7)], operands: &[Value(0), Value(0)], successors: &[], regions: 0 },
        Edit::LinkOperationBack { operation: Operation(0), block: Block(0) },
        Edit::RemoveOperand { operation: Operation(0), index: 0 },
        Edit::PushOperand { operation: Operation(0), value: Value(1) },
        Edit::RemoveArgument { block: Block(0), index: 0 },
    ]
}

/// The indented block of README.md that begins with `edit 0`, without its indent.
fn output_in_readme() -> String {
    let text = String::from_utf8(common::read("README.md")).unwrap();
    let from = text.lines().skip_while(|line| !line.starts_with("    edit 0 "));
    from.take_while(|line| line.starts_with("    ")).map(|line| format!("{}\n", &line[4..])).collect()
}

#[test]
fn the_edits_are_the_bytes_of_the_example() {
    let mut bytes = [0; 256];
    let mut script = ScriptWriter::new(&mut bytes);
    edits().iter().for_each(|edit| script.push(edit).unwrap());
    assert_eq!(script.script(), common::read("examples/first.bin"));
}

#[test]
fn a_script_prints_what_the_readme_says() {
    let mut words = vec![0xdead_beef; SIZE.store_words()];
    let mut scratch = vec![0xdead_beef; SIZE.scratch_words()];
    let mut store = Store::start(&mut words, &mut scratch, SIZE).unwrap();
    let mut answers = [Answer::default(); 6];
    let ran = store.script(&common::read("examples/first.bin"), &mut answers);
    assert_eq!((ran.answers.len(), ran.ended), (6, None));
    let mut out = vec![0; SIZE.listing_bytes(6)];
    assert_eq!(store.view().listing(ran.answers, &mut out).unwrap(), output_in_readme());
    assert!(scratch.iter().all(|&word| word == 0));
}

#[test]
fn single_edits_reply_with_types() {
    let mut words = vec![0; SIZE.store_words()];
    let mut scratch = vec![0; SIZE.scratch_words()];
    let mut store = Store::start(&mut words, &mut scratch, SIZE).unwrap();
    let replies = edits().map(|edit| store.apply(&edit));
    let expected = [
        Ok(Reply::Block(Block(0))),
        Ok(Reply::Operation(Operation(0))),
        Ok(Reply::Done),
        Ok(Reply::Value(Value(0))),
        Ok(Reply::Index(1)),
        Err(Refusal::StillUsed),
    ];
    assert_eq!(replies, expected);
    let mut uses = [Use(9); 4];
    assert_eq!(store.view().value_uses(Value(0), &mut uses).unwrap(), [Use(1)]);
    assert_eq!(store.view().value_uses(Value(1), &mut uses).unwrap(), [Use(2)]);
    assert_eq!(store.view().value_uses(Value(2), &mut uses), Err(Refusal::NoValue));
    assert_eq!(store.view().block_uses(Block(0), &mut uses).unwrap(), []);
    assert_eq!(store.view().block_uses(Block(1), &mut uses), Err(Refusal::NoBlock));
    assert_eq!(store.view().value_uses(Value(0), &mut []), Err(Refusal::BufferShort));
    let (births, live) = (store.view().births(), store.view().live());
    assert_eq!([births.operations, births.blocks, births.regions, births.values, births.uses], [1, 1, 0, 2, 3]);
    assert_eq!([live.operations, live.blocks, live.regions, live.values, live.uses], [1, 1, 0, 2, 2]);
}

#[test]
fn a_store_is_taken_up_again() {
    let mut words = vec![0; SIZE.store_words()];
    let mut scratch = vec![0; SIZE.scratch_words()];
    Store::start(&mut words, &mut scratch, SIZE).unwrap().new_block(&[]).unwrap();
    let mut copy = words.clone();
    let mut store = Store::open(&mut copy, &mut scratch).unwrap();
    assert_eq!(store.view().capacities(), SIZE);
    assert_eq!(store.new_block(&[]), Ok(Block(1)));
    assert_eq!(Store::open(&mut copy, &mut scratch[1..]).unwrap_err(), Refusal::BufferShort);
    assert_eq!(Store::open(&mut copy[1..], &mut scratch).unwrap_err(), Refusal::NotSound);
}
