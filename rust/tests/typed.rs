//! The typed edits against the bytes that `tools/script` assembles, and their replies.
mod common;
use recipe_store::*;
use std::{
    io::Write,
    process::{Command, Stdio},
};

fn assemble(text: &str) -> Vec<u8> {
    let mut command = Command::new("python3");
    command.arg(common::root().join("tools/script")).arg("assemble").stdin(Stdio::piped()).stdout(Stdio::piped());
    let mut child = command.spawn().expect("python3 runs");
    child.stdin.take().unwrap().write_all(text.as_bytes()).unwrap();
    let output = child.wait_with_output().unwrap();
    assert!(output.status.success());
    output.stdout
}

/// Each edit with its fields as `tools/script` reads them.
fn table() -> Vec<(Edit<'static>, &'static str)> {
    let (operation, mark, block, region, value) = (Operation(1), Operation(2), Block(3), Region(4), Value(5));
    let (moved, other, of_type, index) = (Use(6), Value(7), Type(8), 9);
    let (block_mark, other_block) = (Block(10), Block(4_294_967_295));
    vec![
        (
            Edit::NewOperation {
                flags: Flags::TerminatorWithOpenBlocks,
                results: &[Type(1), Type(2)],
                operands: &[Value(3)],
                successors: &[Block(4), Block(5), Block(6)],
                regions: 7,
            },
            "flags 3 results 1 2 operands 3 successors 4 5 6 regions 7",
        ),
        (Edit::NewBlock { arguments: &[Type(1), Type(70_000)] }, "1 70000"),
        (Edit::PushOperand { operation, value }, "1 5"),
        (Edit::InsertOperand { operation, index, value }, "1 9 5"),
        (Edit::ReplaceOperand { operation, index, value }, "1 9 5"),
        (Edit::RemoveOperand { operation, index }, "1 9"),
        (Edit::PopOperand { operation }, "1"),
        (Edit::PushSuccessor { operation, block }, "1 3"),
        (Edit::InsertSuccessor { operation, index, block }, "1 9 3"),
        (Edit::ReplaceSuccessor { operation, index, block }, "1 9 3"),
        (Edit::RemoveSuccessor { operation, index }, "1 9"),
        (Edit::PopSuccessor { operation }, "1"),
        (Edit::PushResult { operation, of_type }, "1 8"),
        (Edit::InsertResult { operation, index, of_type }, "1 9 8"),
        (Edit::RemoveResult { operation, index }, "1 9"),
        (Edit::PopResult { operation }, "1"),
        (Edit::PushArgument { block, of_type }, "3 8"),
        (Edit::InsertArgument { block, index, of_type }, "3 9 8"),
        (Edit::RemoveArgument { block, index }, "3 9"),
        (Edit::PopArgument { block }, "3"),
        (Edit::LinkOperationAfter { operation, mark }, "1 2"),
        (Edit::LinkOperationBefore { operation, mark }, "1 2"),
        (Edit::LinkOperationFront { operation, block }, "1 3"),
        (Edit::LinkOperationBack { operation, block }, "1 3"),
        (Edit::UnlinkOperation { operation }, "1"),
        (Edit::LinkBlockAfter { block, mark: block_mark }, "3 10"),
        (Edit::LinkBlockBefore { block, mark: block_mark }, "3 10"),
        (Edit::LinkBlockFront { block, region }, "3 4"),
        (Edit::LinkBlockBack { block, region }, "3 4"),
        (Edit::UnlinkBlock { block }, "3"),
        (Edit::MoveRegion { region, operation }, "4 1"),
        (Edit::MoveValueUse { this: value, moved, other }, "5 6 7"),
        (Edit::MoveBlockUse { this: block, moved, other: other_block }, "3 6 4294967295"),
        (Edit::ReplaceSome { this: value, other, uses: &[Use(1), Use(2)] }, "5 7 1 2"),
        (Edit::RetargetSome { this: block, other: other_block, blocks: &[Block(1)] }, "3 4294967295 1"),
        (Edit::DropOperation { operation }, "1"),
        (Edit::DropBlock { block }, "3"),
        (Edit::DropRegion { region }, "4"),
        (Edit::EraseOperation { operation }, "1"),
        (Edit::EraseBlock { block }, "3"),
        (Edit::EraseRegion { operation, index }, "1 9"),
        (Edit::VerdictOperation { operation }, "1"),
        (Edit::VerdictBlock { block }, "3"),
        (Edit::VerdictRegion { region }, "4"),
    ]
}

#[test]
fn every_kind_has_the_bytes_of_its_text() {
    let table = table();
    let kinds: Vec<u16> = table.iter().map(|(edit, _)| edit.kind()).collect();
    assert_eq!(kinds, (1..=44).collect::<Vec<u16>>());
    let text: String = table.iter().map(|(edit, fields)| format!("{} {fields}\n", edit.name())).collect();
    let mut bytes = [0; 2048];
    let mut script = ScriptWriter::new(&mut bytes);
    table.iter().for_each(|(edit, _)| script.push(edit).unwrap());
    assert_eq!(script.script(), assemble(&text));
    let records = common::records(script.script());
    assert_eq!(records.iter().map(|(kind, _)| *kind).collect::<Vec<_>>(), kinds);
}

#[test]
fn a_record_that_does_not_fit() {
    let edit = Edit::PopOperand { operation: Operation(1) };
    for length in 0..8 {
        let mut bytes = vec![0xa5; length];
        assert_eq!(edit.encode(&mut bytes), Err(DoesNotFit { bytes: 8 }));
        assert!(bytes.iter().all(|&byte| byte == 0xa5));
    }
    let many = [Use(0); 510];
    let mut bytes = [0; 4096];
    let listing = |count: usize| Edit::ReplaceSome { this: Value(0), other: Value(0), uses: &many[..count] };
    assert_eq!(listing(509).encode(&mut bytes).unwrap().len(), 2048);
    assert_eq!(listing(510).encode(&mut bytes), Err(DoesNotFit { bytes: 2052 }));
    let (mut words, mut scratch) = (vec![0; common::PROGRAM.store_words()], vec![0; 128]);
    let mut store = Store::start(&mut words, &mut scratch, common::PROGRAM).unwrap();
    store.new_block(&[Type(0)]).unwrap();
    assert_eq!(store.apply(&listing(256)), Ok(Reply::Done));
    assert_eq!(store.apply(&listing(257)), Err(Refusal::FieldLimit));
    assert_eq!(store.apply(&listing(510)), Err(Refusal::BadLength));
}

#[test]
fn refusals_and_verdicts_have_their_numbers() {
    for (index, refusal) in Refusal::ALL.iter().enumerate() {
        assert_eq!(refusal.number() as usize, index + 1);
        assert_eq!(Refusal::from_number(refusal.number()), Some(*refusal));
        assert!(refusal.to_string().starts_with(&format!("refusal {}: ", index + 1)));
    }
    assert_eq!([0, 23, u32::MAX].map(Refusal::from_number), [None; 3]);
    let verdicts = (0..=4).map(|a| Answer { refusal: 0, a, b: 6 }.reply(43).unwrap());
    let expected = [
        Verdict::Clean,
        Verdict::BlockInNoRegion(Block(6)),
        Verdict::NoTerminator(Block(6)),
        Verdict::TerminatorNotLast(Operation(6)),
        Verdict::NotReached(Block(6)),
    ];
    assert!(verdicts.eq(expected.map(Reply::Verdict)));
    assert!((0..=4).eq(expected.map(|verdict| verdict.number())));
}

#[test]
fn methods_reply_with_their_types() {
    let (mut words, mut scratch) = (vec![0; common::PROGRAM.store_words()], vec![0; 128]);
    let mut store = Store::start(&mut words, &mut scratch, common::PROGRAM).unwrap();
    let outer = store.new_operation(Flags::OpenBlocks, &[], &[], &[], 2).unwrap();
    let block = store.new_block(&[Type(1), Type(2)]).unwrap();
    assert_eq!(store.verdict_block(block), Ok(Verdict::BlockInNoRegion(block)));
    store.link_block_back(block, Region(0)).unwrap();
    let inner = store.new_operation(Flags::None, &[Type(3)], &[Value(0)], &[], 0).unwrap();
    store.link_operation_front(inner, block).unwrap();
    assert_eq!(store.push_operand(inner, Value(1)), Ok(1));
    assert_eq!(store.push_successor(inner, block), Ok(0));
    assert_eq!(store.push_argument(block, Type(9)), Ok(2));
    assert_eq!(store.pop_operand(inner), Ok(Value(1)));
    assert_eq!(store.remove_successor(inner, 0), Ok(block));
    assert_eq!(store.verdict_operation(outer), Ok(Verdict::Clean));
    assert_eq!(store.drop_region(Region(0)), Ok(Dropped { uses: 1 }));
    assert_eq!(store.erase_region(outer, 0), Ok(Erased { operations: 1, uses: 0 }));
    assert_eq!(store.erase_operation(outer), Ok(Erased { operations: 1, uses: 0 }));
    assert_eq!(store.view().live(), Counts::default());
}
