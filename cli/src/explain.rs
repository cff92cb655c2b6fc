//! What refusals and verdicts mean, and the tests of each edit in order.
use recipe_store::{Refusal, Verdict, NAMES};

/// The tests of the kinds 1 to 44 after those of the record, of the store (6) and of the scratch (22): first the fields from left to right, then the state.
pub const TESTS: [&[u32]; 44] = [
    &[10, 8, 20, 21],
    &[20, 21],
    &[7, 10, 19, 20, 21],
    &[7, 10, 12, 19, 20, 21],
    &[7, 10, 12, 21],
    &[7, 12],
    &[7, 12],
    &[7, 8, 19, 20, 21],
    &[7, 8, 12, 19, 20, 21],
    &[7, 8, 12, 21],
    &[7, 12],
    &[7, 12],
    &[7, 19, 20, 21],
    &[7, 12, 19, 20, 21],
    &[7, 12, 13],
    &[7, 12, 13],
    &[8, 19, 20, 21],
    &[8, 12, 19, 20, 21],
    &[8, 12, 13],
    &[8, 12, 13],
    &[7, 15, 16, 17],
    &[7, 15, 16, 17],
    &[7, 8, 15, 17],
    &[7, 8, 15, 17],
    &[7, 16],
    &[8, 15, 16, 17],
    &[8, 15, 16, 17],
    &[8, 9, 15, 17],
    &[8, 9, 15, 17],
    &[8, 16],
    &[9, 7, 17, 19],
    &[10, 11],
    &[8, 11],
    &[10],
    &[8, 18],
    &[7],
    &[8],
    &[9],
    &[7, 13, 14],
    &[8, 13, 14],
    &[7, 12, 14],
    &[7, 18],
    &[8, 18],
    &[9, 18],
];

/// The kinds whose fields have a limit of their own, refusal 4.
const LIMITED: [usize; 4] = [1, 2, 34, 35];

/// The rule behind each refusal.
const RULES: [&str; 22] = [
    "A record begins with its length in bytes: 4 to 2,048, a multiple of 4, and no more than the bytes that are left. A single edit is exactly one record. \
     In a script this is the last answer, because the start of the next record is not known.",
    "The kind stands after the length. The script goes on with the next record.",
    "A kind wants a fixed number of fields. Kinds 1 and 2 want as many more as their counts say, kinds 34 and 35 at least two. Too few for the fixed part is tested before 4, \
     any other wrong number after it.",
    "A new operation: flags 0 to 3 and at most 64 results, operands, successors and regions. A new block: at most 64 arguments. Replace-some and retarget-some list at most 256 numbers.",
    "A store is started with five capacities: 1 to 4,096 operations, 1,024 blocks, 1,024 regions, 8,192 values and 16,384 uses, in a buffer of at least the words that they add up to.",
    "Every call on a store checks all of its words: a single edit once its record is read, a script once, before its first record. A buffer that is no sound store is refused and kept as it is, and no answer is written.",
    "The field holds the birth number of an operation that was born and has not ended.",
    "The field holds the birth number of a block that was born and has not ended.",
    "The field holds the birth number of a region that was born and has not ended.",
    "The field holds the birth number of a value that was born and has not ended.",
    "A use is moved from the definition that has it. Where the old and the new definition are the same the edit is accepted without a look at the use.",
    "To insert, the index is at most the list's length; to replace, remove or erase, it is below it; to pop, the list has an entry.",
    "A result or argument is removed only if nothing uses it, its own operation included. An operation is erased only if no operation outside it uses its results; \
     a block only if none outside uses it, its arguments or the results of the operations directly in it.",
    "Nothing that lies deeper in what is erased may be used by an operation outside it. For a region that is everything in it, and the operation that has the region is outside.",
    "Only an unlinked operation or block is inserted; unlink it first.",
    "The mark of an insertion stands in a list, and so does what is unlinked.",
    "The block or region that gets the thing, or the operation that gets the region, may not be the thing itself nor lie inside it.",
    "To retarget uses of a block, and to judge a block, every operation that names it as a successor must stand in a block.",
    "Results, operands, successors, regions and arguments are lists of at most 64.",
    "Each kind has as many places as its capacity. All tables are tested before 21. Replacing an operand or successor takes over the old use's place and is not tested.",
    "A kind numbers its births from 0 to 4,294,967,294, and a number is never given again.",
    "The scratch has a word for each operation place; the answers have three words for each record; a list of uses has a word for each use. \
     The scratch is tested after 6, room for an answer before its record is looked at, a list of uses last.",
];

/// Which edits test it: their kinds, or what to say in their place.
fn given_by(refusal: u32) -> Result<Vec<usize>, &'static str> {
    match refusal {
        1 | 2 => Err("any record"),
        4 => Ok(LIMITED.to_vec()),
        3 => Err("every kind"),
        5 => Err("the start of a store; no edit"),
        6 => Err("every call that reads or changes a store"),
        22 => Err("every edit and script (scratch, answers), the readers of uses (list)"),
        _ => Ok((1..=44).filter(|kind| TESTS[kind - 1].contains(&refusal)).collect()),
    }
}

fn edit_line(kind: usize) -> String {
    // The counts of kinds 1 and 2 are looked at before it is known how many fields there must be.
    let record: &[u32] = match kind {
        1 | 2 => &[1, 2, 3, 4, 3],
        34 | 35 => &[1, 2, 3, 4],
        _ => &[1, 2, 3],
    };
    let tests = [record, &[6, 22], TESTS[kind - 1]].concat();
    let numbers: String = tests.iter().map(|test| format!(" {test}")).collect();
    format!("  {kind:2} {:22}{numbers}\n", NAMES[kind - 1])
}

fn refusal_text(refusal: Refusal) -> String {
    let head = format!("refusal {}: {}\nrule: {}\n", refusal.number(), refusal.meaning(), RULES[refusal.number() as usize - 1]);
    match given_by(refusal.number()) {
        Err(givers) => format!("{head}given by: {givers}\n"),
        Ok(kinds) => {
            let lines: String = kinds.into_iter().map(edit_line).collect();
            format!("{head}given by, with the tests of a single edit in order (the first that holds is the reply; a script tests 6 and 22 first):\n{lines}")
        }
    }
}

fn verdict_text(number: usize) -> String {
    format!("verdict {number}: {}\n", Verdict::MEANINGS[number])
}

fn kind_text(kind: usize) -> String {
    let line = edit_line(kind);
    let meanings = TESTS[kind - 1].iter().filter_map(|test| Refusal::from_number(*test)).map(|refusal| format!("{refusal}\n"));
    format!("kind, name, and the tests of a single edit in order (a script tests 6 and 22 first):\n{line}{}", meanings.collect::<String>())
}

fn all() -> String {
    let refusals = Refusal::ALL.iter().map(|refusal| format!("{refusal}\n"));
    refusals.chain((0..Verdict::MEANINGS.len()).map(verdict_text)).collect()
}

pub fn explain(words: &[String]) -> Result<String, String> {
    let words: Vec<&str> = words.iter().map(String::as_str).collect();
    let number = |word: &str| word.parse::<usize>().ok();
    match words[..] {
        [] => Ok(all()),
        ["verdict", word] => number(word).filter(|n| *n <= 4).map(verdict_text).ok_or_else(|| format!("no verdict {word}: they are 0 to 4")),
        ["kind", word] => number(word).filter(|n| (1..=44).contains(n)).map(kind_text).ok_or_else(|| format!("no kind {word}: they are 1 to 44")),
        [word] => match NAMES.iter().position(|name| *name == word) {
            Some(index) => Ok(kind_text(index + 1)),
            None => {
                let refusal = word.parse().ok().and_then(Refusal::from_number);
                refusal.map(refusal_text).ok_or_else(|| format!("no refusal or edit {word}: refusals are 1 to 22"))
            }
        },
        _ => Err("explain takes a number, a name, `verdict N` or `kind N`".to_string()),
    }
}
