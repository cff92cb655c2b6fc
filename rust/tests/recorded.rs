//! Every script of differential/recorded.bin, as one script and as single edits: the listing is the recorded one, and a refused edit keeps every word.
mod common;
use common::{PROGRAM, SCRIPT_BYTES};
use recipe_store::{raw, Answer, Refusal, Store};

fn listing_of_script(script: &[u8]) -> (String, Vec<u32>) {
    let (mut words, mut scratch) = (vec![0; PROGRAM.store_words()], vec![0; PROGRAM.scratch_words()]);
    let mut answers = vec![Answer::default(); script.len() / 4 + 1];
    let mut store = Store::start(&mut words, &mut scratch, PROGRAM).unwrap();
    let ran = store.script(script, &mut answers);
    assert_eq!(ran.ended, None);
    let mut out = vec![0; PROGRAM.listing_bytes(ran.answers.len())];
    let listing = store.view().listing(ran.answers, &mut out).unwrap().to_string();
    (listing, words)
}

/// The same script, edit by edit: its answers, and the words after it.
fn listing_of_edits(script: &[u8]) -> (String, Vec<u32>) {
    let (mut words, mut scratch) = (vec![0; PROGRAM.store_words()], vec![0; PROGRAM.scratch_words()]);
    Store::start(&mut words, &mut scratch, PROGRAM).unwrap();
    let records = common::records(script);
    let read: usize = records.iter().map(|(_, record)| record.len()).sum();
    let broken = (read < script.len()).then(|| &script[read..]);
    let mut answers = Vec::new();
    for record in records.iter().map(|(_, record)| *record).chain(broken) {
        let before = words.clone();
        let mut answer = [0; 3];
        let code = raw::edit(&mut words, &mut scratch, record, &mut answer);
        assert!(code == 0 || (words == before && Refusal::from_number(code).is_some()));
        answers.extend(answer);
    }
    let mut out = vec![0; PROGRAM.listing_bytes(answers.len() / 3)];
    let (code, length) = raw::listing(&words, &answers, &mut out);
    assert_eq!(code, 0);
    (String::from_utf8(out[..length as usize].to_vec()).unwrap(), words)
}

#[test]
fn listings_are_the_recorded_ones() {
    let entries = common::recorded();
    assert!(entries.len() > 100);
    for (script, expected) in entries.iter().filter(|(script, _)| script.len() <= SCRIPT_BYTES) {
        let (listing, words) = listing_of_script(script);
        assert_eq!(listing.as_bytes(), expected, "{script:?}");
        assert_eq!(listing_of_edits(script), (listing, words), "{script:?}");
    }
}

#[test]
fn every_use_list_is_the_listed_one() {
    for (script, expected) in common::recorded().iter().filter(|(script, _)| script.len() <= SCRIPT_BYTES) {
        let (_, words) = listing_of_script(script);
        let view = recipe_store::View::open(&words).unwrap();
        let mut uses = vec![recipe_store::Use(0); PROGRAM.uses as usize];
        for line in std::str::from_utf8(expected).unwrap().lines() {
            let items: Vec<&str> = line.split(' ').collect();
            let listed = |word: &str| -> Vec<u32> {
                let from = items.iter().position(|item| *item == word).unwrap() + 1;
                items[from..].iter().map(|item| item.parse().unwrap()).collect()
            };
            let read = match items[0] {
                "value" => (view.value_uses(recipe_store::Value(items[1].parse().unwrap()), &mut uses), listed("uses")),
                "block" => (view.block_uses(recipe_store::Block(items[1].parse().unwrap()), &mut uses), listed("pred")),
                "store" => {
                    let live = view.live();
                    let numbers = [live.operations, live.blocks, live.regions, live.values, live.uses];
                    assert_eq!(line, format!("store{}", numbers.map(|n| format!(" {n}")).concat()));
                    continue;
                }
                _ => continue,
            };
            assert_eq!(read.0.unwrap().iter().map(|number| number.0).collect::<Vec<_>>(), read.1);
        }
    }
}
