//! The plain program gives the recorded listings and the store's own answers and listings.
use crate::plain::{Capacities, Store};
use differential::{interface, reading::words, scripts};

const PROGRAM: Capacities = [128, 64, 64, 256, 512];

/// The answers as the listing shows them, and the rows of the store.
fn listing(script: &[u8], capacities: Capacities) -> (Vec<u32>, String) {
    let mut store = Store::new(capacities);
    let mut answers = vec![0; 3 * script.len().max(1)];
    let (code, count) = store.script(script, &mut answers);
    assert_eq!(code, 0);
    answers.truncate(3 * count);
    let lines = answers.chunks(3).enumerate().map(|(k, a)| match a {
        [0, a, b] => format!("edit {k} ok {a} {b}\n"),
        [refusal, ..] => format!("edit {k} no {refusal}\n"),
        [] => unreachable!(),
    });
    let text = lines.collect::<String>() + &store.rows();
    (answers, text)
}

#[test]
fn recorded_scripts() {
    let file = std::fs::read("../differential/recorded.bin").unwrap();
    let (mut rest, mut scripts) = (&file[..], 0);
    while !rest.is_empty() {
        let (n, after) = rest.split_at(2);
        let (script, after) = after.split_at(u16::from_le_bytes(n.try_into().unwrap()) as usize);
        let (m, after) = after.split_at(4);
        let (expected, after) = after.split_at(u32::from_le_bytes(m.try_into().unwrap()) as usize);
        if script.len() <= 16_384 {
            assert_eq!(listing(script, PROGRAM).1.as_bytes(), expected, "script {scripts}");
        }
        (rest, scripts) = (after, scripts + 1);
    }
    assert!(scripts > 100);
}

#[test]
fn random_scripts_as_the_store() {
    for seed in 0..600 {
        let (script, _, capacities) = scripts::script(seed, scripts::LONGEST);
        let mut store = vec![0; words(capacities) as usize];
        interface::start(&mut store, capacities);
        let (mut scratch, mut answers) = (vec![0; capacities[0] as usize], vec![0; 3 * script.len().max(1)]);
        let [code, count] = interface::script(&mut store, &mut scratch, &script, &mut answers);
        assert_eq!(code, 0);
        answers.truncate(3 * count as usize);
        let mut out = vec![0; 1 << 20];
        let (code, length) = interface::listing(&store, &answers, &mut out);
        assert_eq!(code, 0);
        let (plain, text) = listing(&script, capacities);
        assert!(plain == answers, "seed {seed}: answers differ");
        assert!(text.as_bytes() == &out[..length as usize], "seed {seed}: listings differ");
    }
}

#[test]
fn too_little_room_for_answers() {
    let script = differential::record::script("2 0; 2 0; 2 0");
    assert_eq!(Store::new(PROGRAM).script(&script, &mut [0; 8]), (22, 2));
}
