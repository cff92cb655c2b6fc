//! Commands: see README.md.
use differential::{compare::*, definitions, published::quiet_panics, reading, record, recorded, replay, scripts, small};
use std::{
    collections::{BTreeMap, HashSet},
    io::Read,
    process::exit,
    time::Instant,
};

fn number(args: &[String], at: usize, otherwise: u64) -> u64 {
    args.get(at).map_or(otherwise, |a| a.parse().unwrap_or_else(|_| panic!("{a} is no number")))
}

fn report(name: &str, seed: u64, script: &[u8], capacities: reading::Capacities, d: &str) {
    println!("DIFFERS seed {seed} ({name}, capacities {capacities:?}): {d}");
    let small = shrink(script, |s| difference(s, capacities).is_some());
    println!("  shrunk: {}\n  bytes: {}\n  {}", text(&small), hex(&small), difference(&small, capacities).unwrap());
}

/// n scripts from a seed on, each of at most so many records: how many differ, and pairs of kind and reply that cannot come up.
fn run(n: u64, seed: u64, longest: usize) -> usize {
    let (mut coverage, mut differ, mut bytes, begun) = (Coverage::new(), 0, 0, Instant::now());
    let mut by_profile: BTreeMap<&str, u64> = BTreeMap::new();
    let mut distinct = HashSet::new();
    for s in seed..seed + n {
        let (script, name, capacities) = scripts::script(s, longest);
        *by_profile.entry(name).or_default() += 1;
        bytes += script.len();
        distinct.insert(fnv(&script));
        let (met, d) = compare(&script, capacities);
        for m in met {
            *coverage.entry(m).or_default() += 1;
        }
        if let Some(d) = d {
            differ += 1;
            if differ <= 5 {
                report(name, s, &script, capacities, &d);
            }
        }
    }
    let (records, accepted) = (coverage.values().sum::<u64>(), coverage.iter().filter(|(m, _)| m.1 == 0 || m.1 >= 100).map(|x| x.1).sum::<u64>());
    let surplus = print_coverage(&coverage);
    println!("scripts by profile: {by_profile:?}");
    println!(
        "seeds {seed} to {}: {n} scripts ({} distinct), {bytes} bytes, {records} records, {accepted} accepted, {differ} differ, {:.0} s",
        seed + n - 1,
        distinct.len(),
        begun.elapsed().as_secs_f64()
    );
    differ + surplus
}

/// The first script that differs, and how many it took.
fn first(n: u64, seed: u64, longest: usize) -> usize {
    let shown = |s: u64| {
        let (script, name, capacities) = scripts::script(s, longest);
        difference(&script, capacities).map(|d| (s - seed + 1, name, d))
    };
    let found = (seed..seed + n).find_map(shown);
    match &found {
        Some((k, name, d)) => println!("{k}\t{name}\t{d}"),
        None => println!("no difference in {n} scripts"),
    }
    found.is_some() as usize
}

/// The listing of the Rust, or of the second reading, of the script on standard input (bytes, or text after --text).
fn show(args: &[String]) {
    let mut bytes = vec![];
    std::io::stdin().read_to_end(&mut bytes).unwrap();
    if args.iter().any(|a| a == "--text") {
        bytes = record::script(&String::from_utf8(bytes).unwrap());
    }
    if args.iter().any(|a| a == "--second") {
        print!("{}", reading::listing_of(&bytes, reading::PROGRAM));
    } else {
        print!("{}", replay::listing_of(&bytes, reading::PROGRAM).unwrap_or_else(|why| format!("{why}\n")));
    }
}

fn record(path: &str) -> usize {
    let scripts = recorded::scripts(1, 12, 2);
    let file = recorded::file(&scripts);
    let mut coverage = Coverage::new();
    for m in scripts.iter().filter(|s| s.len() <= 16_384).flat_map(|s| met(s, reading::PROGRAM)) {
        *coverage.entry(m).or_default() += 1;
    }
    let surplus = print_coverage(&coverage);
    println!("{} scripts, {} bytes", scripts.len(), file.len());
    std::fs::write(path, file).unwrap();
    surplus
}

/// For each planted fault: how many scripts of each profile it takes until one shows it.
#[cfg(feature = "faults")]
fn faults(most: u64, seed: u64) -> usize {
    use std::panic::catch_unwind;
    let mut missed = 0;
    for (name, faulty) in differential::faults::FAULTS {
        let shown = |s: u64| {
            let (script, profile, capacities) = scripts::script(s, scripts::LONGEST);
            let good = replay::listing_of(&script, capacities).unwrap();
            (catch_unwind(|| faulty(&script, capacities)).ok() != Some(good)).then_some(profile)
        };
        let first = (seed..seed + most).find_map(|s| shown(s).map(|p| (s - seed + 1, p)));
        match first {
            Some((n, profile)) => println!("caught after {n:5} scripts ({profile}): {name}"),
            None => {
                missed += 1;
                println!("NOT CAUGHT by {most} scripts: {name}");
            }
        }
    }
    println!("{} faults, {missed} not caught", differential::faults::FAULTS.len());
    missed
}

fn main() {
    quiet_panics();
    let args: Vec<String> = std::env::args().skip(1).collect();
    let command = args.first().map_or("", |a| a.as_str());
    let failures = match command {
        "run" => run(number(&args, 1, 1000), number(&args, 2, 1), number(&args, 3, scripts::LONGEST as u64) as usize),
        "first" => first(number(&args, 1, 1000), number(&args, 2, 1), number(&args, 3, scripts::LONGEST as u64) as usize),
        "pairs" => {
            let (steps, differ) = small::pairs(number(&args, 1, 3) as u32);
            differ.iter().take(20).for_each(|d| println!("DIFFERS {d}"));
            println!("{steps} steps, {} differ", differ.len());
            differ.len()
        }
        "show" => {
            show(&args);
            0
        }
        "record" => record(&args[1]),
        "definitions" => {
            definitions::write(args[1].as_ref(), number(&args, 2, 400), number(&args, 3, 1), number(&args, 4, 16_385) as usize).unwrap();
            0
        }
        #[cfg(feature = "faults")]
        "faults" => faults(number(&args, 1, 20_000), number(&args, 2, 1)),
        #[cfg(feature = "store")]
        "damage" => differential::store::damage(number(&args, 1, 1000), number(&args, 2, 1)),
        _ => panic!(
            "commands: run N SEED LONGEST, first N SEED LONGEST, pairs N, show [--text] [--second], record FILE, definitions FOLDER N SEED LONGEST, faults N SEED, damage N SEED"
        ),
    };
    exit((failures > 0) as i32);
}
