//! Scripts with what the Rust gives for them, as statements over the definitions of crates/rules/specs: a crate whose check computes them. `definitions.sh` runs it.
use crate::{
    compare::{Coverage, met, print_coverage},
    reading::{Capacities, PROGRAM},
    record::pieces,
    recorded,
    scripts::{self, Rng},
};
use std::{fs, path::Path};

/// Statements in one file.
const IN_A_FILE: usize = 25;

/// The program's listing with the capacities as an argument, for scripts over other stores.
const OVER: &str = "-- What the program would print with other capacities.
-- Assumes nothing: this is a definition.
use Rattle.std.specs.Prelude.{List, ◌++◌, ℕ}
use Rattle.rules.specs.History.{Five}
use Rattle.rules.specs.State.{start}
use Rattle.rules.specs.Script.{Ran, run}
use Rattle.rules.specs.Listing.{edit_lines, listing}

-- as printed of specs/Listing.antt, over these capacities
unfoldable pub printed_over : Five → List ℕ → List ℕ
printed_over five script = let r : Ran = run 4096 (start five) script in edit_lines 0 r.answers ++ listing r.state
";

const HEAD: &str = "-- Scripts as bytes, and what the Rust gives for them.
-- Assumes nothing.
use Rattle.std.specs.Prelude.{List, [], ◌∷◌, ℕ, T}
use Rattle.rules.specs.History.{Five}
use Rattle.rules.specs.Listing.{output}
use Rattle.rules.specs.Examples.{computing, same, lines}
use Rattle.definitions.specs.Over.{printed_over}
";

/// The first records of the seed's script: as many as fit into a bound that varies by the seed.
fn short_script(seed: u64) -> (Vec<u8>, Capacities) {
    let (script, _, capacities) = scripts::script(seed, scripts::LONGEST);
    let mut rng = Rng(seed);
    let (records, bytes) = (1 + rng.below(40), 1500);
    let mut short = vec![];
    for p in pieces(&script).into_iter().take(records).take_while(|p| p.len() <= bytes) {
        if short.len() + p.len() <= bytes {
            short.extend(p);
        }
    }
    (short, capacities)
}

fn list<T: ToString>(items: impl Iterator<Item = T>) -> String {
    items.map(|x| x.to_string() + " ∷ ").collect::<String>() + "[]"
}

/// One statement: the definitions give these lines for this script.
fn row(k: usize, script: &[u8], capacities: Capacities, listing: &str) -> String {
    let [o, b, r, v, u] = capacities;
    let five = format!("(record {{ operations = {o}; blocks = {b}; regions = {r}; values = {v}; uses = {u} }})");
    let given = if capacities == PROGRAM { "output".into() } else { format!("printed_over {five}") };
    let (bytes, lines) = (list(script.iter()), list(listing.lines().map(|l| format!("{l:?}"))));
    format!("\npub row_{k} : T (same ({given} ({bytes})) (lines ({lines})))\nunfolding computing output printed_over same lines\nrow_{k} = tt\n")
}

/// Writes the crate: n random short scripts from the seed on, and the recorded ones up to so many bytes.
pub fn write(folder: &Path, n: u64, seed: u64, longest: usize) -> std::io::Result<()> {
    let random = (seed..seed + n).map(short_script);
    let recorded = recorded::read().into_iter().filter(|s| s.len() <= longest).map(|s| (s, PROGRAM));
    let scripts: Vec<(Vec<u8>, Capacities)> = recorded.chain(random).collect();
    fs::create_dir_all(folder.join("src"))?;
    fs::create_dir_all(folder.join("specs"))?;
    fs::write(folder.join("src/lib.rt"), "// Scripts and what the Rust gives for them: see specs/. Nothing of this crate runs.\n#![tactic(auto)]\n")?;
    fs::write(folder.join("specs/Over.antt"), OVER)?;
    let (mut modules, mut coverage, mut bytes) = (String::from("pub mod Over\n"), Coverage::new(), 0);
    for (f, chunk) in scripts.chunks(IN_A_FILE).enumerate() {
        let mut text = String::from(HEAD);
        for (k, (script, capacities)) in chunk.iter().enumerate() {
            let listing = recorded::by_the_rust(script, *capacities);
            text += &row(f * IN_A_FILE + k, script, *capacities, &listing);
            bytes += script.len();
            for m in met(script, *capacities) {
                *coverage.entry(m).or_default() += 1;
            }
        }
        fs::write(folder.join(format!("specs/Rows{f}.antt")), text)?;
        modules += &format!("pub mod Rows{f}\n");
    }
    fs::write(folder.join("specs/Lib.antt"), modules)?;
    print_coverage(&coverage);
    println!("{} scripts ({n} random ones from seed {seed} on), {bytes} bytes, {} records", scripts.len(), coverage.values().sum::<u64>());
    Ok(())
}
