//! What the tool prints, against tests/expected (written anew where RECIPE_WRITE is set), and against `tools/script`.
use std::{
    collections::BTreeSet,
    env, fs,
    path::PathBuf,
    process::{Command, Output},
};

const TOOL: &str = env!("CARGO_BIN_EXE_recipe");

fn root() -> PathBuf {
    PathBuf::from(env!("CARGO_MANIFEST_DIR")).join("..")
}

fn tool(args: &[&str]) -> Output {
    Command::new(TOOL).args(args).current_dir(root()).output().unwrap()
}

fn printed(args: &[&str]) -> String {
    let output = tool(args);
    assert!(output.status.success() && output.stderr.is_empty(), "{args:?}");
    String::from_utf8(output.stdout).unwrap()
}

fn is_expected(file: &str, text: &str) {
    let path = root().join("cli/tests/expected").join(file);
    if env::var_os("RECIPE_WRITE").is_some() {
        fs::write(&path, text).unwrap();
    }
    assert_eq!(text, fs::read_to_string(&path).unwrap(), "{file}");
}

#[test]
fn runs_the_examples() {
    is_expected("first.listing", &printed(&["run", "examples/first.txt"]));
    is_expected("first.listing", &printed(&["run", "examples/first.bin"]));
    is_expected("nest.listing", &printed(&["run", "examples/nest.txt"]));
}

/// The texts of examples/corners are what the programs `crates/NAME_demo` run.
#[test]
fn runs_the_corners() {
    for name in ["uses", "values", "links", "creation", "walk"] {
        let text = format!("examples/corners/{name}.txt");
        let stored = |file: &str| fs::read(root().join(format!("crates/{name}_demo/{file}"))).unwrap();
        assert_eq!(tool(&["assemble", &text]).stdout, stored("stdin"), "{text}");
        assert_eq!(printed(&["run", &text]).as_bytes(), stored("stdout"), "{text}");
    }
}

#[test]
fn draws_the_examples() {
    for example in ["first", "nest"] {
        let file = format!("examples/{example}.txt");
        is_expected(&format!("{example}.dot"), &printed(&["picture", &file]));
        is_expected(&format!("{example}.svg"), &printed(&["picture", "--svg", &file]));
    }
}

#[test]
fn explains_everything() {
    is_expected("explain", &printed(&["explain"]));
    let refusals: String = (1..=22).map(|n| printed(&["explain", &n.to_string()]) + "\n").collect();
    is_expected("explain_refusals", &refusals);
    let kinds: String = (1..=44).map(|n| printed(&["explain", "kind", &n.to_string()]) + "\n").collect();
    is_expected("explain_kinds", &kinds);
    assert_eq!(printed(&["explain", "verdict-region"]), printed(&["explain", "kind", "44"]));
    assert_eq!(printed(&["explain", "verdict", "3"]), "verdict 3: The terminator has an operation after it.\n");
}

#[test]
fn says_what_is_wrong() {
    let wrong: [&[&str]; 12] = [
        &[],
        &["fly"],
        &["run", "no-such-file"],
        &["run", "a", "b"],
        &["run", "--svg", "a"],
        &["explain", "0"],
        &["explain", "23"],
        &["explain", "kind", "45"],
        &["explain", "verdict", "5"],
        &["run", "--capacities", "1,2,3", "examples/first.txt"],
        &["run", "--capacities", "0,1,1,1,1", "examples/first.txt"],
        &["assemble", "README.md"],
    ];
    for args in wrong {
        let output = tool(args);
        assert!(!output.status.success() && output.stdout.is_empty() && !output.stderr.is_empty(), "{args:?}");
    }
    assert!(printed(&["run", "--capacities", "4096,1024,1024,8192,16384", "examples/first.txt"]).contains("store 1 1 0 2 2\n"));
}

#[test]
fn agrees_with_tools_script() {
    let status = Command::new("python3").arg(root().join("cli/tests/agree.py")).arg(TOOL).status().unwrap();
    assert!(status.success());
}

/// The pairs of kind and refusal that `explain` tells of, for refusals that a record or a state gives.
fn told() -> BTreeSet<(u16, u32)> {
    let mut pairs = BTreeSet::new();
    for kind in 1..=44 {
        let text = printed(&["explain", "kind", &kind.to_string()]);
        let line = text.lines().nth(1).unwrap();
        pairs.extend(line.split_whitespace().skip(2).map(|test| (kind, test.parse().unwrap())));
    }
    pairs.retain(|(_, refusal)| ![1, 2, 6, 21, 22].contains(refusal));
    pairs
}

/// Those that the recorded scripts meet.
fn met() -> BTreeSet<(u16, u32)> {
    let bytes = fs::read(root().join("differential/recorded.bin")).unwrap();
    let mut rest = &bytes[..];
    let mut pairs = BTreeSet::new();
    while !rest.is_empty() {
        let (script, after) = rest[2..].split_at(u16::from_le_bytes([rest[0], rest[1]]).into());
        let length = u32::from_le_bytes([after[0], after[1], after[2], after[3]]);
        let (output, after) = after[4..].split_at(length as usize);
        rest = after;
        let mut record = script;
        for line in std::str::from_utf8(output).unwrap().lines().take_while(|line| line.starts_with("edit ")) {
            let refusal = line.split_once(" no ").map_or(0, |(_, number)| number.parse().unwrap());
            if refusal == 1 {
                break;
            }
            pairs.insert((u16::from_le_bytes([record[2], record[3]]), refusal));
            record = &record[u16::from_le_bytes([record[0], record[1]]).into()..];
        }
    }
    pairs.retain(|(kind, refusal)| *refusal > 2 && (1..=44).contains(kind));
    pairs
}

#[test]
fn tells_the_refusals_that_are_met() {
    // No 65th region fits the store that the scripts were recorded with.
    let not_met = BTreeSet::from([(31, 19)]);
    assert_eq!(told(), met().union(&not_met).copied().collect());
}
