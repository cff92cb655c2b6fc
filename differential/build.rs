//! Cuts the published files by item, as CUTS.tsv says, into OUT_DIR. Nothing published is kept in this repository but the header lines by which items are found.
//! The published files are in the folder that PLIRON names (it has src/value.rs and its like). A header that is not found, or an item that stands on other lines
//! than CUTS.tsv says, ends the build. With the feature `faults` it writes the faulty readings.
use std::{
    env, fs,
    path::{Path, PathBuf},
};

/// Module, published file.
const FILES: &[(&str, &str)] = &[
    ("linked_list", "src/linked_list.rs"),
    ("value", "src/value.rs"),
    ("operation", "src/operation.rs"),
    ("basic_block", "src/basic_block.rs"),
    ("region", "src/region.rs"),
    ("context", "src/context.rs"),
    ("table_cut", "src/utils/table.rs"),
    ("given_names_cut", "src/builtin/given_names.rs"),
];

/// One line of CUTS.tsv: the item's header, the lines it stands on, and the stand-in put in its place ("-" for none).
struct Cut<'a> {
    file: &'a str,
    header: &'a str,
    lines: (usize, usize),
    standin: &'a str,
}

fn read(path: &Path) -> String {
    println!("cargo:rerun-if-changed={}", path.display());
    fs::read_to_string(path).unwrap_or_else(|e| panic!("{}: {e}", path.display()))
}

fn cuts(table: &str) -> Vec<Cut<'_>> {
    let rows = table.lines().skip(1).map(|row| row.split('\t').collect::<Vec<_>>());
    rows.map(|c| Cut { file: c[0], header: c[1], lines: (c[2].parse().unwrap(), c[3].parse().unwrap()), standin: c[4] }).collect()
}

fn indent(line: &str) -> usize {
    line.len() - line.trim_start().len()
}

/// The first and the last line of the item, counted from 0. In text formatted by rustfmt an item of one line ends in `;` or `,`, and any other with the first
/// line of its own indent that begins with `}`. Doc comments and attributes above it belong to it, but a cfg goes on to govern a stand-in.
fn item(lines: &[&str], at: usize, cut: &Cut) -> (usize, usize) {
    let belongs = |l: &str| l.starts_with("///") || (l.starts_with("#[") && (cut.standin == "-" || !l.starts_with("#[cfg")));
    let first = (0..at).rev().take_while(|&i| belongs(lines[i].trim_start())).last().unwrap_or(at);
    let head = lines[at].trim_end();
    let closes = |i: &usize| indent(lines[*i]) == indent(lines[at]) && lines[*i].trim_start().starts_with('}');
    let last = if head.ends_with([';', ',']) { at } else { (at + 1..lines.len()).find(closes).expect("the item's end") };
    (first, last)
}

fn cut_file(text: &str, file: &str, cuts: &[Cut], standins: &Path) -> String {
    let lines: Vec<&str> = text.split_inclusive('\n').collect();
    let mut kept: Vec<String> = lines.iter().map(|l| l.to_string()).collect();
    for cut in cuts.iter().filter(|c| c.file == file) {
        let headers = (0..lines.len()).filter(|&i| lines[i].trim_start().starts_with(cut.header));
        let items: Vec<(usize, usize)> = headers.map(|at| item(&lines, at, cut)).collect();
        let (first, last) = (cut.lines.0 - 1, cut.lines.1 - 1);
        assert!(!items.is_empty(), "{file}: no item {}", cut.header);
        assert!(items.contains(&(first, last)), "{file}: {} stands elsewhere, lines from 0: {items:?}", cut.header);
        for line in &mut kept[first..=last] {
            line.clear();
        }
        if cut.standin != "-" {
            kept[first] = read(&standins.join(cut.standin));
        }
    }
    kept.concat()
}

/// A copy of the reading for each line of FAULTS.tsv (name, text, text put in its place, `\\n` for a line's end), the text found exactly once; and a table of them.
fn faults(here: &Path, out: &Path) -> String {
    let reading = read(&here.join("src/reading.rs"));
    let table = read(&here.join("FAULTS.tsv"));
    let (mut modules, mut list) = (String::new(), String::new());
    for (k, row) in table.lines().skip(1).enumerate() {
        let c: Vec<String> = row.split('\t').map(|c| c.replace("\\n", "\n")).collect();
        assert!(reading.matches(&c[1]).count() == 1, "FAULTS.tsv: {} is found {} times", c[1], reading.matches(&c[1]).count());
        let file = out.join(format!("fault_{k}.rs"));
        fs::write(&file, reading.replacen(&c[1], &c[2], 1)).unwrap();
        modules += &format!("#[path = {file:?}] pub mod fault_{k};\n");
        list += &format!("({:?}, fault_{k}::listing_of as fn(&[u8], [u32; 5]) -> String),\n", c[0]);
    }
    format!("{modules}pub const FAULTS: &[(&str, fn(&[u8], [u32; 5]) -> String)] = &[\n{list}];\n")
}

fn main() {
    println!("cargo:rerun-if-env-changed=PLIRON");
    let here = PathBuf::from(env::var("CARGO_MANIFEST_DIR").unwrap());
    let out = PathBuf::from(env::var("OUT_DIR").unwrap());
    let published = PathBuf::from(env::var("PLIRON").expect("PLIRON names the folder of the published files"));
    let table = read(&here.join("CUTS.tsv"));
    let cuts = cuts(&table);
    let mut modules = String::new();
    for (module, file) in FILES {
        let path = out.join(format!("{module}.rs"));
        fs::write(&path, cut_file(&read(&published.join(file)), file, &cuts, &here.join("standins/cut"))).unwrap();
        modules += &format!("#[allow(dead_code, unused_imports, unexpected_cfgs)]\n#[path = {path:?}]\npub mod {module};\n");
    }
    fs::write(out.join("published.rs"), modules).unwrap();
    if env::var("CARGO_FEATURE_FAULTS").is_ok() {
        fs::write(out.join("faults.rs"), faults(&here, &out)).unwrap();
    }
}
