//! `bench report TEMPLATE FOLDER` runs all measurements and writes PERFORMANCE.md and performance.svg; `bench profile FAMILY small|largest ROUNDS` is for a profiler.
use bench::{grow, primitives, profile, report, timing};
use std::{fs, path::Path, process::Command};

fn said_by(program: &str, arguments: &[&str]) -> String {
    let output = Command::new(program).args(arguments).output().unwrap_or_else(|e| panic!("{program}: {e}"));
    String::from_utf8(output.stdout).unwrap().trim().to_string()
}

fn machine() -> String {
    let info = fs::read_to_string("/proc/cpuinfo").unwrap_or_default();
    let model = info.lines().find_map(|l| l.strip_prefix("model name")).map_or("unknown", |l| l.trim_start_matches([' ', '\t', ':']));
    let processors = info.lines().filter(|l| l.starts_with("processor")).count();
    let load = fs::read_to_string("/proc/loadavg").unwrap_or_default();
    format!("{model}, {processors} processors, load average {} when the run began", load.split(' ').next().unwrap())
}

fn main() {
    let arguments: Vec<String> = std::env::args().skip(1).collect();
    match arguments.iter().map(String::as_str).collect::<Vec<_>>()[..] {
        ["report", template, folder] => report(template, Path::new(folder)),
        ["profile", family, capacities, rounds] => profile::run(family, capacities, rounds.parse().unwrap()),
        _ => panic!("arguments: report TEMPLATE FOLDER, or profile FAMILY small|largest ROUNDS"),
    }
}

fn report(template: &str, folder: &Path) {
    let mut figures = report::Figures::new();
    figures.insert("machine".into(), machine());
    figures.insert("date".into(), said_by("date", &["-u", "+%Y-%m-%d %H:%M UTC"]));
    figures.insert("rustc".into(), said_by("rustc", &["--version"]));
    figures.insert("rt".into(), said_by("rt", &["version"]));
    figures.insert("primitives".into(), report::primitive_table(&primitives::lines()));
    let small = timing::contests(grow::SMALL, 41);
    let largest = timing::contests(grow::LARGEST, 15);
    let (growing, nested) = (timing::growing_checks(), timing::nested_checks());
    for (name, rows) in [("small", &small), ("largest", &largest)] {
        figures.insert(name.into(), report::contest_table(rows));
        report::row_figures(name, rows, &mut figures);
    }
    figures.insert("singles".into(), report::single_table(&small, &largest));
    figures.insert("growing".into(), report::growing_table(&growing));
    figures.insert("nested".into(), report::nested_table(&nested));
    let page = report::page(&fs::read_to_string(template).unwrap(), &figures);
    fs::write(folder.join("PERFORMANCE.md"), page).unwrap();
    let plot = report::plot(&[("capacities 128, 64, 64, 256, 512", &small), ("largest capacities", &largest)]);
    fs::write(folder.join("performance.svg"), plot).unwrap();
}
