//! The tables, the plot and the page, all from what was measured.
use crate::{
    grow::FAMILIES,
    primitives::Line,
    timing::{Check, Row},
};
use std::{collections::BTreeMap, fmt::Write};

/// What `{{name}}` in the page's template stands for.
pub type Figures = BTreeMap<String, String>;

fn ns(x: f64) -> String {
    if x < 100.0 { format!("{x:.1}") } else { format!("{x:.0}") }
}
fn ratio(x: f64) -> String {
    format!("{x:.2}")
}

/// The contestants at one set of capacities.
pub fn contest_table(rows: &[Row]) -> String {
    let mut t = String::from("| family | kinds | edits | store | pliron | plain | store/pliron | store/plain |\n|---|---|---|---|---|---|---|---|\n");
    for r in rows {
        let (name, kinds) = FAMILIES[r.family];
        let figures = [r.store, r.pliron, r.plain].map(ns).join(" | ");
        let ratios = [r.store / r.pliron, r.store / r.plain].map(ratio).join(" | ");
        writeln!(t, "| {name} | {kinds} | {} | {figures} | {ratios} |", r.count).unwrap();
    }
    t
}

pub fn single_table(small: &[Row], largest: &[Row]) -> String {
    let mut t = String::from("| family | check, small | single edit, small | check, largest | single edit, largest |\n|---|---|---|---|---|\n");
    for (a, b) in small.iter().zip(largest) {
        let figures = [a.check, a.single, b.check, b.single].map(ns).join(" | ");
        writeln!(t, "| {} | {figures} |", FAMILIES[a.family].0).unwrap();
    }
    t
}

pub fn growing_table(checks: &[Check]) -> String {
    let mut t = String::from("| words of the store | empty, ms | empty, ns per word | full, ms | full, ns per word |\n|---|---|---|---|---|\n");
    for pair in checks.chunks(2) {
        let figures = |c: &Check| format!("{:.3} | {:.2}", c.ns / 1e6, c.ns / c.words as f64);
        writeln!(t, "| {} | {} | {} |", pair[0].words, figures(&pair[0]), figures(&pair[1])).unwrap();
    }
    t
}

/// The climb is what a nest costs beyond the same store without one.
pub fn nested_table(checks: &[Check]) -> String {
    let mut t = String::from("| levels | steps upward, all operations | ms | ns per step beyond the flat store |\n|---|---|---|---|\n");
    for c in checks {
        let climb = if c.steps == 0 { "–".to_string() } else { format!("{:.2}", (c.ns - checks[0].ns) / c.steps as f64) };
        writeln!(t, "| {} | {} | {:.3} | {climb} |", c.what, c.steps, c.ns / 1e6).unwrap();
    }
    t
}

pub fn primitive_table(lines: &[Line]) -> String {
    let mut t = String::from("| call | ns |\n|---|---|\n");
    lines.iter().for_each(|l| writeln!(t, "| {} | {} |", l.what, ns(l.ns)).unwrap());
    t
}

/// Each row's figures by name, as `largest.moves.store`.
pub fn row_figures(of: &str, rows: &[Row], into: &mut Figures) {
    for r in rows {
        let family = FAMILIES[r.family].0.split(',').next().unwrap();
        let [o, b, g, v, u] = r.live;
        let mut put = |name: &str, text: String| drop(into.insert(format!("{of}.{family}.{name}"), text));
        put("store", ns(r.store));
        put("pliron", ns(r.pliron));
        put("plain", ns(r.plain));
        put("to pliron", ratio(r.store / r.pliron));
        put("to plain", ratio(r.store / r.plain));
        put("single", ns(r.single));
        put("check", ns(r.check));
        put("live", format!("{o} operations, {b} blocks, {g} regions, {v} values and {u} uses"));
    }
    let spread = rows.iter().map(|r| r.spread).fold(0.0, f64::max);
    into.insert(format!("{of}.spread"), format!("{:.0}", 100.0 * spread));
}

/// The page: every `{{name}}` replaced; a name without a figure, and a figure that is not finite, end the run.
pub fn page(template: &str, figures: &Figures) -> String {
    let mut page = String::new();
    let mut rest = template;
    while let Some((before, after)) = rest.split_once("{{") {
        let (name, after) = after.split_once("}}").expect("}} after {{");
        let text = figures.get(name).unwrap_or_else(|| panic!("no figure {name}"));
        assert!(!text.contains("NaN") && !text.contains("inf"), "{name}: {text}");
        page += before;
        page += text.trim_end();
        rest = after;
    }
    page + rest
}

const COLOURS: [&str; 3] = ["#1b6e53", "#c0652b", "#6b7a99"];
const CONTESTANTS: [&str; 3] = ["proved store", "pliron 0.20.0", "plain Rust"];
const PANEL: f64 = 470.0;
const HEIGHT: f64 = 300.0;
const BASE: f64 = 340.0;

/// Bars of nanoseconds per edit on a logarithmic scale, a panel for each set of capacities.
pub fn plot(panels: &[(&str, &[Row])]) -> String {
    let mut s = format!(
        "<svg xmlns=\"http://www.w3.org/2000/svg\" viewBox=\"0 0 {} 420\" font-family=\"sans-serif\" font-size=\"11\">\n",
        40.0 + PANEL * panels.len() as f64
    );
    s += "<rect width=\"100%\" height=\"100%\" fill=\"white\"/>\n";
    let all = || panels.iter().flat_map(|p| p.1).flat_map(|r| [r.store, r.pliron, r.plain]);
    let low = all().fold(f64::INFINITY, f64::min).log10().floor();
    let high = all().fold(1.0, f64::max).log10().ceil();
    let height = move |x: f64| (x.log10() - low) / (high - low) * HEIGHT;
    for (k, (title, rows)) in panels.iter().enumerate() {
        panel(&mut s, 50.0 + PANEL * k as f64, title, rows, low as i32..=high as i32, &height);
    }
    for (k, (name, colour)) in CONTESTANTS.iter().zip(COLOURS).enumerate() {
        let x = 60 + 130 * k;
        writeln!(s, "<rect x=\"{x}\" y=\"400\" width=\"10\" height=\"10\" fill=\"{colour}\"/><text x=\"{}\" y=\"409\">{name}</text>", x + 15).unwrap();
    }
    s + "</svg>\n"
}

fn panel(s: &mut String, left: f64, title: &str, rows: &[Row], decades: std::ops::RangeInclusive<i32>, height: &dyn Fn(f64) -> f64) {
    writeln!(s, "<text x=\"{left}\" y=\"20\" font-size=\"13\">{title}: nanoseconds per edit</text>").unwrap();
    for decade in decades {
        let (y, value) = (BASE - height(10f64.powi(decade)), 10f64.powi(decade));
        writeln!(s, "<line x1=\"{left}\" x2=\"{}\" y1=\"{y:.1}\" y2=\"{y:.1}\" stroke=\"#ddd\"/>", left + PANEL - 50.0).unwrap();
        writeln!(s, "<text x=\"{}\" y=\"{:.1}\" text-anchor=\"end\">{value}</text>", left - 4.0, y + 4.0).unwrap();
    }
    let step = (PANEL - 50.0) / rows.len() as f64;
    for (k, r) in rows.iter().enumerate() {
        let x = left + step * k as f64 + 4.0;
        for (j, (value, colour)) in [r.store, r.pliron, r.plain].into_iter().zip(COLOURS).enumerate() {
            let (h, width) = (height(value).max(0.5), step / 4.0);
            writeln!(s, "<rect x=\"{:.1}\" y=\"{:.1}\" width=\"{width:.1}\" height=\"{h:.1}\" fill=\"{colour}\"/>", x + width * j as f64, BASE - h).unwrap();
        }
        writeln!(s, "<text x=\"{:.1}\" y=\"{}\" font-size=\"9\">{}</text>", x, BASE + 14.0, FAMILIES[r.family].0).unwrap();
    }
}
