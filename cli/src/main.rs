//! The command-line tool `recipe`: scripts of the store as text and bytes, run, explained and drawn.
mod dot;
mod explain;
mod nest;
mod run;
mod svg;
mod text;

use std::{
    env, fs,
    io::{self, Read, Write},
    process::ExitCode,
};

const USAGE: &str = "\
recipe assemble [FILE]          text to bytes
recipe disassemble [FILE]       bytes to text
recipe run FILE                 runs a script over an empty store; prints the answers and the listing
recipe picture [--svg] FILE     draws what a script leaves: Graphviz dot, or SVG
recipe explain                  the refusals and verdicts, one line each
recipe explain N                what refusal N means, when it is tested and which edits give it
recipe explain NAME             the tests of an edit, in order (NAME as in a script, or its kind: kind 3)
recipe explain verdict N        what verdict N means

A FILE whose name ends in .txt is text, any other is bytes; - or none is standard input.
run and picture take --text (standard input is text) and --capacities O,B,R,V,U (default 128,64,64,256,512, as the program `recipe`).
";

fn read(file: &str) -> Result<Vec<u8>, String> {
    if file != "-" {
        return fs::read(file).map_err(|error| format!("{file}: {error}"));
    }
    let mut bytes = Vec::new();
    io::stdin().read_to_end(&mut bytes).map_err(|error| format!("standard input: {error}"))?;
    Ok(bytes)
}

/// The words after a command: options, and at most one file.
#[derive(Default)]
struct Words {
    text: bool,
    svg: bool,
    capacities: Option<String>,
    file: Option<String>,
}

fn words(command: &str, args: &[String]) -> Result<Words, String> {
    let draws = command == "picture";
    let runs = draws || command == "run";
    let mut words = Words::default();
    let mut rest = args.iter();
    while let Some(word) = rest.next() {
        match word.as_str() {
            "--text" if runs => words.text = true,
            "--svg" if draws => words.svg = true,
            "--capacities" if runs => words.capacities = Some(rest.next().ok_or("--capacities wants O,B,R,V,U")?.clone()),
            option if option.starts_with("--") => return Err(format!("{command} has no option {option}")),
            file if words.file.is_none() => words.file = Some(file.to_string()),
            _ => return Err(format!("{command} takes one file")),
        }
    }
    Ok(words)
}

/// The script of a file, which holds text or bytes.
fn script(words: &Words) -> Result<Vec<u8>, String> {
    let file = words.file.as_deref().unwrap_or("-");
    let bytes = read(file)?;
    if words.text || file.ends_with(".txt") {
        text::assemble(&text::decoded(bytes)?)
    } else {
        Ok(bytes)
    }
}

fn perform(args: &[String]) -> Result<Vec<u8>, String> {
    let (command, rest) = args.split_first().ok_or(USAGE)?;
    match command.as_str() {
        "assemble" => {
            let words = words(command, rest)?;
            text::assemble(&text::decoded(read(words.file.as_deref().unwrap_or("-"))?)?)
        }
        "disassemble" => {
            let words = words(command, rest)?;
            Ok(text::disassemble(&read(words.file.as_deref().unwrap_or("-"))?).into_bytes())
        }
        "run" => {
            let words = words(command, rest)?;
            Ok(run::run(&script(&words)?, words.capacities.as_deref())?.into_bytes())
        }
        "picture" => {
            let words = words(command, rest)?;
            let nest = nest::read(&run::run(&script(&words)?, words.capacities.as_deref())?)?;
            Ok(if words.svg { svg::picture(&nest) } else { dot::picture(&nest) }.into_bytes())
        }
        "explain" => Ok(explain::explain(rest)?.into_bytes()),
        "help" | "--help" | "-h" => Ok(USAGE.as_bytes().to_vec()),
        _ => Err(USAGE.to_string()),
    }
}

fn main() -> ExitCode {
    let args: Vec<String> = env::args().skip(1).collect();
    let done = perform(&args).and_then(|out| io::stdout().write_all(&out).map_err(|error| format!("standard output: {error}")));
    match done {
        Ok(()) => ExitCode::SUCCESS,
        Err(message) => {
            eprintln!("{}", message.trim_end());
            ExitCode::FAILURE
        }
    }
}
