//! Scripts as text: the language of `tools/script`, with the same bytes and the same messages.
use recipe_store::{NAMES, RECORD_BYTES};

/// The parts of a `new-operation` line, in the order of the record.
const PARTS: [&str; 5] = ["flags", "results", "operands", "successors", "regions"];

pub fn decoded(bytes: Vec<u8>) -> Result<String, String> {
    String::from_utf8(bytes).map_err(|_| "the text is not UTF-8".to_string())
}

fn number(word: &str) -> Result<u32, String> {
    if !word.bytes().all(|byte| byte.is_ascii_digit()) {
        return Err(format!("{word} is no number"));
    }
    word.parse().map_err(|_| format!("{word} is over {}", u32::MAX))
}

fn operation_fields(words: &[&str]) -> Result<Vec<u32>, String> {
    let mut parts: [Vec<u32>; 5] = Default::default();
    let mut current = None;
    for word in words {
        if let Some(part) = PARTS.iter().position(|name| name == word) {
            current = Some(part);
        } else {
            let part = current.ok_or_else(|| format!("new-operation starts with one of {}", PARTS.join(", ")))?;
            parts[part].push(number(word)?);
        }
    }
    let one = |part: usize| match parts[part][..] {
        [] => Ok(0),
        [only] => Ok(only),
        _ => Err(format!("{} takes one number", PARTS[part])),
    };
    let length = |part: usize| parts[part].len() as u32;
    let heads = [one(0)?, length(1), length(2), length(3), one(4)?];
    Ok([&heads[..], &parts[1][..], &parts[2][..], &parts[3][..]].concat())
}

fn fields(kind: usize, words: &[&str]) -> Result<Vec<u32>, String> {
    if kind == 1 {
        return operation_fields(words);
    }
    // A word that begins with a letter is for the reader.
    let numbers = words.iter().filter(|word| !word.starts_with(|first: char| first.is_ascii_alphabetic()));
    let fields = numbers.map(|word| number(word)).collect::<Result<Vec<u32>, String>>()?;
    Ok(if kind == 2 { [&[fields.len() as u32][..], &fields[..]].concat() } else { fields })
}

fn record(words: &[&str]) -> Result<Vec<u8>, String> {
    let kind = 1 + NAMES.iter().position(|name| *name == words[0]).ok_or_else(|| format!("no edit is called {}", words[0]))?;
    let fields = fields(kind, &words[1..])?;
    let length = 4 + 4 * fields.len();
    if length > RECORD_BYTES {
        return Err(format!("a record of {length} bytes is over {RECORD_BYTES}"));
    }
    let mut bytes = [(length as u16).to_le_bytes(), (kind as u16).to_le_bytes()].concat();
    bytes.extend(fields.iter().flat_map(|field| field.to_le_bytes()));
    Ok(bytes)
}

/// The bytes of a text, or the first line that is no edit.
pub fn assemble(text: &str) -> Result<Vec<u8>, String> {
    let mut out = Vec::new();
    for (index, line) in text.replace("\r\n", "\n").split(['\n', '\r']).enumerate() {
        let words: Vec<&str> = line.split('#').next().unwrap_or("").split_whitespace().collect();
        if !words.is_empty() {
            out.extend(record(&words).map_err(|message| format!("line {}: {message}", index + 1))?);
        }
    }
    Ok(out)
}

fn spaced(fields: &[u32]) -> String {
    fields.iter().map(|field| format!(" {field}")).collect()
}

fn line_of(kind: u16, fields: &[u32]) -> String {
    let filled = |count: u64| fields.len() as u64 == count;
    match (kind, fields) {
        (1, [flags, r, a, s, g, lists @ ..]) if filled(5 + u64::from(*r) + u64::from(*a) + u64::from(*s)) => {
            let (results, rest) = lists.split_at(*r as usize);
            let (operands, successors) = rest.split_at(*a as usize);
            let [results, operands, successors] = [results, operands, successors].map(spaced);
            format!("new-operation flags {flags} results{results} operands{operands} successors{successors} regions {g}")
        }
        (2, [n, types @ ..]) if filled(1 + u64::from(*n)) => format!("new-block{}", spaced(types)),
        (3..=44, _) => format!("{}{}", NAMES[usize::from(kind) - 1], spaced(fields)),
        _ => format!("# kind {kind} with fields {fields:?}"),
    }
}

/// The text of a script, a line for each record. What is no record becomes a comment.
pub fn disassemble(script: &[u8]) -> String {
    let mut rest = script;
    let mut out = String::new();
    while !rest.is_empty() {
        let half = |at: usize| rest.get(at..at + 2).map_or(0, |bytes| u16::from_le_bytes([bytes[0], bytes[1]]));
        let length = usize::from(half(0));
        if rest.len() < 4 || !(4..=RECORD_BYTES).contains(&length) || length % 4 != 0 || length > rest.len() {
            let hex: String = rest.iter().map(|byte| format!("{byte:02x}")).collect();
            return out + &format!("# broken record: {hex}\n");
        }
        let fields: Vec<u32> = rest[4..length].chunks(4).map(|field| u32::from_le_bytes([field[0], field[1], field[2], field[3]])).collect();
        out += &(line_of(half(2), &fields) + "\n");
        rest = &rest[length..];
    }
    out
}
