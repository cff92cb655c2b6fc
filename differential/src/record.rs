//! The bytes of a record (docs/FORMAT.md) and refusals 1 to 4. The Rust has no counterpart.

/// Fields that stand before the lists, by kind.
pub const LEAST: [u8; 45] =
    [0, 5, 1, 2, 3, 3, 2, 1, 2, 3, 3, 2, 1, 2, 3, 2, 1, 2, 3, 2, 1, 2, 2, 2, 2, 1, 2, 2, 2, 2, 1, 2, 3, 3, 2, 2, 1, 1, 1, 1, 1, 2, 1, 1, 1];

#[derive(Clone, Debug, PartialEq)]
pub struct Record {
    pub kind: u16,
    pub fields: Vec<u32>,
}

impl Record {
    pub fn new(kind: u16, fields: &[u32]) -> Record {
        Record { kind, fields: fields.to_vec() }
    }

    pub fn bytes(&self) -> Vec<u8> {
        let mut bytes = ((4 + 4 * self.fields.len()) as u16).to_le_bytes().to_vec();
        bytes.extend(self.kind.to_le_bytes());
        bytes.extend(self.fields.iter().flat_map(|f| f.to_le_bytes()));
        bytes
    }
}

/// A script from text: `kind fields; kind fields; ..`.
pub fn script(text: &str) -> Vec<u8> {
    let record = |r: &str| {
        let numbers: Vec<u32> = r.split_whitespace().map(|n| n.parse().unwrap()).collect();
        if numbers.is_empty() { vec![] } else { Record::new(numbers[0] as u16, &numbers[1..]).bytes() }
    };
    text.split(';').flat_map(record).collect()
}

/// The length of the record at the front of `bytes`; refusal 1 where there is none.
pub fn length(bytes: &[u8]) -> Result<usize, u32> {
    if bytes.len() < 4 {
        return Err(1);
    }
    let length = u16::from_le_bytes([bytes[0], bytes[1]]) as usize;
    if length < 4 || length > 2048 || length % 4 != 0 || length > bytes.len() { Err(1) } else { Ok(length) }
}

/// Taking apart a record whose length is good: refusals 2 to 4.
pub fn take_apart(bytes: &[u8]) -> Result<Record, u32> {
    let kind = u16::from_le_bytes([bytes[2], bytes[3]]);
    let fields: Vec<u32> = bytes[4..].chunks(4).map(|c| u32::from_le_bytes(c.try_into().unwrap())).collect();
    if kind == 0 || kind > 44 {
        return Err(2);
    }
    let least = LEAST[kind as usize] as usize;
    if fields.len() < least {
        return Err(3);
    }
    let over = match kind {
        1 => fields[0] > 3 || fields[1..5].iter().any(|&count| count > 64),
        2 => fields[0] > 64,
        34 | 35 => fields.len() > 2 + 256,
        _ => false,
    };
    if over {
        return Err(4);
    }
    let wanted = match kind {
        1 => 5 + (fields[1] + fields[2] + fields[3]) as usize,
        2 => 1 + fields[0] as usize,
        34 | 35 => fields.len(),
        _ => least,
    };
    if fields.len() == wanted { Ok(Record { kind, fields }) } else { Err(3) }
}

/// The records of a script as slices, as far as it can be cut into records; a broken rest is the last slice.
pub fn pieces(mut script: &[u8]) -> Vec<&[u8]> {
    let mut pieces = vec![];
    while !script.is_empty() {
        let (piece, rest) = script.split_at(length(script).unwrap_or(script.len()));
        pieces.push(piece);
        script = rest;
    }
    pieces
}
