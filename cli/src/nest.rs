//! What a listing says, as a nest of operations, regions and blocks.

/// An operand or a successor: its use and the value or block that it names.
#[derive(Debug, Clone, Copy, PartialEq, Eq)]
pub struct Named {
    pub number: u32,
    pub definition: u32,
}

#[derive(Debug, Default)]
pub struct Operation {
    pub number: u32,
    pub block: Option<u32>,
    pub flags: u32,
    pub results: Vec<u32>,
    pub operands: Vec<Named>,
    pub successors: Vec<Named>,
    pub regions: Vec<u32>,
}

#[derive(Debug, Default)]
pub struct Block {
    pub number: u32,
    pub region: Option<u32>,
    pub arguments: Vec<u32>,
    pub operations: Vec<u32>,
}

#[derive(Debug, Default)]
pub struct Region {
    pub number: u32,
    pub blocks: Vec<u32>,
}

#[derive(Debug, Default)]
pub struct Nest {
    pub operations: Vec<Operation>,
    pub blocks: Vec<Block>,
    pub regions: Vec<Region>,
    /// Each value with its type.
    pub values: Vec<(u32, u32)>,
}

impl Nest {
    // Lines stand in rising number, so a number is found by halves.
    pub fn operation(&self, number: u32) -> &Operation {
        &self.operations[self.operations.binary_search_by_key(&number, |operation| operation.number).expect("a listed operation")]
    }

    pub fn block(&self, number: u32) -> &Block {
        &self.blocks[self.blocks.binary_search_by_key(&number, |block| block.number).expect("a listed block")]
    }

    pub fn region(&self, number: u32) -> &Region {
        &self.regions[self.regions.binary_search_by_key(&number, |region| region.number).expect("a listed region")]
    }

    pub fn type_of(&self, value: u32) -> u32 {
        self.values[self.values.binary_search_by_key(&value, |(number, _)| *number).expect("a listed value")].1
    }
}

/// What the flags say, with a space before it.
pub fn flags_text(flags: u32) -> &'static str {
    ["", " terminator", " open blocks", " terminator, open blocks"][flags as usize & 3]
}

/// The words of one line.
struct Line<'a>(Vec<&'a str>);

impl Line<'_> {
    /// The words after this one, up to the next that is no number.
    fn list(&self, word: &str) -> Vec<&str> {
        let after = self.0.iter().skip_while(|item| **item != word).skip(1);
        after.take_while(|item| item.starts_with(|first: char| first.is_ascii_digit())).copied().collect()
    }

    fn numbers(&self, word: &str) -> Vec<u32> {
        self.list(word).iter().filter_map(|item| item.parse().ok()).collect()
    }

    /// The number after this word, or none for `-`.
    fn number(&self, word: &str) -> Option<u32> {
        self.numbers(word).first().copied()
    }

    fn named(&self, word: &str) -> Vec<Named> {
        let pairs = self.list(word).into_iter().filter_map(|item| item.split_once(':'));
        pairs.filter_map(|(number, definition)| Some(Named { number: number.parse().ok()?, definition: definition.parse().ok()? })).collect()
    }

    fn operation(&self) -> Operation {
        Operation {
            number: self.number("op").unwrap_or(0),
            block: self.number("block"),
            flags: self.number("flags").unwrap_or(0),
            results: self.numbers("res"),
            operands: self.named("opd"),
            successors: self.named("suc"),
            regions: self.numbers("reg"),
        }
    }

    fn block(&self) -> Block {
        let number = self.number("block").unwrap_or(0);
        Block { number, region: self.number("region"), arguments: self.numbers("arg"), operations: self.numbers("ops") }
    }
}

/// The nest that a listing shows.
pub fn read(listing: &str) -> Result<Nest, String> {
    let mut nest = Nest::default();
    for text in listing.lines() {
        let line = Line(text.split(' ').collect());
        match line.0[0] {
            "edit" | "store" => {}
            "op" => nest.operations.push(line.operation()),
            "block" => nest.blocks.push(line.block()),
            "region" => nest.regions.push(Region { number: line.number("region").unwrap_or(0), blocks: line.numbers("blocks") }),
            "value" => nest.values.push((line.number("value").unwrap_or(0), line.number("type").unwrap_or(0))),
            _ => return Err(text.to_string()),
        }
    }
    Ok(nest)
}
