//! A store in lent memory.
use crate::{capacities::marks, raw, Answer, Block, Capacities, DoesNotFit, Edit, Refusal, Reply, Use, Value, RECORD_BYTES};

/// A store and its scratch, both lent. Nothing else is kept: dropping a `Store` leaves the words as they are, and [`Store::open`] takes them up again.
#[derive(Debug)]
pub struct Store<'a> {
    words: &'a mut [u32],
    scratch: &'a mut [u32],
}

impl<'a> Store<'a> {
    /// Starts an empty store in `words`, whatever they held. 5 where a capacity is 0 or over its limit or `words` has fewer than
    /// [`Capacities::store_words`]; 22 where `scratch` has fewer than [`Capacities::scratch_words`]. A refusal changes nothing.
    pub fn start(words: &'a mut [u32], scratch: &'a mut [u32], capacities: Capacities) -> Result<Store<'a>, Refusal> {
        let startable = capacities.are_allowed() && capacities.store_words() <= words.len();
        if startable && scratch.len() < capacities.scratch_words() {
            return Err(Refusal::BufferShort);
        }
        Refusal::of_reply(raw::start(words, capacities.numbers()))?;
        Ok(Store { words, scratch })
    }

    /// Takes up a store that was started before. 6 where `words` are no sound store, 22 where `scratch` is too short for it.
    pub fn open(words: &'a mut [u32], scratch: &'a mut [u32]) -> Result<Store<'a>, Refusal> {
        let capacities = View::open(words)?.capacities();
        if scratch.len() < capacities.scratch_words() {
            return Err(Refusal::BufferShort);
        }
        Ok(Store { words, scratch })
    }

    /// One edit as a record. The whole store is checked first; [`Store::script`] checks it once for many edits.
    pub fn edit(&mut self, record: &[u8]) -> Result<Answer, Refusal> {
        let mut answer = Answer::default();
        let code = raw::edit(self.words, self.scratch, record, raw::answer_words_mut(core::slice::from_mut(&mut answer)));
        Refusal::of_reply(code)?;
        Ok(answer)
    }

    /// One edit. It takes [`RECORD_BYTES`] of stack for the record. An edit whose lists make no record is refused with 1, as a record over that length is.
    pub fn apply(&mut self, edit: &Edit<'_>) -> Result<Reply, Refusal> {
        let mut bytes = [0; RECORD_BYTES];
        let record = edit.encode(&mut bytes).map_err(|_| Refusal::BadLength)?;
        self.edit(record)?.reply(edit.kind())
    }

    /// A script: records one after another. The answers are written to the front of `answers`.
    pub fn script<'b>(&mut self, script: &[u8], answers: &'b mut [Answer]) -> Ran<'b> {
        let (code, count) = raw::script(self.words, self.scratch, script, raw::answer_words_mut(answers));
        Ran { answers: &answers[..count as usize], ended: Refusal::of_reply(code).err() }
    }

    /// The store, to be read.
    pub fn view(&self) -> View<'_> {
        View { words: self.words }
    }
}

/// What became of a script.
#[derive(Clone, Copy, Debug, PartialEq, Eq)]
pub struct Ran<'b> {
    /// The answer of each record, as far as the script came.
    pub answers: &'b [Answer],
    /// The 6 or 22 that ended it early. A script that came to its end, or to a record that got 1, has none.
    pub ended: Option<Refusal>,
}

/// Live things, or births, of each kind.
#[derive(Clone, Copy, Debug, Default, PartialEq, Eq, Hash)]
pub struct Counts {
    pub operations: u32,
    pub blocks: u32,
    pub regions: u32,
    pub values: u32,
    pub uses: u32,
}

/// A sound store, to be read.
#[derive(Clone, Copy, Debug)]
pub struct View<'a> {
    words: &'a [u32],
}

impl<'a> View<'a> {
    /// 6 where `words` are no sound store.
    pub fn open(words: &'a [u32]) -> Result<View<'a>, Refusal> {
        if raw::check(words) {
            Ok(View { words })
        } else {
            Err(Refusal::NotSound)
        }
    }

    /// The capacities that it was started with.
    pub fn capacities(&self) -> Capacities {
        let [operations, blocks, regions, values, uses] = self.header();
        Capacities { operations, blocks, regions, values, uses }
    }

    /// How many things of each kind were ever born. The next one gets this number: a new operation's first result is the value numbered
    /// `births().values` before the edit, and so on for operands, successors and regions.
    pub fn births(&self) -> Counts {
        self.arena_words(0)
    }

    /// How many things of each kind are live.
    pub fn live(&self) -> Counts {
        self.arena_words(1)
    }

    /// The uses of a value, in rising number, written to the front of `uses`. 10 where no such value is live; 22 where `uses` is too short:
    /// the capacity of uses is always enough.
    pub fn value_uses<'b>(&self, value: Value, uses: &'b mut [Use]) -> Result<&'b [Use], Refusal> {
        let (code, count) = raw::value_uses(self.words, value.0, raw::use_words(uses));
        Refusal::of_reply(code)?;
        Ok(&uses[..count as usize])
    }

    /// The uses of a block, in rising number: its predecessor list. 8 where no such block is live; 22 where `uses` is too short.
    pub fn block_uses<'b>(&self, block: Block, uses: &'b mut [Use]) -> Result<&'b [Use], Refusal> {
        let (code, count) = raw::block_uses(self.words, block.0, raw::use_words(uses));
        Refusal::of_reply(code)?;
        Ok(&uses[..count as usize])
    }

    /// The listing of answers and of the store, in the front of `out`. 22 where `out` is not longer than the listing:
    /// [`Capacities::listing_bytes`] is always enough.
    pub fn listing<'b>(&self, answers: &[Answer], out: &'b mut [u8]) -> Result<&'b str, Refusal> {
        let (code, length) = raw::listing(self.words, raw::answer_words(answers), out);
        Refusal::of_reply(code)?;
        if length >= out.len() as u64 {
            return Err(Refusal::BufferShort);
        }
        Ok(core::str::from_utf8(&out[..length as usize]).expect("a listing is ASCII"))
    }

    // The five capacities stand in front of a store (docs/ARCHITECTURE.md, "The buffer").
    fn header(&self) -> [u32; 5] {
        let mut numbers = [0; 5];
        numbers.copy_from_slice(&self.words[..5]);
        numbers
    }

    // After the header stands an arena for each kind. Its word 0 is the next birth number and its word 1 the live count.
    fn arena_words(&self, word: usize) -> Counts {
        let mut at = 5;
        let [operations, blocks, regions, values, uses] = self.header().map(|capacity| {
            let number = self.words[at + word];
            at += 2 + 2 * capacity as usize + marks(capacity as usize);
            number
        });
        Counts { operations, blocks, regions, values, uses }
    }
}

/// Writes edits as a script into lent bytes.
#[derive(Debug)]
pub struct ScriptWriter<'b> {
    bytes: &'b mut [u8],
    length: usize,
}

impl<'b> ScriptWriter<'b> {
    pub fn new(bytes: &'b mut [u8]) -> ScriptWriter<'b> {
        ScriptWriter { bytes, length: 0 }
    }

    /// Adds an edit. Where it does not fit the script stays as it was.
    pub fn push(&mut self, edit: &Edit<'_>) -> Result<(), DoesNotFit> {
        self.length += edit.encode(&mut self.bytes[self.length..])?.len();
        Ok(())
    }

    /// The script so far.
    pub fn script(&self) -> &[u8] {
        &self.bytes[..self.length]
    }
}
