//! What an edit replies.
use crate::{Block, Operation, Refusal, Value};

/// The three numbers of an answer: the refusal, or 0, and A and B.
#[derive(Clone, Copy, Debug, Default, PartialEq, Eq, Hash)]
#[repr(C)]
pub struct Answer {
    pub refusal: u32,
    pub a: u32,
    pub b: u32,
}

impl Answer {
    /// What it says as the answer to an edit of this kind.
    ///
    /// # Panics
    /// Where the numbers are none that the library gives for the kind: a refusal over 22, or a verdict over 4.
    pub fn reply(self, kind: u16) -> Result<Reply, Refusal> {
        Refusal::of_reply(self.refusal)?;
        Ok(Reply::of(kind, self.a, self.b))
    }
}

/// What an accepted edit replies.
#[derive(Clone, Copy, Debug, PartialEq, Eq, Hash)]
pub enum Reply {
    /// Nothing but that it was carried out.
    Done,
    /// The new operation.
    Operation(Operation),
    /// The new block, or the block that the removed successor named.
    Block(Block),
    /// The value that the removed operand named.
    Value(Value),
    /// The index of the new entry.
    Index(u32),
    /// How many uses ended by a drop.
    Dropped(Dropped),
    /// What an erasure ended.
    Erased(Erased),
    /// The verdict.
    Verdict(Verdict),
}

impl Reply {
    fn of(kind: u16, a: u32, b: u32) -> Reply {
        match kind {
            1 => Reply::Operation(Operation(a)),
            2 | 11 | 12 => Reply::Block(Block(a)),
            6 | 7 => Reply::Value(Value(a)),
            3 | 8 | 13 | 17 => Reply::Index(a),
            36..=38 => Reply::Dropped(Dropped { uses: b }),
            39..=41 => Reply::Erased(Erased { operations: a, uses: b }),
            42..=44 => Reply::Verdict(Verdict::of(a, b)),
            _ => Reply::Done,
        }
    }
}

/// What a drop ended.
#[derive(Clone, Copy, Debug, PartialEq, Eq, Hash)]
pub struct Dropped {
    pub uses: u32,
}

/// What an erasure ended.
#[derive(Clone, Copy, Debug, PartialEq, Eq, Hash)]
pub struct Erased {
    pub operations: u32,
    pub uses: u32,
}

/// What a verdict found first.
#[derive(Clone, Copy, Debug, PartialEq, Eq, Hash)]
pub enum Verdict {
    Clean,
    BlockInNoRegion(Block),
    NoTerminator(Block),
    TerminatorNotLast(Operation),
    NotReached(Block),
}

impl Verdict {
    /// The sentences for the numbers 0 to 4.
    pub const MEANINGS: [&'static str; 5] = [
        "Nothing was found.",
        "The block is in no region.",
        "The block's last operation is no terminator, or it has none, and its parent operation does not allow that.",
        "The terminator has an operation after it.",
        "A predecessor of the block ends in no terminator, or none of that operation's successors names the block.",
    ];

    /// Its number, 0 to 4.
    pub const fn number(self) -> u32 {
        match self {
            Verdict::Clean => 0,
            Verdict::BlockInNoRegion(_) => 1,
            Verdict::NoTerminator(_) => 2,
            Verdict::TerminatorNotLast(_) => 3,
            Verdict::NotReached(_) => 4,
        }
    }

    /// What it says, in one sentence.
    pub const fn meaning(self) -> &'static str {
        Verdict::MEANINGS[self.number() as usize]
    }

    fn of(verdict: u32, offender: u32) -> Verdict {
        match verdict {
            0 => Verdict::Clean,
            1 => Verdict::BlockInNoRegion(Block(offender)),
            2 => Verdict::NoTerminator(Block(offender)),
            3 => Verdict::TerminatorNotLast(Operation(offender)),
            4 => Verdict::NotReached(Block(offender)),
            _ => unreachable!("a verdict is 0 to 4"),
        }
    }
}
