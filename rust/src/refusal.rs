//! The 22 refusals, by number.
use core::fmt;

macro_rules! refusals {
    ($($number:literal $name:ident $meaning:literal,)*) => {
        /// Why a call was refused. A refused edit changes nothing.
        #[derive(Clone, Copy, Debug, PartialEq, Eq, Hash, PartialOrd, Ord)]
        #[repr(u32)]
        pub enum Refusal {
            $(#[doc = $meaning] $name = $number,)*
        }

        impl Refusal {
            /// All of them, rising.
            pub const ALL: [Refusal; 22] = [$(Refusal::$name,)*];

            /// What it says, in one sentence.
            pub const fn meaning(self) -> &'static str {
                match self {
                    $(Refusal::$name => $meaning,)*
                }
            }
        }
    };
}

refusals! {
    1 BadLength "The record's length is under 4, over 2,048 or no multiple of 4, or it is not that of the bytes given.",
    2 UnknownKind "No edit has this kind: kinds go from 1 to 44.",
    3 FieldCount "The record has fewer or more fields than its kind wants.",
    4 FieldLimit "The flags are over 3, a list of a new operation or block is over 64 entries, or more than 256 numbers are listed.",
    5 BadStart "A capacity is 0 or over its limit, or the buffer is too short for the store.",
    6 NotSound "The buffer does not hold a sound store.",
    7 NoOperation "No live operation has this number.",
    8 NoBlock "No live block has this number.",
    9 NoRegion "No live region has this number.",
    10 NoValue "No live value has this number.",
    11 NotItsUse "The use is not live, or it is a use of another definition.",
    12 IndexOutside "The index is outside the list, or the list to pop from is empty.",
    13 StillUsed "What is to be removed or erased is still used.",
    14 UsedWithin "Something inside what is to be erased is used from outside it.",
    15 AlreadyLinked "The operation or block to insert stands in a list already.",
    16 NotLinked "The mark, or the thing to unlink, stands in no list.",
    17 InsideItself "The thing would come to lie inside itself.",
    18 UserInNoBlock "An operation that uses the block is in no block.",
    19 ListFull "The list that would grow has 64 entries already.",
    20 TableFull "A table has too few free places for what would be born.",
    21 NumbersSpent "Too few birth numbers are left for what would be born.",
    22 BufferShort "A lent buffer is too short: the scratch, the answers or the list of uses.",
}

impl Refusal {
    /// Its number, 1 to 22.
    pub const fn number(self) -> u32 {
        self as u32
    }

    /// The refusal with this number; nothing for 0 and for numbers over 22.
    pub fn from_number(number: u32) -> Option<Refusal> {
        let index = (number as usize).checked_sub(1)?;
        Refusal::ALL.get(index).copied()
    }

    /// What a reply's number says: 0 is an acceptance.
    pub(crate) fn of_reply(number: u32) -> Result<(), Refusal> {
        if number == 0 {
            return Ok(());
        }
        Err(Refusal::from_number(number).expect("the library replies with 0 to 22"))
    }
}

impl fmt::Display for Refusal {
    fn fmt(&self, f: &mut fmt::Formatter<'_>) -> fmt::Result {
        write!(f, "refusal {}: {}", self.number(), self.meaning())
    }
}
