//! Birth numbers, by kind, so that a block is not handed in where an operation is meant.

macro_rules! numbers {
    ($($(#[$doc:meta])* $name:ident;)*) => {
        $(
            $(#[$doc])*
            #[derive(Clone, Copy, Debug, Default, PartialEq, Eq, Hash, PartialOrd, Ord)]
            #[repr(transparent)]
            pub struct $name(pub u32);

            impl From<$name> for u32 {
                fn from(number: $name) -> u32 {
                    number.0
                }
            }
        )*
    };
}

numbers! {
    /// The birth number of an operation.
    Operation;
    /// The birth number of a block.
    Block;
    /// The birth number of a region.
    Region;
    /// The birth number of a value: a result of an operation or an argument of a block.
    Value;
    /// The birth number of a use: an operand or a successor.
    Use;
    /// The type of a value, a number that the store keeps and does not read.
    Type;
}

/// The flags of an operation.
#[derive(Clone, Copy, Debug, Default, PartialEq, Eq, Hash)]
#[repr(u32)]
pub enum Flags {
    #[default]
    None = 0,
    /// It is a terminator.
    Terminator = 1,
    /// The blocks of its regions may lack a terminator.
    OpenBlocks = 2,
    /// Both.
    TerminatorWithOpenBlocks = 3,
}
