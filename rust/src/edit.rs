//! The 44 edits: as values, as records, and as methods of a store.
use crate::{Block, Dropped, Erased, Flags, Operation, Refusal, Region, Reply, Store, Type, Use, Value, Verdict};

/// The most bytes that a record has.
pub const RECORD_BYTES: usize = 2048;

/// A record does not fit: it has this many bytes, and the slice lent for it has fewer, or it is over [`RECORD_BYTES`].
#[derive(Clone, Copy, Debug, PartialEq, Eq)]
pub struct DoesNotFit {
    pub bytes: usize,
}

/// Writes the table of the kinds without lists as variants of `Edit` and methods of `Store`. The kinds with lists stand in the macro's body.
macro_rules! edits {
    ($($(#[$doc:meta])* $kind:literal $name:literal $variant:ident $method:ident($($field:ident: $type:ident),*) $(-> $reply:ident($part:path))?;)*) => {
        /// One edit. The fields stand in the order of the record.
        #[derive(Clone, Copy, Debug, PartialEq, Eq, Hash)]
        pub enum Edit<'a> {
            /// Kind 1: an unlinked operation with these results, operands and successors and so many empty regions.
            NewOperation { flags: Flags, results: &'a [Type], operands: &'a [Value], successors: &'a [Block], regions: u32 },
            /// Kind 2: an unlinked block with arguments of these types.
            NewBlock { arguments: &'a [Type] },
            /// Kind 34: the listed uses of one value become uses of another.
            ReplaceSome { this: Value, other: Value, uses: &'a [Use] },
            /// Kind 35: the uses of one block by operations in the listed blocks become uses of another.
            RetargetSome { this: Block, other: Block, blocks: &'a [Block] },
            $($(#[$doc])* $variant { $($field: $type),* },)*
        }

        impl<'a> Edit<'a> {
            /// The kind's number, 1 to 44.
            pub const fn kind(&self) -> u16 {
                match self {
                    Edit::NewOperation { .. } => 1,
                    Edit::NewBlock { .. } => 2,
                    Edit::ReplaceSome { .. } => 34,
                    Edit::RetargetSome { .. } => 35,
                    $(Edit::$variant { .. } => $kind,)*
                }
            }

            fn put_fields(&self, w: &mut Writer<'_>) {
                match *self {
                    Edit::NewOperation { flags, results, operands, successors, regions } => {
                        let lengths = [results.len(), operands.len(), successors.len()];
                        w.put(flags as u32);
                        lengths.iter().for_each(|&length| w.put_length(length));
                        w.put(regions);
                        w.put_all(results);
                        w.put_all(operands);
                        w.put_all(successors);
                    }
                    Edit::NewBlock { arguments } => {
                        w.put_length(arguments.len());
                        w.put_all(arguments);
                    }
                    Edit::ReplaceSome { this, other, uses } => {
                        w.put(this.0);
                        w.put(other.0);
                        w.put_all(uses);
                    }
                    Edit::RetargetSome { this, other, blocks } => {
                        w.put(this.0);
                        w.put(other.0);
                        w.put_all(blocks);
                    }
                    $(Edit::$variant { $($field),* } => {
                        $(w.put(u32::from($field));)*
                    })*
                }
            }
        }

        /// The edits, one method for each kind. Each is one call of [`Store::apply`].
        impl<'a> Store<'a> {
            /// Kind 1: an unlinked operation with these results, operands and successors and so many empty regions.
            pub fn new_operation(
                &mut self,
                flags: Flags,
                results: &[Type],
                operands: &[Value],
                successors: &[Block],
                regions: u32,
            ) -> Result<Operation, Refusal> {
                let reply = self.apply(&Edit::NewOperation { flags, results, operands, successors, regions })?;
                Ok(part!(reply, Reply::Operation))
            }

            /// Kind 2: an unlinked block with arguments of these types.
            pub fn new_block(&mut self, arguments: &[Type]) -> Result<Block, Refusal> {
                let reply = self.apply(&Edit::NewBlock { arguments })?;
                Ok(part!(reply, Reply::Block))
            }

            /// Kind 34: the listed uses of one value become uses of another.
            pub fn replace_some(&mut self, this: Value, other: Value, uses: &[Use]) -> Result<(), Refusal> {
                self.apply(&Edit::ReplaceSome { this, other, uses }).map(|_| ())
            }

            /// Kind 35: the uses of one block by operations in the listed blocks become uses of another.
            pub fn retarget_some(&mut self, this: Block, other: Block, blocks: &[Block]) -> Result<(), Refusal> {
                self.apply(&Edit::RetargetSome { this, other, blocks }).map(|_| ())
            }

            $($(#[$doc])*
            pub fn $method(&mut self, $($field: $type),*) -> Result<returned!($($reply)?), Refusal> {
                let _reply = self.apply(&Edit::$variant { $($field),* })?;
                Ok(part!(_reply $(, $part)?))
            })*
        }

        /// The names of the kinds 1 to 44, as `tools/script` has them: that of kind k is `NAMES[k - 1]`.
        pub const NAMES: [&str; 44] = {
            let mut names = [""; 44];
            names[0] = "new-operation";
            names[1] = "new-block";
            names[33] = "replace-some";
            names[34] = "retarget-some";
            $(names[$kind - 1] = $name;)*
            names
        };
    };
}

macro_rules! returned {
    () => {
        ()
    };
    ($reply:ident) => {
        $reply
    };
}

macro_rules! part {
    ($reply:expr) => {
        ()
    };
    ($reply:expr, $part:path) => {
        match $reply {
            $part(part) => part,
            _ => unreachable!("the reply of another kind"),
        }
    };
}

edits! {
    /// Kind 3: a new operand goes last; its index.
    3 "push-operand" PushOperand push_operand(operation: Operation, value: Value) -> u32(Reply::Index);
    /// Kind 4: a new operand at the index.
    4 "insert-operand" InsertOperand insert_operand(operation: Operation, index: u32, value: Value);
    /// Kind 5: a new operand in the place of the one at the index, which ends.
    5 "replace-operand" ReplaceOperand replace_operand(operation: Operation, index: u32, value: Value);
    /// Kind 6: the operand at the index ends; the value that it named.
    6 "remove-operand" RemoveOperand remove_operand(operation: Operation, index: u32) -> Value(Reply::Value);
    /// Kind 7: the last operand ends; the value that it named.
    7 "pop-operand" PopOperand pop_operand(operation: Operation) -> Value(Reply::Value);
    /// Kind 8: a new successor goes last; its index.
    8 "push-successor" PushSuccessor push_successor(operation: Operation, block: Block) -> u32(Reply::Index);
    /// Kind 9: a new successor at the index.
    9 "insert-successor" InsertSuccessor insert_successor(operation: Operation, index: u32, block: Block);
    /// Kind 10: a new successor in the place of the one at the index, which ends.
    10 "replace-successor" ReplaceSuccessor replace_successor(operation: Operation, index: u32, block: Block);
    /// Kind 11: the successor at the index ends; the block that it named.
    11 "remove-successor" RemoveSuccessor remove_successor(operation: Operation, index: u32) -> Block(Reply::Block);
    /// Kind 12: the last successor ends; the block that it named.
    12 "pop-successor" PopSuccessor pop_successor(operation: Operation) -> Block(Reply::Block);
    /// Kind 13: a new result goes last; its index.
    13 "push-result" PushResult push_result(operation: Operation, of_type: Type) -> u32(Reply::Index);
    /// Kind 14: a new result at the index.
    14 "insert-result" InsertResult insert_result(operation: Operation, index: u32, of_type: Type);
    /// Kind 15: the result at the index ends.
    15 "remove-result" RemoveResult remove_result(operation: Operation, index: u32);
    /// Kind 16: the last result ends.
    16 "pop-result" PopResult pop_result(operation: Operation);
    /// Kind 17: a new argument goes last; its index.
    17 "push-argument" PushArgument push_argument(block: Block, of_type: Type) -> u32(Reply::Index);
    /// Kind 18: a new argument at the index.
    18 "insert-argument" InsertArgument insert_argument(block: Block, index: u32, of_type: Type);
    /// Kind 19: the argument at the index ends.
    19 "remove-argument" RemoveArgument remove_argument(block: Block, index: u32);
    /// Kind 20: the last argument ends.
    20 "pop-argument" PopArgument pop_argument(block: Block);
    /// Kind 21: an unlinked operation comes after the mark, into its block.
    21 "link-operation-after" LinkOperationAfter link_operation_after(operation: Operation, mark: Operation);
    /// Kind 22: an unlinked operation comes before the mark, into its block.
    22 "link-operation-before" LinkOperationBefore link_operation_before(operation: Operation, mark: Operation);
    /// Kind 23: an unlinked operation becomes the first of a block.
    23 "link-operation-front" LinkOperationFront link_operation_front(operation: Operation, block: Block);
    /// Kind 24: an unlinked operation becomes the last of a block.
    24 "link-operation-back" LinkOperationBack link_operation_back(operation: Operation, block: Block);
    /// Kind 25: an operation leaves its block.
    25 "unlink-operation" UnlinkOperation unlink_operation(operation: Operation);
    /// Kind 26: an unlinked block comes after the mark, into its region.
    26 "link-block-after" LinkBlockAfter link_block_after(block: Block, mark: Block);
    /// Kind 27: an unlinked block comes before the mark, into its region.
    27 "link-block-before" LinkBlockBefore link_block_before(block: Block, mark: Block);
    /// Kind 28: an unlinked block becomes the first of a region.
    28 "link-block-front" LinkBlockFront link_block_front(block: Block, region: Region);
    /// Kind 29: an unlinked block becomes the last of a region.
    29 "link-block-back" LinkBlockBack link_block_back(block: Block, region: Region);
    /// Kind 30: a block leaves its region.
    30 "unlink-block" UnlinkBlock unlink_block(block: Block);
    /// Kind 31: a region goes to the end of an operation's regions; the last region of its old operation takes its place.
    31 "move-region" MoveRegion move_region(region: Region, operation: Operation);
    /// Kind 32: a use of one value becomes a use of another.
    32 "move-value-use" MoveValueUse move_value_use(this: Value, moved: Use, other: Value);
    /// Kind 33: a use of one block becomes a use of another.
    33 "move-block-use" MoveBlockUse move_block_use(this: Block, moved: Use, other: Block);
    /// Kind 36: all operands and successors in the operation end, its own included.
    36 "drop-operation" DropOperation drop_operation(operation: Operation) -> Dropped(Reply::Dropped);
    /// Kind 37: all operands and successors in the block end.
    37 "drop-block" DropBlock drop_block(block: Block) -> Dropped(Reply::Dropped);
    /// Kind 38: all operands and successors in the region end.
    38 "drop-region" DropRegion drop_region(region: Region) -> Dropped(Reply::Dropped);
    /// Kind 39: the operation and all inside it end.
    39 "erase-operation" EraseOperation erase_operation(operation: Operation) -> Erased(Reply::Erased);
    /// Kind 40: the block and all inside it end.
    40 "erase-block" EraseBlock erase_block(block: Block) -> Erased(Reply::Erased);
    /// Kind 41: the region at the index of an operation, and all inside it, end.
    41 "erase-region" EraseRegion erase_region(operation: Operation, index: u32) -> Erased(Reply::Erased);
    /// Kind 42: the verdict on an operation. Nothing changes.
    42 "verdict-operation" VerdictOperation verdict_operation(operation: Operation) -> Verdict(Reply::Verdict);
    /// Kind 43: the verdict on a block. Nothing changes.
    43 "verdict-block" VerdictBlock verdict_block(block: Block) -> Verdict(Reply::Verdict);
    /// Kind 44: the verdict on a region. Nothing changes.
    44 "verdict-region" VerdictRegion verdict_region(region: Region) -> Verdict(Reply::Verdict);
}

impl<'a> Edit<'a> {
    /// The kind's name, as `tools/script` has it.
    pub const fn name(&self) -> &'static str {
        NAMES[self.kind() as usize - 1]
    }

    /// Writes the record to the front of `out`, and hands that part back. `out` keeps its bytes where the record does not fit.
    ///
    /// ```
    /// use recipe_store::{Edit, Operation, Value};
    /// let mut bytes = [0; 12];
    /// let record = Edit::PushOperand { operation: Operation(0), value: Value(1) }.encode(&mut bytes).unwrap();
    /// assert_eq!(record, [12, 0, 3, 0, 0, 0, 0, 0, 1, 0, 0, 0]);
    /// ```
    pub fn encode<'b>(&self, out: &'b mut [u8]) -> Result<&'b [u8], DoesNotFit> {
        let mut count = Writer { out: None, at: 4 };
        self.put_fields(&mut count);
        let bytes = count.at;
        if bytes > RECORD_BYTES || bytes > out.len() {
            return Err(DoesNotFit { bytes });
        }
        out[..2].copy_from_slice(&(bytes as u16).to_le_bytes());
        out[2..4].copy_from_slice(&self.kind().to_le_bytes());
        self.put_fields(&mut Writer { out: Some(out), at: 4 });
        Ok(&out[..bytes])
    }
}

/// Writes fields, or only counts their bytes.
struct Writer<'b> {
    out: Option<&'b mut [u8]>,
    at: usize,
}

impl<'b> Writer<'b> {
    fn put(&mut self, field: u32) {
        if let Some(out) = &mut self.out {
            out[self.at..self.at + 4].copy_from_slice(&field.to_le_bytes());
        }
        self.at += 4;
    }

    // A length over 32 bits is cut only while bytes are counted, where the record is found too long.
    fn put_length(&mut self, length: usize) {
        self.put(length as u32);
    }

    fn put_all<T: Copy + Into<u32>>(&mut self, fields: &[T]) {
        if self.out.is_none() {
            self.at = self.at.saturating_add(fields.len().saturating_mul(4));
            return;
        }
        fields.iter().for_each(|&field| self.put(field.into()));
    }
}
