//! What a refusal says.

#![forbid(unsafe_code)]

use crate::sys::ANSWER_WORDS;
use std::error::Error;
use std::fmt;

/// Why a listing is refused, or not written. Chunks, instructions (`ip`, within their chunk), entries and arguments are
/// counted from 0. The variants stand in the order of their numbers, 1 to 20.
#[derive(Clone, Copy, Debug, PartialEq, Eq, Hash)]
#[non_exhaustive]
#[allow(missing_docs)] // The fields are said in their variant's sentence.
pub enum Refusal {
    /// A line cannot follow those before it, or the end is missing; `lines` lines stand before it. An op that names
    /// kind 5 where F is 0 cannot follow. Where tables are written and no listing gives them, `lines` is 0.
    CannotFollow { lines: u64 },
    /// A limit is passed. `chunk` and `ip` are 0 for the limits of reading.
    LimitPassed { chunk: u64, ip: u64, limit: Limit },
    /// The instruction is the first that breaks a rule of nesting.
    NotNested { chunk: u64, ip: u64 },
    /// A sheet of `length` entries is lent for more `instructions`. [`check`](crate::check) lends sheets that are
    /// long enough.
    SheetTooShort { instructions: u64, length: u64 },
    /// The instruction needs more operands than there are.
    StackUnderflow { chunk: u64, ip: u64 },
    /// A flat read at `offset` ends at byte `need` of a composite of `size` bytes.
    OffsetOutOfBounds { chunk: u64, ip: u64, offset: u64, need: u64, size: u64 },
    /// A flat read, or a flat index, of a scalar.
    ExpectedComposite { chunk: u64, ip: u64 },
    /// A new composite says `baked` bytes; its operands have `computed`.
    NewCompositeSizeMismatch { chunk: u64, ip: u64, baked: u64, computed: u64 },
    /// A text is read at `offset`, where the composite has none.
    TextFieldMismatch { chunk: u64, ip: u64, offset: u64 },
    /// Arms of an If, or breaks of a loop, leave the heights `then_height` and `else_height`. `ip`: the If or the Loop.
    BranchHeightMismatch { chunk: u64, ip: u64, then_height: u64, else_height: u64 },
    /// A loop's body begins at `entry_height` and ends at `exit_height`. `ip`: the Loop.
    LoopNotNeutral { chunk: u64, ip: u64, entry_height: u64, exit_height: u64 },
    /// In a loop that was entered at height `floor`, over 0, an instruction that needs `required` operands finds
    /// `available` in all, those below the floor included: fewer than `floor` + `required`.
    LoopFloorBreach { chunk: u64, ip: u64, floor: u64, available: u64, required: u64 },
    /// A value of another shape is stored to the parameter `slot`.
    LocalTypeMismatch { chunk: u64, ip: u64, slot: u64 },
    /// A call of signature `callee` passes as argument `arg` a value of another shape than declared.
    CallArgMismatch { chunk: u64, ip: u64, callee: u64, arg: u64 },
    /// Elements of `element_size` bytes do not divide an array of `array_size`.
    ArrayStrideMismatch { chunk: u64, ip: u64, element_size: u64, array_size: u64 },
    /// The shared entry `slot`, of `size` bytes from `offset` on, ends past the `buffer` shared bytes; or its kind is
    /// no scalar and no composite, as kind 5 where F is 0, and `size` is 0.
    SharedSlotOutOfBounds { slot: u64, offset: u64, size: u64, buffer: u64 },
    /// A new enum says `baked` bytes, which no enum line allows.
    EnumBodySizeMismatch { chunk: u64, ip: u64, baked: u64 },
    /// The private entry `index`, which names the slot `slot`, is wrong.
    PrivateCompositeLayoutInvalid { index: u64, slot: u64, reason: PrivateReason },
    /// There are `shared_slots` shared slots and `layout_len` shared entries.
    SharedLayoutCountMismatch { shared_slots: u64, layout_len: u64, reason: SharedReason },
    /// The buffer for a listing has fewer than `needed` bytes, the listing's length. No check gives it.
    BufferTooShort { needed: u64 },
    /// A refusal of a later library, which this package does not know: its numbers.
    Unknown([u64; ANSWER_WORDS]),
}

/// The limits of [`Refusal::LimitPassed`], by their numbers.
#[derive(Clone, Copy, Debug, PartialEq, Eq, Hash)]
#[non_exhaustive]
pub enum Limit {
    /// The listing has more than 65,536 bytes.
    Bytes = 1,
    /// A table is overfull: 256 each of slots, shared and private entries; 64 each of enums, natives, signatures and
    /// chunks; 16 parameters of a signature; 1,024 constants and 4,096 instructions in all.
    Table = 2,
    /// A chunk has more than 32 locals.
    Locals = 3,
    /// More than 8 blocks are open at once.
    Blocks = 4,
    /// There are more than 64 operands after the instruction.
    Operands = 5,
    /// A new composite has more than 16 known text places.
    Places = 6,
}

/// The reasons of [`Refusal::PrivateCompositeLayoutInvalid`], by their numbers.
#[derive(Clone, Copy, Debug, PartialEq, Eq, Hash)]
#[non_exhaustive]
pub enum PrivateReason {
    /// There is no such slot.
    NoSlot = 1,
    /// The offset is outside the pool.
    OutsideThePool = 2,
    /// The slot is not above that of the entry before.
    SlotNotAbove = 3,
    /// The offset is not above that of the entry before.
    OffsetNotAbove = 4,
}

/// The reasons of [`Refusal::SharedLayoutCountMismatch`], by their numbers.
#[derive(Clone, Copy, Debug, PartialEq, Eq, Hash)]
#[non_exhaustive]
pub enum SharedReason {
    /// The shared slots do not come first.
    NotAPrefix = 1,
    /// The two numbers differ.
    CountsDiffer = 2,
}

impl Limit {
    const ALL: [Limit; 6] = [Limit::Bytes, Limit::Table, Limit::Locals, Limit::Blocks, Limit::Operands, Limit::Places];

    /// Whether it is found in reading, before there is an instruction.
    fn is_of_reading(self) -> bool {
        matches!(self, Limit::Bytes | Limit::Table | Limit::Locals)
    }
}

impl PrivateReason {
    const ALL: [PrivateReason; 4] = [
        PrivateReason::NoSlot,
        PrivateReason::OutsideThePool,
        PrivateReason::SlotNotAbove,
        PrivateReason::OffsetNotAbove,
    ];
}

impl SharedReason {
    const ALL: [SharedReason; 2] = [SharedReason::NotAPrefix, SharedReason::CountsDiffer];
}

/// That one of all, counted from 1.
fn numbered<T: Copy>(all: &[T], number: u64) -> Option<T> {
    all.get(usize::try_from(number).ok()?.checked_sub(1)?).copied()
}

impl Refusal {
    /// The words of an answer, or the refusal that they say.
    pub(crate) fn unless_zero(words: [u64; ANSWER_WORDS]) -> Result<[u64; ANSWER_WORDS], Self> {
        if words[0] == 0 { Ok(words) } else { Err(Refusal::from_words(words)) }
    }

    pub(crate) fn from_words(words: [u64; ANSWER_WORDS]) -> Self {
        Refusal::known(words).unwrap_or(Refusal::Unknown(words))
    }

    fn known(words: [u64; ANSWER_WORDS]) -> Option<Self> {
        let [number, chunk, a, b, c, d, ..] = words;
        // In the instruction's own refusals the first value is the instruction.
        let ip = a;
        Some(match number {
            1 => Refusal::CannotFollow { lines: a },
            2 => Refusal::LimitPassed { chunk, ip, limit: numbered(&Limit::ALL, b)? },
            3 => Refusal::NotNested { chunk, ip },
            4 => Refusal::SheetTooShort { instructions: a, length: b },
            5 => Refusal::StackUnderflow { chunk, ip },
            6 => Refusal::OffsetOutOfBounds { chunk, ip, offset: b, need: c, size: d },
            7 => Refusal::ExpectedComposite { chunk, ip },
            8 => Refusal::NewCompositeSizeMismatch { chunk, ip, baked: b, computed: c },
            9 => Refusal::TextFieldMismatch { chunk, ip, offset: b },
            10 => Refusal::BranchHeightMismatch { chunk, ip, then_height: b, else_height: c },
            11 => Refusal::LoopNotNeutral { chunk, ip, entry_height: b, exit_height: c },
            12 => Refusal::LoopFloorBreach { chunk, ip, floor: b, available: c, required: d },
            13 => Refusal::LocalTypeMismatch { chunk, ip, slot: b },
            14 => Refusal::CallArgMismatch { chunk, ip, callee: b, arg: c },
            15 => Refusal::ArrayStrideMismatch { chunk, ip, element_size: b, array_size: c },
            16 => Refusal::SharedSlotOutOfBounds { slot: a, offset: b, size: c, buffer: d },
            17 => Refusal::EnumBodySizeMismatch { chunk, ip, baked: b },
            18 => {
                Refusal::PrivateCompositeLayoutInvalid { index: a, slot: b, reason: numbered(&PrivateReason::ALL, c)? }
            }
            19 => Refusal::SharedLayoutCountMismatch {
                shared_slots: a,
                layout_len: b,
                reason: numbered(&SharedReason::ALL, c)?,
            },
            20 => Refusal::BufferTooShort { needed: a },
            _ => return None,
        })
    }

    /// Its number, its chunk (0 where none is at fault) and its values: what the program `stagecheck` prints after
    /// `refused`.
    pub fn numbers(&self) -> Vec<u64> {
        match *self {
            Refusal::CannotFollow { lines } => vec![1, 0, lines],
            Refusal::LimitPassed { chunk, ip, limit } => vec![2, chunk, ip, limit as u64],
            Refusal::NotNested { chunk, ip } => vec![3, chunk, ip],
            Refusal::SheetTooShort { instructions, length } => vec![4, 0, instructions, length],
            Refusal::StackUnderflow { chunk, ip } => vec![5, chunk, ip],
            Refusal::OffsetOutOfBounds { chunk, ip, offset, need, size } => vec![6, chunk, ip, offset, need, size],
            Refusal::ExpectedComposite { chunk, ip } => vec![7, chunk, ip],
            Refusal::NewCompositeSizeMismatch { chunk, ip, baked, computed } => vec![8, chunk, ip, baked, computed],
            Refusal::TextFieldMismatch { chunk, ip, offset } => vec![9, chunk, ip, offset],
            Refusal::BranchHeightMismatch { chunk, ip, then_height, else_height } => {
                vec![10, chunk, ip, then_height, else_height]
            }
            Refusal::LoopNotNeutral { chunk, ip, entry_height, exit_height } => {
                vec![11, chunk, ip, entry_height, exit_height]
            }
            Refusal::LoopFloorBreach { chunk, ip, floor, available, required } => {
                vec![12, chunk, ip, floor, available, required]
            }
            Refusal::LocalTypeMismatch { chunk, ip, slot } => vec![13, chunk, ip, slot],
            Refusal::CallArgMismatch { chunk, ip, callee, arg } => vec![14, chunk, ip, callee, arg],
            Refusal::ArrayStrideMismatch { chunk, ip, element_size, array_size } => {
                vec![15, chunk, ip, element_size, array_size]
            }
            Refusal::SharedSlotOutOfBounds { slot, offset, size, buffer } => vec![16, 0, slot, offset, size, buffer],
            Refusal::EnumBodySizeMismatch { chunk, ip, baked } => vec![17, chunk, ip, baked],
            Refusal::PrivateCompositeLayoutInvalid { index, slot, reason } => vec![18, 0, index, slot, reason as u64],
            Refusal::SharedLayoutCountMismatch { shared_slots, layout_len, reason } => {
                vec![19, 0, shared_slots, layout_len, reason as u64]
            }
            Refusal::BufferTooShort { needed } => vec![20, 0, needed],
            Refusal::Unknown(words) => words.to_vec(),
        }
    }

    /// Its number, 1 to 20.
    pub fn number(&self) -> u64 {
        self.numbers()[0]
    }

    /// The chunk at fault, where one is.
    pub fn chunk(&self) -> Option<u64> {
        self.place().map(|(chunk, _)| chunk)
    }

    /// The instruction at fault in its chunk, where one is.
    pub fn ip(&self) -> Option<u64> {
        self.place().map(|(_, ip)| ip)
    }

    fn place(&self) -> Option<(u64, u64)> {
        match *self {
            Refusal::LimitPassed { limit, .. } if limit.is_of_reading() => None,
            Refusal::LimitPassed { chunk, ip, .. }
            | Refusal::NotNested { chunk, ip }
            | Refusal::StackUnderflow { chunk, ip }
            | Refusal::OffsetOutOfBounds { chunk, ip, .. }
            | Refusal::ExpectedComposite { chunk, ip }
            | Refusal::NewCompositeSizeMismatch { chunk, ip, .. }
            | Refusal::TextFieldMismatch { chunk, ip, .. }
            | Refusal::BranchHeightMismatch { chunk, ip, .. }
            | Refusal::LoopNotNeutral { chunk, ip, .. }
            | Refusal::LoopFloorBreach { chunk, ip, .. }
            | Refusal::LocalTypeMismatch { chunk, ip, .. }
            | Refusal::CallArgMismatch { chunk, ip, .. }
            | Refusal::ArrayStrideMismatch { chunk, ip, .. }
            | Refusal::EnumBodySizeMismatch { chunk, ip, .. } => Some((chunk, ip)),
            Refusal::CannotFollow { .. }
            | Refusal::SheetTooShort { .. }
            | Refusal::SharedSlotOutOfBounds { .. }
            | Refusal::PrivateCompositeLayoutInvalid { .. }
            | Refusal::SharedLayoutCountMismatch { .. }
            | Refusal::BufferTooShort { .. }
            | Refusal::Unknown(_) => None,
        }
    }

    /// The refusal in words, without its place.
    fn sentence(&self, out: &mut fmt::Formatter) -> fmt::Result {
        use Refusal::*;
        match self {
            CannotFollow { lines } => {
                write!(out, "after {lines} lines comes one that cannot follow, or the end is missing")
            }
            LimitPassed { limit, .. } => write!(out, "{limit}"),
            NotNested { .. } => write!(out, "a rule of nesting is broken"),
            SheetTooShort { instructions: n, length } => {
                write!(out, "{n} instructions, and a sheet of {length} entries")
            }
            StackUnderflow { .. } => write!(out, "it needs more operands than there are"),
            ExpectedComposite { .. } => write!(out, "a scalar is read as a composite"),
            TextFieldMismatch { offset, .. } => write!(out, "a text is read at offset {offset}, where there is none"),
            BranchHeightMismatch { then_height, else_height, .. } => {
                write!(out, "one way leaves {then_height} operands, another {else_height}")
            }
            LoopNotNeutral { entry_height, exit_height, .. } => {
                write!(out, "the loop's body begins with {entry_height} operands and ends with {exit_height}")
            }
            LoopFloorBreach { floor, available, required, .. } => {
                write!(out, "it needs {required} operands and finds {available}, {floor} of them from before the loop")
            }
            LocalTypeMismatch { slot, .. } => write!(out, "a value of another shape is stored to parameter {slot}"),
            CallArgMismatch { callee, arg, .. } => {
                write!(out, "argument {arg} has not the shape that signature {callee} says")
            }
            BufferTooShort { needed } => write!(out, "the listing needs a buffer of {needed} bytes"),
            Unknown(words) => write!(out, "a refusal that is not known here, with the numbers {words:?}"),
            OffsetOutOfBounds { .. }
            | NewCompositeSizeMismatch { .. }
            | ArrayStrideMismatch { .. }
            | SharedSlotOutOfBounds { .. }
            | EnumBodySizeMismatch { .. }
            | PrivateCompositeLayoutInvalid { .. }
            | SharedLayoutCountMismatch { .. } => self.layout_sentence(out),
        }
    }

    /// The same where sizes, offsets or the data layout are wrong; nothing for the others.
    fn layout_sentence(&self, out: &mut fmt::Formatter) -> fmt::Result {
        use Refusal::*;
        match self {
            OffsetOutOfBounds { offset, need, size, .. } => {
                write!(out, "the read at offset {offset} ends at byte {need} of a composite of {size} bytes")
            }
            NewCompositeSizeMismatch { baked, computed, .. } => {
                write!(out, "a new composite says {baked} bytes, and its operands have {computed}")
            }
            ArrayStrideMismatch { element_size, array_size, .. } => {
                write!(out, "elements of {element_size} bytes do not divide an array of {array_size}")
            }
            SharedSlotOutOfBounds { slot, offset, size, buffer } => {
                write!(out, "shared entry {slot}, {size} bytes from {offset} on, is not within {buffer} shared bytes")
            }
            EnumBodySizeMismatch { baked, .. } => {
                write!(out, "a new enum says {baked} bytes, which no enum line allows")
            }
            PrivateCompositeLayoutInvalid { index, slot, reason } => {
                write!(out, "private entry {index}, slot {slot}: {reason}")
            }
            SharedLayoutCountMismatch { shared_slots: slots, layout_len, reason } => {
                write!(out, "{slots} shared slots and {layout_len} shared entries: {reason}")
            }
            _ => Ok(()),
        }
    }
}

impl fmt::Display for Refusal {
    fn fmt(&self, out: &mut fmt::Formatter) -> fmt::Result {
        if let Some((chunk, ip)) = self.place() {
            write!(out, "chunk {chunk}, instruction {ip}: ")?;
        }
        self.sentence(out)
    }
}

impl Error for Refusal {}

impl fmt::Display for Limit {
    fn fmt(&self, out: &mut fmt::Formatter) -> fmt::Result {
        out.write_str(match self {
            Limit::Bytes => "the listing has more than 65,536 bytes",
            Limit::Table => "a table is overfull",
            Limit::Locals => "a chunk has more than 32 locals",
            Limit::Blocks => "more than 8 blocks are open at once",
            Limit::Operands => "there are more than 64 operands",
            Limit::Places => "a new composite has more than 16 known text places",
        })
    }
}

impl fmt::Display for PrivateReason {
    fn fmt(&self, out: &mut fmt::Formatter) -> fmt::Result {
        out.write_str(match self {
            PrivateReason::NoSlot => "there is no such slot",
            PrivateReason::OutsideThePool => "its offset is outside the pool",
            PrivateReason::SlotNotAbove => "its slot is not above that of the entry before",
            PrivateReason::OffsetNotAbove => "its offset is not above that of the entry before",
        })
    }
}

impl fmt::Display for SharedReason {
    fn fmt(&self, out: &mut fmt::Formatter) -> fmt::Result {
        out.write_str(match self {
            SharedReason::NotAPrefix => "the shared slots do not come first",
            SharedReason::CountsDiffer => "the two numbers differ",
        })
    }
}
