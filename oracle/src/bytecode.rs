//! What the check names of the original `bytecode.rs`, which was not handed over: declared from document 01, with
//! the names that `verify_typed.rs` and `op_depth_effect` use.

use crate::form::{Cursor, Operand};
use crate::value_layout::{CompositeKind, ScalarKind};

/// Base-two logarithm of the runtime's own address bits. Only a chunk checked without its module uses it.
pub const RUNTIME_ADDRESS_BITS_LOG2: u8 = 6;

/// Marks a shared entry's KIND as a composite of LEN bytes.
pub const SHARED_SLOT_COMPOSITE_FLAG: u8 = 0x80;

/// K of a float. In a listing with F 0, and in a build without floats, no scalar has it.
pub const FLOAT_TAG: u8 = 5;

/// The traps that take operands.
pub enum TrapKind {
    IndexOutOfBounds,
    HostError,
}

impl TrapKind {
    pub const fn code(&self) -> u16 {
        match self {
            TrapKind::IndexOutOfBounds => 8,
            TrapKind::HostError => 9,
        }
    }
}

#[derive(Clone, Debug, Default, PartialEq, Eq)]
pub struct Module {
    pub chunks: Vec<Chunk>,
    pub signatures: Vec<ChunkSignature>,
    pub native_return_shapes: Vec<WireShape>,
    pub enum_layouts: Vec<EnumLayout>,
    pub data_layout: Option<DataLayout>,
    pub shared_data_bytes: u32,
    pub persistent_composite_bytes: u32,
    pub addr_bits_log2: u8,
}

#[derive(Clone, Debug, Default, PartialEq, Eq)]
pub struct DataLayout {
    pub slots: Vec<DataSlot>,
    pub shared_layout: Vec<SharedSlotLayout>,
    pub private_composite_layout: Vec<PrivateCompositeLayout>,
}

#[derive(Clone, Debug, PartialEq, Eq)]
pub struct DataSlot {
    pub visibility: SlotVisibility,
}

#[derive(Clone, Copy, Debug, PartialEq, Eq)]
pub enum SlotVisibility {
    Shared,
    Private,
}

#[derive(Clone, Debug, PartialEq, Eq)]
pub struct SharedSlotLayout {
    pub offset: u32,
    pub kind: u8,
    pub len: u16,
}

#[derive(Clone, Debug, PartialEq, Eq)]
pub struct PrivateCompositeLayout {
    pub slot: u16,
    pub offset: u32,
}

#[derive(Clone, Debug, PartialEq, Eq)]
pub struct EnumLayout {
    pub min_payload: u32,
}

#[derive(Clone, Debug, PartialEq, Eq)]
pub enum WireShape {
    Top,
    Scalar { kind: u8 },
    Flat { kind: u8, size: u32 },
}

#[derive(Clone, Debug, PartialEq, Eq)]
pub struct ChunkSignature {
    pub params: Vec<WireShape>,
    pub ret: WireShape,
    pub resume: WireShape,
}

#[derive(Clone, Debug, Default, PartialEq, Eq)]
pub struct Chunk {
    pub local_count: u16,
    pub constants: Vec<ConstValue>,
    pub ops: Vec<Op>,
}

/// A constant. A listing gives its kind alone, so the variants that carry a value carry nothing here.
#[derive(Clone, Debug, PartialEq, Eq)]
pub enum ConstValue {
    Unit,
    Bool(()),
    Byte(()),
    Int(()),
    Fixed(()),
    #[cfg(feature = "floats")]
    Float(()),
    StaticStr(()),
    /// Any other constant, with its K: 255, and 5 in a build without floats.
    Other(u8),
}

impl ConstValue {
    /// Every constant with its K.
    pub const KINDS: [(u8, ConstValue); 8] = [
        (0, ConstValue::Unit),
        (1, ConstValue::Bool(())),
        (2, ConstValue::Byte(())),
        (3, ConstValue::Int(())),
        (4, ConstValue::Fixed(())),
        #[cfg(feature = "floats")]
        (FLOAT_TAG, ConstValue::Float(())),
        #[cfg(not(feature = "floats"))]
        (FLOAT_TAG, ConstValue::Other(FLOAT_TAG)),
        (6, ConstValue::StaticStr(())),
        (255, ConstValue::Other(255)),
    ];

    pub fn from_tag(tag: u8) -> Option<ConstValue> {
        ConstValue::KINDS.into_iter().find(|(k, _)| *k == tag).map(|(_, value)| value)
    }

    pub fn to_tag(&self) -> u8 {
        let row = ConstValue::KINDS.iter().find(|(_, value)| value == self);
        row.expect("every constant has its K").0
    }
}

/// Declares an operand that is written as the word of its variant and that variant's numbers.
macro_rules! variants {
    ($operand:ident { $($variant:ident $({ $($field:ident: $number:ty),+ })?),+ $(,)? }) => {
        #[derive(Clone, Debug, PartialEq, Eq)]
        pub enum $operand { $($variant $({ $($field: $number),+ })?),+ }

        impl Operand for $operand {
            fn read(cursor: &mut Cursor) -> Option<Self> {
                cursor.text(" ")?;
                match cursor.word() {
                    $(word if word == stringify!($variant).as_bytes() =>
                        Some($operand::$variant $({ $($field: <$number>::read(cursor)?),+ })?),)+
                    _ => None,
                }
            }

            fn write(&self, out: &mut Vec<u8>) {
                match self {
                    $($operand::$variant $({ $($field),+ })? => {
                        out.extend_from_slice(concat!(" ", stringify!($variant)).as_bytes());
                        $($($field.write(out);)+)?
                    })+
                }
            }
        }
    };
}

variants!(NewCompositeOperand {
    Flat { kind: CompositeKind, count: u16, byte_size: u16 },
    Boxed { kind: CompositeKind, count: u16, meta: u16 },
});
variants!(StructField {
    Flat { offset: u16, kind: ScalarKind },
    FlatNested { offset: u16, size: u16, variant: CompositeKind },
    Boxed { name: u16 },
});
variants!(TupleField {
    Flat { offset: u16, kind: ScalarKind },
    FlatNested { offset: u16, size: u16, variant: CompositeKind },
    Boxed { index: u8 },
});
variants!(EnumField {
    Flat { offset: u16, kind: ScalarKind },
    FlatNested { offset: u16, size: u16, variant: CompositeKind },
    Boxed { index: u8 },
});
variants!(ArrayElem {
    Flat { kind: ScalarKind },
    FlatNested { size: u16, variant: CompositeKind },
    Boxed,
});

impl NewCompositeOperand {
    /// The number of operands it takes.
    pub fn count(&self) -> u16 {
        match self {
            NewCompositeOperand::Flat { count, .. } | NewCompositeOperand::Boxed { count, .. } => *count,
        }
    }
}

impl ArrayElem {
    /// Whether the read pushes a bounds outcome above the element.
    pub fn has_bounds_outcome(&self) -> bool {
        match self {
            ArrayElem::Flat { kind } => matches!(kind, ScalarKind::Byte | ScalarKind::Int),
            ArrayElem::FlatNested { .. } | ArrayElem::Boxed => true,
        }
    }
}

/// Declares the ops: each with its operands in the order in which a listing has them.
macro_rules! ops {
    ($($name:ident $(($($operand:ident: $form:ty),+))?),+ $(,)?) => {
        #[derive(Clone, Debug, PartialEq, Eq)]
        pub enum Op { $($name $(($($form),+))?),+ }

        /// An op without its operands.
        #[derive(Clone, Copy)]
        enum Name { $($name),+ }

        impl Name {
            const ALL: &[Name] = &[$(Name::$name),+];
        }

        impl Op {
            pub const NAMES: &[&str] = &[$(stringify!($name)),+];

            /// Reads a name and its operands, and adds the op. It is made in its place among `ops`: copies of it on the
            /// way there would cost as much as all else.
            pub fn read(cursor: &mut Cursor, ops: &mut Vec<Op>) -> Option<()> {
                match Name::at_place_of(cursor.word_ahead())? {
                    $(Name::$name => {
                        cursor.text(stringify!($name))?;
                        $($(let $operand = <$form>::read(cursor)?;)+)?
                        ops.push(Op::$name $(($($operand),+))?);
                    })+
                }
                Some(())
            }

            /// Writes the name and the operands.
            pub fn write(&self, out: &mut Vec<u8>) {
                match self {
                    $(Op::$name $(($($operand),+))? => {
                        out.extend_from_slice(stringify!($name).as_bytes());
                        $($($operand.write(out);)+)?
                    })+
                }
            }
        }
    };
}

ops! {
    Const(index: u16), GetLocal(slot: u16), GetData(slot: u32), PushImmediate(value: u8),
    Dup,
    SetLocal(slot: u16), SetData(slot: u32),
    GetDataIndexed(slot: u32, count: u32), SetDataIndexed(slot: u32, count: u32),
    BoundsCheck(length: u16), GetIndex(element: ArrayElem),
    Add, Sub, Mul, CmpEq, CmpNe, CmpLt, CmpGt, CmpLe, CmpGe, BitAnd, BitOr, BitXor, Shl, Shr,
    FixedMul(fraction: u8),
    Neg, Not, IntToFloat, FloatToInt, WordToByte, ByteToWord,
    WordToFixed(fraction: u8), FixedToWord(fraction: u8),
    GetField(field: StructField), GetTupleField(field: TupleField), GetEnumField(field: EnumField),
    Len, Yield,
    IsEnum(name: u16, variant: u16, tag: u16), IsStruct(name: u16),
    Call(callee: u16, arguments: u8),
    CallVerifiedNative(native: u16, arguments: u8), CallExternalNative(native: u16, arguments: u8),
    NewComposite(operand: NewCompositeOperand),
    Div, Mod, FixedDiv(fraction: u8),
    CheckedAdd, CheckedSub, CheckedMod, CheckedMul(fraction: u8), CheckedDiv(fraction: u8), CheckedNeg,
    PopN(count: u8),
    Trap(code: u16),
    If(target: u16), BreakIf(target: u16), Else(target: u16), EndIf, Loop(target: u16), EndLoop(target: u16),
    Break(target: u16),
    Stream, Reset, Return,
}

impl Op {
    /// The name and the operands.
    pub fn text(&self) -> String {
        let mut out = Vec::new();
        self.write(&mut out);
        String::from_utf8(out).expect("an op is written in letters and digits")
    }
}

impl Name {
    /// The one name that a word may be, by the word's place.
    const AT_PLACE: [Option<Name>; 256] = {
        let mut names = [None; 256];
        let mut number = 0;
        while number < Name::ALL.len() {
            let place = Name::place(Op::NAMES[number].as_bytes()).expect("a name has two letters");
            assert!(names[place].is_none(), "each name has a place of its own");
            names[place] = Some(Name::ALL[number]);
            number += 1;
        }
        names
    };

    /// A number below 256 made of four letters, so that no two names share it.
    const fn place(word: &[u8]) -> Option<usize> {
        let [.., before_last, last] = word else { return None };
        let (first, middle) = (word[0] as usize, word[word.len() / 2] as usize);
        Some((19 * first + 30 * middle + *before_last as usize + *last as usize) % 256)
    }

    /// The one name that the word may be. It is not compared here.
    fn at_place_of(word: &[u8]) -> Option<Name> {
        Name::AT_PLACE[Name::place(word)?]
    }
}
