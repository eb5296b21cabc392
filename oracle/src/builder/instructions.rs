//! Single instructions, proposed for what is on the stack.

use super::Builder;
use crate::bytecode::{ArrayElem, ConstValue, EnumField, FLOAT_TAG, NewCompositeOperand, Op, StructField, TupleField};
use crate::limits::Shape;
use crate::value_layout::{CompositeKind, ScalarKind};

/// The names without operands that do not shape the nesting or leave.
#[rustfmt::skip]
const BARE: [Op; 31] = [
    Op::Dup, Op::Add, Op::Sub, Op::Mul, Op::CmpEq, Op::CmpNe, Op::CmpLt, Op::CmpGt, Op::CmpLe, Op::CmpGe,
    Op::BitAnd, Op::BitOr, Op::BitXor, Op::Shl, Op::Shr, Op::Neg, Op::Not, Op::IntToFloat, Op::FloatToInt,
    Op::WordToByte, Op::ByteToWord, Op::Len, Op::Yield, Op::Div, Op::Mod, Op::CheckedAdd, Op::CheckedSub,
    Op::CheckedMod, Op::CheckedNeg, Op::Stream, Op::Reset,
];

impl Builder<'_> {
    /// A constant of a kind, from the pool or new in it.
    pub(super) fn constant(&mut self, tag: u8) -> Op {
        let value = ConstValue::from_tag(tag).expect("a constant has this kind");
        let known = self.chunk.constants.iter().position(|constant| *constant == value);
        let index = known.unwrap_or_else(|| {
            self.chunk.constants.push(value);
            self.chunk.constants.len() - 1
        });
        Op::Const(index as u16)
    }

    /// A push of a scalar whose kind is known; texts come often.
    pub(super) fn scalar(&mut self) -> Op {
        let tag = self.random.pick(&[0, 1, 2, 3, 3, 4, 5, 6, 6, 6]);
        // Where there are no floats, a constant of kind 5 is no scalar that is known.
        self.constant(self.widths().known(tag).map_or(3, |kind| kind.to_tag()))
    }

    /// Any push.
    pub(super) fn push(&mut self) -> Op {
        match self.random.below(10) {
            0..=2 => self.scalar(),
            3..=5 => Op::GetLocal(self.local()),
            6 => Op::GetData(self.random.long()),
            7 if !self.has_floats() && self.random.chance(70) => self.constant(FLOAT_TAG),
            7 => self.constant(255),
            8 => Op::Const(self.random.word()),
            _ => Op::PushImmediate(self.random.byte()),
        }
    }

    /// The number of a local or parameter, at times of neither.
    pub(super) fn local(&mut self) -> u16 {
        let locals = usize::from(self.chunk.local_count);
        let params = self.listing.module.signatures.get(self.number).map_or(0, |sig| sig.params.len());
        match self.random.below(12) {
            0 => self.random.word(),
            1 => self.random.below(locals.max(params) + 1) as u16,
            _ => self.random.below(locals.max(1)) as u16,
        }
    }

    /// Any instruction without a target, its operands small for the most part.
    pub(super) fn any_op(&mut self) -> Op {
        let random = &mut *self.random;
        match random.below(30) {
            0 => Op::WordToFixed(random.byte()),
            1 => Op::FixedToWord(random.byte()),
            2 => Op::FixedMul(random.byte()),
            3 => Op::FixedDiv(random.byte()),
            4 => Op::CheckedMul(random.byte()),
            5 => Op::CheckedDiv(random.byte()),
            6 => Op::SetData(random.long()),
            7 => Op::GetDataIndexed(random.long(), random.long()),
            8 => Op::SetDataIndexed(random.long(), random.long()),
            9 => Op::BoundsCheck(random.word()),
            10 => Op::IsEnum(random.word(), random.word(), random.word()),
            11 => Op::IsStruct(random.word()),
            12 => Op::PopN(random.below(4) as u8),
            13 => Op::SetLocal(self.local()),
            14 => self.read(),
            15 => self.index(),
            16 => self.composite(),
            17 => self.call(),
            18 => self.native(),
            19..=21 => self.push(),
            _ => random.pick(&BARE),
        }
    }

    /// An instruction that looks at what is on the stack.
    pub(super) fn fitting_op(&mut self) -> Op {
        match self.random.below(12) {
            0..=3 => self.read(),
            4 => self.index(),
            5..=6 => self.composite(),
            7 => Op::SetLocal(self.local()),
            8 => self.call(),
            9 => self.native(),
            10 => Op::Dup,
            _ => Op::GetLocal(self.local()),
        }
    }

    pub(super) fn scalar_kind(&mut self) -> ScalarKind {
        let tag = if self.random.chance(30) { 6 } else { self.random.below(8) as u8 };
        // Of the tags 0 to 7 the listing may lack one, which the last of them stands in for.
        self.widths().known(tag).unwrap_or(ScalarKind::Opaque)
    }

    pub(super) fn composite_kind(&mut self) -> CompositeKind {
        CompositeKind::from_tag(self.random.below(4) as u8).expect("tags 0 to 3 are known")
    }

    /// The size of a composite, and where its texts begin; of any other shape, one that is made up.
    pub(super) fn body(&mut self, shape: &Shape) -> (usize, Vec<u32>) {
        match shape {
            Shape::Composite { size, places, .. } => {
                ((*size).min(u32::from(u16::MAX)) as usize, places.clone().unwrap_or_default())
            }
            _ => (self.random.below(40), Vec::new()),
        }
    }

    /// An offset at which `width` bytes lie in a body, at times one at which they do not.
    fn offset(&mut self, size: usize, width: usize, places: &[u32]) -> u16 {
        let last = size.saturating_sub(width);
        let offset = match self.random.below(10) {
            0 => last + self.random.below(4),
            1 | 2 => last,
            3..=5 if !places.is_empty() => self.random.pick(places) as usize,
            _ => self.random.below(last + 1),
        };
        offset.min(usize::from(u16::MAX)) as u16
    }

    /// A read of a field of the top operand.
    pub(super) fn read(&mut self) -> Op {
        let top = self.operand(0);
        let (size, places) = self.body(&top);
        match self.random.below(8) {
            0 => self.boxed_field(),
            1..=3 => {
                let mut width = self.random.below(size + 1);
                if self.random.chance(40) {
                    width = width.min(2 * self.listing.word_bytes + 8);
                }
                let offset = self.offset(size, width, &places);
                self.nested_field(offset, width as u16)
            }
            _ => {
                let kind = self.scalar_kind();
                let texts: &[u32] = if kind == ScalarKind::Text { &places } else { &[] };
                let offset = self.offset(size, self.widths().scalar(kind) as usize, texts);
                self.scalar_field(offset, kind)
            }
        }
    }

    /// A flat read of a scalar, by any of the three names.
    pub(super) fn scalar_field(&mut self, offset: u16, kind: ScalarKind) -> Op {
        match self.random.below(3) {
            0 => Op::GetField(StructField::Flat { offset, kind }),
            1 => Op::GetTupleField(TupleField::Flat { offset, kind }),
            _ => Op::GetEnumField(EnumField::Flat { offset, kind }),
        }
    }

    /// A flat read of a composite, likewise.
    pub(super) fn nested_field(&mut self, offset: u16, size: u16) -> Op {
        let variant = self.composite_kind();
        match self.random.below(3) {
            0 => Op::GetField(StructField::FlatNested { offset, size, variant }),
            1 => Op::GetTupleField(TupleField::FlatNested { offset, size, variant }),
            _ => Op::GetEnumField(EnumField::FlatNested { offset, size, variant }),
        }
    }

    fn boxed_field(&mut self) -> Op {
        match self.random.below(3) {
            0 => Op::GetField(StructField::Boxed { name: self.random.word() }),
            1 => Op::GetTupleField(TupleField::Boxed { index: self.random.byte() }),
            _ => Op::GetEnumField(EnumField::Boxed { index: self.random.byte() }),
        }
    }

    /// An index into the operand below the top.
    pub(super) fn index(&mut self) -> Op {
        let array = self.operand(1);
        let (size, _) = self.body(&array);
        Op::GetIndex(match self.random.below(8) {
            0 => ArrayElem::Boxed,
            1..=3 => {
                let parts = self.random.between(1, 6);
                let extra = usize::from(self.random.chance(10));
                let size = (size / parts + extra).min(usize::from(u16::MAX)) as u16;
                ArrayElem::FlatNested { size, variant: self.composite_kind() }
            }
            _ => ArrayElem::Flat { kind: self.scalar_kind() },
        })
    }

    /// A composite of some of the operands, for the most part of the size that they have.
    fn composite(&mut self) -> Op {
        let count = self.random.between(0, self.available().min(4));
        let kind = self.composite_kind();
        if self.random.chance(15) {
            let meta = self.random.word();
            return Op::NewComposite(NewCompositeOperand::Boxed { kind, count: count as u16, meta });
        }
        self.composite_of(kind, count)
    }

    pub(super) fn composite_of(&mut self, kind: CompositeKind, count: usize) -> Op {
        let widths = self.widths();
        let taken = self.operands().iter().rev().take(count);
        let sizes: Option<Vec<u32>> = taken.map(|shape| widths.packed(shape)).collect();
        let enums = &self.listing.module.enum_layouts;
        let size = if kind == CompositeKind::Enum && !enums.is_empty() {
            let entry = self.random.pick(enums);
            (self.listing.word_bytes as u32).saturating_add(entry.min_payload)
        } else if let Some(sizes) = sizes {
            sizes.into_iter().fold(0, u32::saturating_add)
        } else {
            self.random.pick(&[0, 1, 8, 9, 16, 24, 40])
        };
        let off_by_one = u32::from(self.random.chance(4));
        let byte_size = size.saturating_add(off_by_one).min(u32::from(u16::MAX)) as u16;
        Op::NewComposite(NewCompositeOperand::Flat { kind, count: count as u16, byte_size })
    }

    fn call(&mut self) -> Op {
        let callees = self.listing.module.signatures.len() + 1;
        Op::Call(self.random.below(callees) as u16, self.random.below(4) as u8)
    }

    pub(super) fn native(&mut self) -> Op {
        let natives = self.listing.module.native_return_shapes.len() + 1;
        let native = self.random.below(natives) as u16;
        let flag = if self.random.chance(50) { 0x80 } else { 0 };
        let count = self.random.below(3) as u8 | flag;
        if self.random.chance(50) {
            Op::CallVerifiedNative(native, count)
        } else {
            Op::CallExternalNative(native, count)
        }
    }
}
