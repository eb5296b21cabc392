//! A few instructions that belong together.

use super::Builder;
use crate::bytecode::{ArrayElem, EnumField, FLOAT_TAG, NewCompositeOperand, Op, StructField, WireShape};
use crate::limits::Shape;
use crate::value_layout::{CompositeKind, ScalarKind};

impl Builder<'_> {
    /// A few instructions that belong together.
    pub(super) fn idiom(&mut self) {
        if !self.has_floats() && self.random.chance(15) {
            return self.use_of_kind_5();
        }
        match self.random.below(13) {
            0 | 1 => self.build_and_read(),
            9..=11 => {
                self.texts(0);
                let op = self.text_read();
                self.emit(op);
            }
            12 => {
                self.texts(0);
                self.emit_composite(2);
            }
            2 => self.build_and_index(),
            3 => self.call_with_arguments(),
            4 => self.store_and_load(),
            5 => {
                self.emit_push();
                self.emit(Op::Yield);
                self.emit_read();
            }
            6 => {
                let native = self.native();
                self.emit(native);
                self.emit_read();
            }
            7 => self.trap_guard(),
            _ => self.drop_some(),
        }
    }

    /// An operand of kind 5, which is unknown without floats: a constant, or what a line declares so.
    fn emit_of_kind_5(&mut self) {
        let constant = self.constant(FLOAT_TAG);
        let module = &self.listing.module;
        let sig = module.signatures.get(self.number);
        let is_float = |shape: &WireShape| *shape == WireShape::Scalar { kind: FLOAT_TAG };
        let parameter = sig.and_then(|sig| sig.params.iter().position(is_float));
        let native = module.native_return_shapes.iter().position(is_float);
        let callee = module.signatures.iter().position(|sig| is_float(&sig.ret));
        let resumed = sig.filter(|sig| is_float(&sig.resume));
        let declared = [
            parameter.map(|slot| Op::GetLocal(slot as u16)),
            native.map(|native| Op::CallExternalNative(native as u16, 0)),
            callee.map(|callee| Op::Call(callee as u16, 0)),
            resumed.map(|_| Op::Yield),
        ];
        let sources: Vec<Op> = declared.into_iter().flatten().chain([constant]).collect();
        let op = self.random.pick(&sources);
        if op == Op::Yield {
            self.emit_push();
        }
        self.emit(op);
    }

    /// An operand of kind 5, used as no scalar may be.
    fn use_of_kind_5(&mut self) {
        self.emit_of_kind_5();
        match self.random.below(4) {
            0 | 1 => self.emit_read(),
            2 => {
                self.emit(Op::PushImmediate(0));
                let op = self.index();
                self.emit(op);
            }
            _ => {
                self.emit(Op::Dup);
                self.emit_composite_with_kind_5();
                let op = self.text_read();
                self.emit(op);
            }
        }
    }

    /// Makes the two top operands a composite of any size, or of that which they would have if floats had 8 bytes.
    fn emit_composite_with_kind_5(&mut self) {
        if self.random.chance(40) {
            return self.emit_composite(2);
        }
        let kind = self.random.pick(&[CompositeKind::Tuple, CompositeKind::Struct, CompositeKind::Array]);
        self.emit(Op::NewComposite(NewCompositeOperand::Flat { kind, count: 2, byte_size: 16 }));
    }

    pub(super) fn emit_push(&mut self) {
        let op = self.push();
        self.emit(op);
    }

    fn emit_scalar(&mut self) {
        let op = self.scalar();
        self.emit(op);
    }

    /// A scalar on top of the stack, which the walk knows from any of its rules.
    pub(super) fn emit_any_scalar(&mut self) {
        match self.random.below(8) {
            0 => {
                self.emit_push();
                let op = self.random.pick(&[Op::IsEnum(0, 1, 2), Op::IsStruct(3)]);
                self.emit(op);
            }
            1 => {
                self.emit_push();
                self.emit(Op::BoundsCheck(2));
            }
            2 => {
                self.emit_push();
                self.emit_push();
                let op = self.random.pick(&[Op::GetDataIndexed(0, 4), Op::SetDataIndexed(0, 4)]);
                self.emit(op);
            }
            3 => {
                self.emit(Op::CallVerifiedNative(0, 0x80));
            }
            4 => {
                self.emit_push();
                let kind = self.scalar_kind();
                self.emit(Op::GetField(StructField::Flat { offset: 0, kind }));
            }
            _ => self.emit_scalar(),
        }
    }

    fn emit_read(&mut self) {
        for _ in 0..3 {
            let op = self.read();
            if self.emit(op) {
                return;
            }
        }
    }

    /// Builds a composite of known scalars and composites.
    pub(super) fn build(&mut self, most: usize) {
        let count = self.random.between(1, most);
        for _ in 0..count {
            if self.random.chance(20) { self.emit_any_scalar() } else { self.emit_scalar() }
        }
        self.emit_composite(count);
    }

    /// Makes the top operands a composite other than an enum.
    fn emit_composite(&mut self, count: usize) {
        let kind = self.random.pick(&[CompositeKind::Tuple, CompositeKind::Struct, CompositeKind::Array]);
        let op = self.composite_of(kind, count.min(self.available()));
        self.emit(op);
    }

    fn build_and_read(&mut self) {
        self.build(4);
        if self.random.chance(30) {
            self.emit(Op::Dup);
            let kind = self.composite_kind();
            let op = self.composite_of(kind, 2);
            self.emit(op);
        }
        for _ in 0..self.random.between(1, 2) {
            self.emit_read();
        }
    }

    /// A composite whose texts the walk may or may not know: built, nested, cut, indexed, joined, or from outside.
    pub(super) fn texts(&mut self, nested: usize) {
        match self.random.below(if nested < 2 { 12 } else { 4 }) {
            4 | 5 => {
                self.texts(nested + 1);
                let more = self.random.below(3);
                for _ in 0..more {
                    self.text_or_int(40);
                }
                self.emit_composite(1 + more);
            }
            6 | 7 => {
                self.texts(nested + 1);
                let op = self.cut();
                self.emit(op);
            }
            8 => self.text_elements(),
            9 | 10 => self.text_arms(),
            11 => {
                let size = self.random.between(1, 4) * self.listing.word_bytes;
                let kind = self.composite_kind();
                self.body_of(kind, size as u32);
            }
            _ => {
                let count = self.random.between(2, 4);
                for _ in 0..count {
                    self.text_or_int(40);
                }
                self.emit_composite(count);
            }
        }
    }

    fn text_or_int(&mut self, percent: usize) {
        let tag = if self.random.chance(percent) { 6 } else { 3 };
        let op = self.constant(tag);
        self.emit(op);
    }

    /// A number of words up to `most` bytes.
    fn words(&mut self, most: usize) -> usize {
        self.random.below(most / self.listing.word_bytes + 1) * self.listing.word_bytes
    }

    /// A part of the top operand, at the borders of its words.
    fn cut(&mut self) -> Op {
        let top = self.operand(0);
        let (whole, _) = self.body(&top);
        let offset = self.words(whole);
        let size = self.words(whole - offset);
        self.nested_field(offset as u16, size as u16)
    }

    /// A text of the top operand, at the border of a word.
    pub(super) fn text_read(&mut self) -> Op {
        let top = self.operand(0);
        let (whole, _) = self.body(&top);
        let offset = self.words(whole.saturating_sub(2 * self.listing.word_bytes));
        self.scalar_field(offset as u16, ScalarKind::Text)
    }

    /// An element of an array of rows that may differ in where their texts are.
    fn text_elements(&mut self) {
        let rows = self.random.between(1, 3);
        let place = self.random.below(2);
        for _ in 0..rows {
            let place = if self.random.chance(80) { place } else { 1 - place };
            self.text_row(2, place);
        }
        self.emit_composite(rows);
        self.emit(Op::PushImmediate(0));
        let size = self.random.pick(&[0, 1, 3, 3, 3, 6]) * self.listing.word_bytes;
        let variant = self.composite_kind();
        if self.emit(Op::GetIndex(ArrayElem::FlatNested { size: size as u16, variant })) {
            self.emit(Op::PopN(6));
            if self.random.chance(50) {
                self.text_or_int(40);
                self.text_or_int(10);
                self.emit_composite(3);
            }
        }
    }

    /// A composite of one text and else Ints: the text is element `place`.
    fn text_row(&mut self, count: usize, place: usize) {
        for element in 0..count {
            self.text_or_int(if element == place { 100 } else { 0 });
        }
        let op = self.composite_of(CompositeKind::Tuple, count);
        self.emit(op);
    }

    /// Two arms that leave rows whose texts may be at different places, or of different sizes.
    fn text_arms(&mut self) {
        if self.depth >= self.plan.depth {
            return;
        }
        self.emit_push();
        let entry = self.state.clone();
        let opener = self.at();
        if !self.emit(Op::If(0)) {
            return;
        }
        let after_condition = self.state.clone();
        let count = self.random.between(2, 3);
        let place = self.random.below(count);
        self.text_row(count, place);
        self.put_plain(Op::Else(0));
        self.state = after_condition;
        let place = self.random.below(count);
        let more = usize::from(self.random.chance(15));
        self.text_row(count + more, place);
        self.close_if(opener, entry);
    }

    /// Builds an array of equal elements, or of elements of one size, and indexes it.
    fn build_and_index(&mut self) {
        if self.random.chance(60) {
            self.emit_scalar();
        } else {
            self.build(2);
        }
        let count = self.random.between(1, 4);
        for _ in 1..count {
            self.emit(Op::Dup);
        }
        if self.random.chance(20) {
            self.emit_scalar();
        }
        let op = self.composite_of(CompositeKind::Array, count);
        self.emit(op);
        self.emit(Op::PushImmediate(1));
        for _ in 0..3 {
            let op = self.index();
            if self.emit(op) {
                break;
            }
        }
        if self.random.chance(70) && self.available() >= 6 {
            self.emit(Op::PopN(6));
            self.emit_read();
        }
    }

    /// A call whose arguments fit, at times with one less or one more.
    fn call_with_arguments(&mut self) {
        let signatures = &self.listing.module.signatures;
        if signatures.is_empty() {
            return;
        }
        let callee = self.random.below(signatures.len());
        let params = &signatures[callee].params;
        let count = match self.random.below(6) {
            0 => params.len().saturating_sub(1),
            1 => params.len() + 1,
            _ => params.len(),
        };
        for position in 0..count {
            let param = params.get(position);
            match param.map_or(Shape::Unknown, |wire| Shape::declared(wire, self.widths())) {
                // Without floats anything passes for a float.
                Shape::Unknown if param == Some(&WireShape::Scalar { kind: FLOAT_TAG }) => self.build(2),
                Shape::Unknown => self.emit_push(),
                Shape::Scalar(_) => self.emit_scalar(),
                Shape::Composite { kind, size, .. } => self.body_of(kind, size),
            }
        }
        self.emit(Op::Call(callee as u16, count as u8));
        self.emit_read();
    }

    /// A value that almost fits a parameter, or fits it.
    pub(super) fn emit_near_parameter(&mut self, chunk: usize, position: usize) {
        let sig = self.listing.module.signatures.get(chunk);
        let param = sig.and_then(|sig| sig.params.get(position));
        match param.map_or(Shape::Unknown, |wire| Shape::declared(wire, self.widths())) {
            Shape::Composite { kind, size, .. } if self.random.chance(70) => {
                let kind = if self.random.chance(40) { self.composite_kind() } else { kind };
                let size = size.saturating_add(u32::from(self.random.chance(25)));
                self.body_of(kind, size);
            }
            Shape::Composite { .. } => self.emit_any_scalar(),
            _ if self.random.chance(50) => self.build(2),
            _ => self.emit_any_scalar(),
        }
    }

    /// A composite of any size, from an unknown operand; where it is too large, that operand alone.
    fn body_of(&mut self, variant: CompositeKind, size: u32) {
        self.emit(Op::PushImmediate(0));
        let Ok(size) = u16::try_from(size) else {
            return;
        };
        match self.random.below(5) {
            0 => {
                self.emit(Op::GetField(StructField::FlatNested { offset: 4, size, variant }));
            }
            1 => {
                self.emit(Op::GetEnumField(EnumField::FlatNested { offset: 0, size, variant }));
            }
            2 => {
                self.emit(Op::PushImmediate(0));
                if self.emit(Op::GetIndex(ArrayElem::FlatNested { size, variant })) {
                    self.emit(Op::PopN(6));
                }
            }
            _ => {
                self.emit(Op::NewComposite(NewCompositeOperand::Flat { kind: variant, count: 1, byte_size: size }));
            }
        }
    }

    /// Gives some locals a known value first, so that loops have something to forget.
    pub(super) fn fill_locals(&mut self) {
        let most = if self.plan.ops < 12 { 1 } else { 4 };
        if self.random.chance(60) {
            return;
        }
        for slot in 0..self.random.between(1, most).min(usize::from(self.chunk.local_count)) {
            if self.random.chance(50) {
                self.emit_scalar()
            } else {
                self.build(2)
            }
            self.emit(Op::SetLocal(slot as u16));
            if !self.is_live() {
                return;
            }
            self.drop_all_but(1);
        }
    }

    fn store_and_load(&mut self) {
        let slot = self.local();
        match self.random.below(4) {
            0 => self.emit_scalar(),
            1 => self.build(3),
            2 => self.emit_near_parameter(self.number, usize::from(slot)),
            _ => self.emit_push(),
        }
        self.emit(Op::SetLocal(slot));
        if self.random.chance(70) {
            self.emit(Op::GetLocal(slot));
            self.emit_read();
        }
    }

    /// A bounds check whose failure traps.
    fn trap_guard(&mut self) {
        if self.depth >= self.plan.depth {
            return;
        }
        self.emit_push();
        self.emit(Op::BoundsCheck(4));
        let entry = self.state.clone();
        let opener = self.at();
        self.emit(Op::If(0));
        let code = self.random.pick(&[self.listing.index_code, self.listing.host_code, 3]);
        if self.emit(Op::Trap(code)) {
            self.state = None;
        }
        self.close_if(opener, entry);
        self.balance(self.height().saturating_sub(4).max(self.floor));
    }

    fn drop_some(&mut self) {
        let count = self.random.below(self.available() + 1);
        self.emit(Op::PopN(count.min(255) as u8));
    }
}
