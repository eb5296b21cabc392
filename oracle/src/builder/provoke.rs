//! The refusal that a chunk is to have.

use super::Builder;
use crate::bytecode::{ArrayElem, NewCompositeOperand, Op};
use crate::generator::Target;
use crate::value_layout::{CompositeKind, ScalarKind};

impl Builder<'_> {
    /// Tries to have the chunk refused as it is to be. The ends of arms see to 10 and 11.
    pub(super) fn provoke(&mut self) {
        match self.target {
            Some(Target::Refusal(12)) if self.floor == 0 => {
                self.emit_push();
                self.structure(self.plan.ops);
            }
            Some(Target::Refusal(5 | 12)) => self.provoke_shortage(),
            Some(Target::Refusal(10 | 11)) if !self.loops.is_empty() && self.random.chance(60) => {
                self.break_if();
                self.break_if();
            }
            Some(Target::Refusal(10 | 11)) => self.structure(self.plan.ops),
            Some(Target::Refusal(6 | 15)) => {
                self.build(3);
                if self.random.chance(50) {
                    self.emit(Op::PushImmediate(0));
                }
                self.try_faults(|builder| if builder.random.chance(50) { builder.index() } else { builder.read() });
            }
            Some(Target::Refusal(7)) => {
                self.emit_any_scalar();
                if self.random.chance(30) {
                    self.emit(Op::PushImmediate(0));
                }
                self.try_faults(|builder| if builder.random.chance(50) { builder.index() } else { builder.read() });
            }
            Some(Target::Refusal(8)) => self.provoke_size(),
            Some(Target::Refusal(9)) => self.provoke_text(),
            Some(Target::Refusal(13)) => {
                self.emit_near_parameter(self.number, 0);
                self.try_faults(|builder| Op::SetLocal(builder.random.below(4) as u16));
            }
            Some(Target::Refusal(14)) => {
                let callee = self.random.below(self.listing.module.signatures.len().max(1));
                let count = self.random.between(1, 3);
                for position in 0..count {
                    self.emit_near_parameter(callee, position);
                }
                self.try_faults(|_| Op::Call(callee as u16, count as u8));
            }
            Some(Target::Refusal(17)) => {
                self.emit_push();
                self.try_faults(|builder| {
                    let byte_size = builder.random.word();
                    let kind = CompositeKind::Enum;
                    Op::NewComposite(NewCompositeOperand::Flat { kind, count: 1, byte_size })
                });
            }
            Some(Target::Limit(5)) => self.provoke_height(),
            Some(Target::Limit(6)) => self.provoke_places(),
            _ => self.instruction(),
        }
    }

    fn try_faults(&mut self, mut candidate: impl FnMut(&mut Self) -> Op) {
        for _ in 0..12 {
            let op = candidate(self);
            if !self.is_live() || self.emit_fault(op) {
                return;
            }
        }
    }

    /// An instruction that needs more operands than there are.
    fn provoke_shortage(&mut self) {
        if self.random.chance(50) {
            self.drop_all_but(2);
        }
        self.try_faults(|builder| {
            let more = builder.available() + builder.random.between(1, 2);
            match builder.random.below(6) {
                0 => Op::PopN(more.min(255) as u8),
                1 => Op::Call(0, more.min(255) as u8),
                2 => Op::CallExternalNative(0, more.min(127) as u8),
                3 => {
                    let kind = builder.composite_kind();
                    let meta = builder.random.word();
                    Op::NewComposite(NewCompositeOperand::Boxed { kind, count: more as u16, meta })
                }
                4 => Op::Trap(builder.listing.index_code),
                _ => builder.any_op(),
            }
        });
    }

    fn provoke_size(&mut self) {
        let count = self.random.between(1, 3);
        // A native may give a composite so large that sizes sum up to their most.
        let has_native = !self.listing.module.native_return_shapes.is_empty();
        let from_native = has_native && self.random.chance(40);
        for _ in 0..count {
            if from_native {
                self.emit(Op::CallExternalNative(0, 0));
            } else {
                self.emit_any_scalar();
            }
        }
        self.try_faults(|builder| {
            let kind = builder.random.pick(&[CompositeKind::Tuple, CompositeKind::Array, CompositeKind::Struct]);
            let mut op = builder.composite_of(kind, count);
            if let Op::NewComposite(NewCompositeOperand::Flat { byte_size, .. }) = &mut op {
                *byte_size = byte_size.saturating_add_signed(builder.random.pick(&[-1, 1, 8]));
            }
            op
        });
    }

    /// A text where the composite is known to have none.
    fn provoke_text(&mut self) {
        self.texts(0);
        if self.random.chance(25) {
            self.emit(Op::PushImmediate(0));
            return self.try_faults(|_| Op::GetIndex(ArrayElem::Flat { kind: ScalarKind::Text }));
        }
        self.try_faults(Builder::text_read);
    }

    /// Operands up to the limit and over it.
    fn provoke_height(&mut self) {
        if self.available() == 0 {
            self.emit_push();
        }
        while self.is_live() && self.has_room() {
            let op = if self.random.chance(80) { Op::BoundsCheck(1) } else { self.push() };
            if !self.emit(op) {
                return;
            }
        }
    }

    /// Composites of texts, each twice the one before.
    fn provoke_places(&mut self) {
        let text = self.constant(6);
        self.emit(text);
        while self.is_live() && self.has_room() {
            self.emit(Op::Dup);
            let op = self.composite_of(CompositeKind::Array, 2);
            if !self.emit(op) {
                return;
            }
        }
    }
}
