//! Loops whose locals take their shapes from one another, so that they widen one at a time and the loop needs many
//! passes.

use crate::bytecode::{Chunk, ConstValue, NewCompositeOperand, Op, TupleField};
use crate::generator::Scope;
use crate::limits::Widths;
use crate::listing::Listing;
use crate::random::Random;
use crate::tables::{Plan, tables};
use crate::value_layout::{CompositeKind, ScalarKind};

pub fn listing(random: &mut Random, scope: Scope) -> Listing {
    let mut listing = tables(random, Plan { scope, target: None, chunks: 1 });
    // Parameters would only accept what fits them.
    if random.chance(80) {
        listing.module.signatures.clear();
    }
    let locals = match random.below(4) {
        _ if scope.small => random.between(1, 2),
        0 => random.between(16, 32),
        _ => random.between(1, 12),
    };
    let chunk = Chain::new(random, &listing, locals).chunk();
    listing.module.chunks.push(chunk);
    listing
}

/// Two values that differ: a local that has held both is known less well.
#[derive(Clone, Copy)]
enum Values {
    /// Scalars of two kinds.
    Scalars,
    /// Composites of one kind and size whose texts begin at different places.
    Places,
    /// Composites of different sizes.
    Sizes,
}

struct Chain<'a> {
    random: &'a mut Random,
    listing: &'a Listing,
    locals: u16,
    values: Values,
    chunk: Chunk,
}

impl<'a> Chain<'a> {
    fn new(random: &'a mut Random, listing: &'a Listing, locals: usize) -> Chain<'a> {
        let values = random.pick(&[Values::Scalars, Values::Places, Values::Sizes]);
        let chunk = Chunk {
            local_count: locals as u16,
            constants: vec![ConstValue::Int(()), ConstValue::StaticStr(())],
            ops: Vec::new(),
        };
        Chain { random, listing, locals: locals as u16, values, chunk }
    }

    fn put(&mut self, op: Op) {
        self.chunk.ops.push(op);
    }

    /// Pushes the value that every local holds at first, or the other one.
    fn value(&mut self, other: bool) {
        let (int, text) = (Op::Const(0), Op::Const(1));
        match self.values {
            Values::Scalars => self.put(if other { text } else { int }),
            Values::Places => {
                let (first, second) = if other { (text, int) } else { (int, text) };
                self.put(first);
                self.put(second);
                self.tuple(2, self.bytes(ScalarKind::Int) + self.bytes(ScalarKind::Text));
            }
            Values::Sizes => {
                let kind = if other { ScalarKind::Text } else { ScalarKind::Int };
                self.put(if other { text } else { int });
                self.tuple(1, self.bytes(kind));
            }
        }
    }

    fn bytes(&self, kind: ScalarKind) -> u16 {
        Widths::of(self.listing).scalar(kind) as u16
    }

    fn tuple(&mut self, count: u16, byte_size: u16) {
        self.put(Op::NewComposite(NewCompositeOperand::Flat { kind: CompositeKind::Tuple, count, byte_size }));
    }

    fn chunk(mut self) -> Chunk {
        self.value(false);
        for local in 0..self.locals {
            if local + 1 < self.locals {
                self.put(Op::Dup);
            }
            self.put(Op::SetLocal(local));
        }
        let nested = self.locals > 2 && self.random.chance(25);
        self.loop_over(0, if nested { self.locals / 2 } else { self.locals }, nested);
        if self.random.chance(30) {
            self.read(0);
        }
        if self.random.chance(60) {
            let local = if self.random.chance(70) { 0 } else { self.random.below(usize::from(self.locals)) as u16 };
            self.read_what_was_not_there(local);
        }
        self.put(Op::Return);
        self.chunk
    }

    /// A loop that hands each local of a range the next one's value, and the last one the other value. Its body may
    /// have a loop over the rest of the locals.
    fn loop_over(&mut self, first: u16, end: u16, nested: bool) {
        let opener = self.chunk.ops.len();
        self.put(Op::Loop(0));
        let mut steps: Vec<u16> = (first..end - 1).collect();
        // From the front each pass widens one local; in any other order several go at once.
        match self.random.below(6) {
            0 => steps.reverse(),
            1 => self.shuffle(&mut steps),
            _ => {}
        }
        for local in steps {
            self.put(Op::GetLocal(local + 1));
            self.put(Op::SetLocal(local));
        }
        self.value(true);
        self.put(Op::SetLocal(end - 1));
        let leaves = self.random.chance(30).then(|| {
            self.put(Op::GetLocal(first));
            self.put(Op::BreakIf(0));
            self.chunk.ops.len() - 1
        });
        if self.random.chance(70) {
            self.read(first);
        }
        if nested {
            self.loop_over(end, self.locals, false);
        }
        self.put(Op::EndLoop(opener as u16));
        let exit = self.chunk.ops.len() as u16;
        self.chunk.ops[opener] = Op::Loop(exit);
        if let Some(at) = leaves {
            self.chunk.ops[at] = Op::BreakIf(exit);
        }
    }

    fn shuffle(&mut self, steps: &mut [u16]) {
        for last in (1..steps.len()).rev() {
            steps.swap(last, self.random.below(last + 1));
        }
    }

    /// A read of a local that is seen at first and blind later; of a scalar it is not flat.
    fn read(&mut self, local: u16) {
        self.put(Op::GetLocal(local));
        let field = match self.values {
            Values::Scalars => TupleField::Boxed { index: 0 },
            Values::Places => TupleField::Flat { offset: self.bytes(ScalarKind::Int), kind: ScalarKind::Text },
            Values::Sizes => TupleField::Flat { offset: 0, kind: ScalarKind::Int },
        };
        self.put(Op::GetTupleField(field));
        self.put(Op::PopN(1));
    }

    /// A read of a local that is refused unless the local is known less well than at first.
    fn read_what_was_not_there(&mut self, local: u16) {
        self.put(Op::GetLocal(local));
        let field = match self.values {
            Values::Scalars => TupleField::Flat { offset: 0, kind: ScalarKind::Int },
            Values::Places => TupleField::Flat { offset: 0, kind: ScalarKind::Text },
            Values::Sizes => TupleField::Flat { offset: 100, kind: ScalarKind::Int },
        };
        self.put(Op::GetTupleField(field));
    }
}
