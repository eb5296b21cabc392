//! The walk of document 01, written again over plain lists. Unlike the original it knows limits 5 and 6 and fills
//! both sheets; everything else must come out as the original has it.

use crate::bytecode::{
    ArrayElem, Chunk, ChunkSignature, ConstValue, EnumField, FLOAT_TAG, NewCompositeOperand, Op, StructField,
    TupleField, WireShape,
};
use crate::listing::Listing;
use crate::value_layout::{CompositeKind, ScalarKind};
use crate::verify::op_depth_effect;
use std::collections::BTreeMap;

/// The most operands after an instruction (limit 5).
pub const MAX_HEIGHT: usize = 64;
/// The most known text places of a new composite (limit 6).
pub const MAX_PLACES: usize = 16;

// ── Shapes ───────────────────────────────────────────────────────────────────────────────

#[derive(Clone, Debug, PartialEq, Eq)]
pub enum Shape {
    Unknown,
    Scalar(ScalarKind),
    Composite {
        kind: CompositeKind,
        size: u32,
        /// Where its texts begin, if that is known.
        places: Option<Vec<u32>>,
    },
}

impl Shape {
    const INT: Shape = Shape::Scalar(ScalarKind::Int);

    /// A shape of a `sig` or `native` line.
    pub fn declared(wire: &WireShape, widths: Widths) -> Shape {
        let known = match *wire {
            WireShape::Top => None,
            WireShape::Scalar { kind } => widths.known(kind).map(Shape::Scalar),
            WireShape::Flat { kind, size } => {
                CompositeKind::from_tag(kind).map(|kind| Shape::Composite { kind, size, places: None })
            }
        };
        known.unwrap_or(Shape::Unknown)
    }

    fn constant(value: &ConstValue, widths: Widths) -> Shape {
        widths.known(value.to_tag()).map_or(Shape::Unknown, Shape::Scalar)
    }

    fn join(&self, other: &Shape) -> Shape {
        if self == other {
            return self.clone();
        }
        match (self, other) {
            (Shape::Composite { kind, size, .. }, Shape::Composite { kind: other_kind, size: other_size, .. })
                if kind == other_kind && size == other_size =>
            {
                Shape::Composite { kind: *kind, size: *size, places: None }
            }
            _ => Shape::Unknown,
        }
    }

    /// Whether it may be stored or passed where a shape is declared.
    fn fits(&self, declared: &Shape) -> bool {
        match (self, declared) {
            (Shape::Unknown, _) | (_, Shape::Unknown) => true,
            (Shape::Scalar(_), Shape::Scalar(_)) => true,
            (
                Shape::Composite { kind, size, .. },
                Shape::Composite { kind: declared_kind, size: declared_size, .. },
            ) => kind == declared_kind && size == declared_size,
            _ => false,
        }
    }

    /// Whether both are composites, of one size but not of one kind.
    fn has_other_kind_in_size_of(&self, other: &Shape) -> bool {
        let (Shape::Composite { kind, size, .. }, Shape::Composite { kind: other_kind, size: other_size, .. }) =
            (self, other)
        else {
            return false;
        };
        kind != other_kind && size == other_size
    }

    fn places(&self) -> Option<&[u32]> {
        match self {
            Shape::Composite { places: Some(places), .. } => Some(places),
            _ => None,
        }
    }

    /// The text places of the part of `size` bytes from `offset` on, if they are known.
    fn places_of_part(&self, offset: u32, size: u32) -> Option<Vec<u32>> {
        let inside = |place: &&u32| **place >= offset && **place - offset < size;
        Some(self.places()?.iter().filter(inside).map(|place| place - offset).collect())
    }

    /// The text places that all elements of `size` bytes share, if they are known.
    fn places_of_elements(&self, size: u32) -> Option<Vec<u32>> {
        let Shape::Composite { size: whole, .. } = self else {
            return None;
        };
        if size == 0 || whole % size != 0 {
            return None;
        }
        let first = self.places_of_part(0, size)?;
        let alike = |element| self.places_of_part(element * size, size).as_ref() == Some(&first);
        (1..whole / size).all(alike).then_some(first)
    }
}

/// Bytes of a word, a float and an address. Where a float has none, the listing has no floats.
#[derive(Clone, Copy)]
pub struct Widths {
    word: usize,
    float: usize,
    address: usize,
}

impl Widths {
    pub fn of(listing: &Listing) -> Widths {
        let address = (1 << listing.module.addr_bits_log2) / 8;
        Widths { word: listing.word_bytes, float: listing.float_bytes, address }
    }

    /// The scalar of a tag, if it is known: with F 0 kind 5 counts as a tag not known.
    pub fn known(self, tag: u8) -> Option<ScalarKind> {
        let is_lacking = tag == FLOAT_TAG && self.float == 0;
        if is_lacking { None } else { ScalarKind::from_tag(tag) }
    }

    /// The bytes of a scalar that the listing has.
    pub fn scalar(self, kind: ScalarKind) -> u32 {
        assert!(self.known(kind.to_tag()).is_some(), "a kind that the listing lacks has no width");
        kind.size_in_bytes(self.word, self.float, self.address) as u32
    }

    /// The bytes of a shape in a composite, if they are known.
    pub fn packed(self, shape: &Shape) -> Option<u32> {
        match shape {
            Shape::Unknown => None,
            Shape::Scalar(kind) => Some(self.scalar(*kind)),
            Shape::Composite { size, .. } => Some(*size),
        }
    }
}

// ── One instruction ──────────────────────────────────────────────────────────────────────

/// A refusal of the walk, without its chunk.
#[derive(Debug)]
pub struct Fault {
    pub number: u8,
    pub fields: Vec<u64>,
}

fn fault<T, const N: usize>(number: u8, fields: [u64; N]) -> Result<T, Fault> {
    Err(Fault { number, fields: fields.to_vec() })
}

#[derive(Clone, Debug, PartialEq, Eq)]
pub struct State {
    pub operands: Vec<Shape>,
    pub locals: Vec<Shape>,
}

impl State {
    pub fn height(&self) -> usize {
        self.operands.len()
    }
}

/// What an instruction reads besides the state.
pub struct Context<'a> {
    listing: &'a Listing,
    chunk: &'a Chunk,
    sig: Option<&'a ChunkSignature>,
    pub widths: Widths,
}

/// The operand and the result of a flat read, or of a flat index.
enum Read {
    Scalar { offset: u16, kind: ScalarKind },
    Nested { offset: u16, size: u16, variant: CompositeKind },
    Boxed,
}

impl Read {
    fn of(op: &Op) -> Option<Read> {
        Some(match *op {
            Op::GetField(StructField::Flat { offset, kind })
            | Op::GetTupleField(TupleField::Flat { offset, kind })
            | Op::GetEnumField(EnumField::Flat { offset, kind }) => Read::Scalar { offset, kind },
            Op::GetField(StructField::FlatNested { offset, size, variant })
            | Op::GetTupleField(TupleField::FlatNested { offset, size, variant })
            | Op::GetEnumField(EnumField::FlatNested { offset, size, variant }) => {
                Read::Nested { offset, size, variant }
            }
            Op::GetField(StructField::Boxed { .. })
            | Op::GetTupleField(TupleField::Boxed { .. })
            | Op::GetEnumField(EnumField::Boxed { .. }) => Read::Boxed,
            _ => return None,
        })
    }
}

impl<'a> Context<'a> {
    /// The context of chunk `number`, whose signature is the one of that number.
    pub fn new(listing: &'a Listing, chunk: &'a Chunk, number: usize) -> Context<'a> {
        let sig = listing.module.signatures.get(number);
        Context { listing, chunk, sig, widths: Widths::of(listing) }
    }

    /// The state at the chunk's first instruction.
    pub fn start(&self) -> State {
        let locals = (0..usize::from(self.chunk.local_count)).map(|slot| self.parameter(slot)).collect();
        State { operands: Vec::new(), locals }
    }

    /// The declared shape of a local; unknown past the parameters.
    fn parameter(&self, slot: usize) -> Shape {
        self.declared(self.sig.and_then(|sig| sig.params.get(slot)))
    }

    /// The shape that a line gives; unknown where there is none.
    fn declared(&self, wire: Option<&WireShape>) -> Shape {
        wire.map_or(Shape::Unknown, |wire| Shape::declared(wire, self.widths))
    }

    /// Operands taken and pushed. Only Trap depends on the listing's codes, which need not be the original's.
    fn effect(&self, op: &Op) -> (usize, usize) {
        let (need, net) = match op {
            Op::Trap(code) if *code == self.listing.index_code => (5, -5),
            Op::Trap(code) if *code == self.listing.host_code => (1, -1),
            Op::Trap(_) => (0, 0),
            _ => op_depth_effect(op, self.chunk),
        };
        (need as usize, (need + net) as usize)
    }

    /// Examines an instruction: tests 12 and 5, its own tests, limits 6 and 5. Gives the blind mark.
    pub fn examine(&self, ip: usize, state: &mut State, floor: usize, notes: &mut Notes) -> Result<bool, Fault> {
        let op = &self.chunk.ops[ip];
        let (need, pushed) = self.effect(op);
        let height = state.height();
        if floor > 0 && height < floor + need {
            if height < need {
                notes.count("12 where 5 would follow");
            }
            return fault(12, [ip as u64, floor as u64, height as u64, need as u64]);
        }
        let Some(kept) = height.checked_sub(need) else {
            return fault(5, [ip as u64]);
        };
        let taken = state.operands.split_off(kept);
        let blind = is_blind(op, &taken);
        let mut results = self.results(ip, op, taken, state, notes)?;
        assert_eq!(results.len(), pushed, "need and net of {op:?}");
        state.operands.append(&mut results);
        if state.height() > MAX_HEIGHT {
            return fault(2, [ip as u64, 5]);
        }
        Ok(blind)
    }

    /// What an instruction pushes for the operands that it takes.
    fn results(
        &self,
        ip: usize,
        op: &Op,
        mut taken: Vec<Shape>,
        state: &mut State,
        notes: &mut Notes,
    ) -> Result<Vec<Shape>, Fault> {
        if let Some(read) = Read::of(op) {
            return Ok(vec![self.field(ip, &read, &taken[0], notes)?]);
        }
        Ok(match op {
            Op::Dup => vec![taken[0].clone(), taken.remove(0)],
            Op::IsEnum(..) | Op::IsStruct(_) => vec![taken.remove(0), Shape::Scalar(ScalarKind::Bool)],
            Op::BoundsCheck(_) => with_ints(taken.remove(0), 5),
            Op::GetDataIndexed(..) => with_ints(Shape::Unknown, 6),
            Op::SetDataIndexed(..) => vec![Shape::INT; 6],
            Op::GetLocal(slot) => {
                vec![state.locals.get(usize::from(*slot)).cloned().unwrap_or(Shape::Unknown)]
            }
            Op::SetLocal(slot) => {
                self.store(ip, usize::from(*slot), taken.remove(0), state, notes)?;
                Vec::new()
            }
            Op::Yield => {
                let resume = self.declared(self.sig.map(|sig| &sig.resume));
                notes.count(if resume == Shape::Unknown { "unknown resumed" } else { "declared shape resumed" });
                vec![resume]
            }
            Op::Const(index) => {
                let value = self.chunk.constants.get(usize::from(*index));
                vec![value.map_or(Shape::Unknown, |value| Shape::constant(value, self.widths))]
            }
            Op::NewComposite(NewCompositeOperand::Flat { kind, byte_size, .. }) => {
                vec![self.composite(ip, *kind, u32::from(*byte_size), &taken, notes)?]
            }
            Op::GetIndex(element) => self.element(ip, element, &taken[0], notes)?,
            Op::Call(callee, _) => vec![self.call(ip, usize::from(*callee), &taken, notes)?],
            Op::CallVerifiedNative(native, count) | Op::CallExternalNative(native, count) => {
                let value = self.declared(self.listing.module.native_return_shapes.get(usize::from(*native)));
                let flagged = count & 0x80 != 0;
                notes.count(if flagged { "native call with a flag" } else { "native call without a flag" });
                with_ints(value, usize::from(flagged))
            }
            _ => vec![Shape::Unknown; self.effect(op).1],
        })
    }

    fn store(&self, ip: usize, slot: usize, value: Shape, state: &mut State, notes: &mut Notes) -> Result<(), Fault> {
        let declared = self.parameter(slot);
        if !value.fits(&declared) {
            if slot >= state.locals.len() {
                notes.count("13 past the locals");
            }
            return fault(13, [ip as u64, slot as u64]);
        }
        match state.locals.get_mut(slot) {
            Some(local) => *local = value,
            None if declared == Shape::Unknown => notes.count("store past the locals"),
            None => notes.count("store to a parameter past the locals"),
        }
        Ok(())
    }

    fn composite(
        &self,
        ip: usize,
        kind: CompositeKind,
        baked: u32,
        taken: &[Shape],
        notes: &mut Notes,
    ) -> Result<Shape, Fault> {
        if kind == CompositeKind::Enum {
            let enums = &self.listing.module.enum_layouts;
            let word = self.listing.word_bytes as u32;
            if !enums.is_empty() && enums.iter().all(|entry| word.saturating_add(entry.min_payload) != baked) {
                return fault(17, [ip as u64, u64::from(baked)]);
            }
            notes.count(if enums.is_empty() { "enum without enum lines" } else { "enum of a declared size" });
            return Ok(Shape::Composite { kind, size: baked, places: None });
        }
        let sizes: Option<Vec<u32>> = taken.iter().map(|shape| self.widths.packed(shape)).collect();
        if let Some(sizes) = sizes {
            let computed = sizes.into_iter().fold(0, u32::saturating_add);
            if computed == u32::MAX {
                notes.count("sum of sizes at its most");
            }
            if computed != baked {
                return fault(8, [ip as u64, u64::from(baked), u64::from(computed)]);
            }
        }
        let places = self.built_places(taken);
        if let Some(places) = &places {
            if places.len() > MAX_PLACES {
                return fault(2, [ip as u64, 6]);
            }
            if !places.is_empty() {
                notes.count("text places built");
            }
        }
        Ok(Shape::Composite { kind, size: baked, places })
    }

    /// The text places of a composite packed from these shapes, if all of them are known.
    fn built_places(&self, taken: &[Shape]) -> Option<Vec<u32>> {
        let mut places = Vec::new();
        let mut at: u32 = 0;
        for shape in taken {
            match shape {
                Shape::Scalar(ScalarKind::Text) => places.push(at),
                Shape::Scalar(_) => {}
                _ => places.extend(shape.places()?.iter().map(|place| at.saturating_add(*place))),
            }
            at = at.saturating_add(self.widths.packed(shape)?);
        }
        Some(places)
    }

    fn field(&self, ip: usize, read: &Read, operand: &Shape, notes: &mut Notes) -> Result<Shape, Fault> {
        let (offset, width) = match *read {
            Read::Scalar { offset, kind } => (u32::from(offset), self.widths.scalar(kind)),
            Read::Nested { offset, size, .. } => (u32::from(offset), u32::from(size)),
            Read::Boxed => return Ok(Shape::Unknown),
        };
        match operand {
            Shape::Composite { size, .. } if offset + width > *size => {
                return fault(6, [ip as u64, u64::from(offset), u64::from(offset + width), u64::from(*size)]);
            }
            Shape::Scalar(_) => return fault(7, [ip as u64]),
            _ => {}
        }
        match *read {
            Read::Scalar { kind, .. } => {
                if kind == ScalarKind::Text
                    && let Some(places) = operand.places()
                {
                    if !places.contains(&offset) {
                        return fault(9, [ip as u64, u64::from(offset)]);
                    }
                    notes.count("text place read");
                }
                Ok(Shape::Scalar(kind))
            }
            Read::Nested { variant, .. } => {
                let places = operand.places_of_part(offset, width);
                if places.as_ref().is_some_and(|places| !places.is_empty()) {
                    notes.count("text places cut");
                }
                Ok(Shape::Composite { kind: variant, size: width, places })
            }
            Read::Boxed => Ok(Shape::Unknown),
        }
    }

    fn element(&self, ip: usize, element: &ArrayElem, array: &Shape, notes: &mut Notes) -> Result<Vec<Shape>, Fault> {
        let outcome = if element.has_bounds_outcome() { 6 } else { 0 };
        let width = match *element {
            ArrayElem::Flat { kind } => self.widths.scalar(kind),
            ArrayElem::FlatNested { size, .. } => u32::from(size),
            ArrayElem::Boxed => return Ok(with_ints(Shape::Unknown, outcome)),
        };
        match array {
            Shape::Composite { size, .. } if width != 0 && size % width != 0 => {
                return fault(15, [ip as u64, u64::from(width), u64::from(*size)]);
            }
            Shape::Scalar(_) => return fault(7, [ip as u64]),
            _ => {}
        }
        let value = match *element {
            ArrayElem::Flat { kind } => {
                if kind == ScalarKind::Text {
                    self.text_elements(ip, width, array, notes)?;
                }
                Shape::Scalar(kind)
            }
            ArrayElem::FlatNested { variant, .. } => {
                let places = array.places_of_elements(width);
                if width == 0 && array.places().is_some() {
                    notes.count("element of width 0 of a known array");
                } else if array.places().is_some_and(|places| !places.is_empty()) {
                    notes.count(if places.is_some() { "text places indexed" } else { "text places differ" });
                }
                Shape::Composite { kind: variant, size: width, places }
            }
            ArrayElem::Boxed => Shape::Unknown,
        };
        Ok(with_ints(value, outcome))
    }

    /// Every element of an array of texts is a text.
    fn text_elements(&self, ip: usize, width: u32, array: &Shape, notes: &mut Notes) -> Result<(), Fault> {
        let (Shape::Composite { size, .. }, Some(places)) = (array, array.places()) else {
            return Ok(());
        };
        let missed = (0..size / width).map(|element| element * width).find(|place| !places.contains(place));
        if let Some(place) = missed {
            notes.count("text element missed");
            return fault(9, [ip as u64, u64::from(place)]);
        }
        notes.count("text elements read");
        Ok(())
    }

    fn call(&self, ip: usize, callee: usize, arguments: &[Shape], notes: &mut Notes) -> Result<Shape, Fault> {
        let Some(sig) = self.listing.module.signatures.get(callee) else {
            notes.count("call without a signature");
            return Ok(Shape::Unknown);
        };
        let declared = sig.params.iter().map(|wire| Shape::declared(wire, self.widths));
        if let Some(argument) = arguments.iter().zip(declared).position(|(shape, declared)| !shape.fits(&declared)) {
            return fault(14, [ip as u64, callee as u64, argument as u64]);
        }
        notes.count(match arguments.len().cmp(&sig.params.len()) {
            std::cmp::Ordering::Less => "call with fewer arguments than declared",
            std::cmp::Ordering::Equal => "call with as many arguments as declared",
            std::cmp::Ordering::Greater => "call with more arguments than declared",
        });
        Ok(Shape::declared(&sig.ret, self.widths))
    }
}

fn with_ints(first: Shape, ints: usize) -> Vec<Shape> {
    let mut shapes = vec![first];
    shapes.resize(1 + ints, Shape::INT);
    shapes
}

/// A flat read or flat index of an unknown operand; an index's operand is the array.
fn is_blind(op: &Op, taken: &[Shape]) -> bool {
    let flat = match (Read::of(op), op) {
        (Some(read), _) => !matches!(read, Read::Boxed),
        (None, Op::GetIndex(element)) => *element != ArrayElem::Boxed,
        _ => false,
    };
    flat && taken[0] == Shape::Unknown
}

// ── The walk ─────────────────────────────────────────────────────────────────────────────

/// How often the walk met what a survey wants to see, and how many passes it made over loops.
#[derive(Default)]
pub struct Notes {
    pub counts: BTreeMap<&'static str, u64>,
    pub passes: BTreeMap<usize, u64>,
    /// Instructions that it examined, on all passes.
    pub examined: u64,
}

impl Notes {
    pub fn count(&mut self, what: &'static str) {
        *self.counts.entry(what).or_default() += 1;
    }
}

/// Both sheets' entries for one instruction.
#[derive(Clone, Copy, Default)]
pub struct Mark {
    /// The height before the instruction, where the walk examined it.
    pub height: Option<usize>,
    pub blind: bool,
}

pub struct Walk<'a> {
    context: Context<'a>,
    notes: &'a mut Notes,
    pub marks: Vec<Mark>,
}

/// Where a pass over a loop's body ends, and the states at its breaks in order.
struct Pass {
    end: Option<State>,
    breaks: Vec<State>,
}

impl<'a> Walk<'a> {
    pub fn new(context: Context<'a>, notes: &'a mut Notes) -> Walk<'a> {
        let marks = vec![Mark::default(); context.chunk.ops.len()];
        Walk { context, notes, marks }
    }

    /// Walks the whole chunk.
    pub fn chunk(&mut self) -> Result<(), Fault> {
        let state = self.context.start();
        self.stretch(0, self.context.chunk.ops.len(), state, &mut Vec::new(), 0).map(|_| ())
    }

    /// Walks instructions `start` to `end`; none where every path leaves.
    pub fn stretch(
        &mut self,
        start: usize,
        end: usize,
        mut state: State,
        breaks: &mut Vec<State>,
        floor: usize,
    ) -> Result<Option<State>, Fault> {
        let ops = &self.context.chunk.ops;
        let mut ip = start;
        while ip < end {
            self.examine(ip, &mut state, floor)?;
            match ops[ip] {
                Op::Trap(_) | Op::Return => return Ok(None),
                Op::Break(_) => {
                    breaks.push(state);
                    return Ok(None);
                }
                Op::BreakIf(_) => {
                    breaks.push(state.clone());
                    ip += 1;
                }
                Op::If(target) => {
                    let (end, next) = self.branch(ip, usize::from(target), state, breaks, floor)?;
                    let Some(joined) = end else {
                        return Ok(None);
                    };
                    state = joined;
                    ip = next;
                }
                Op::Loop(target) => {
                    let exit = usize::from(target);
                    state = self.passes(ip, exit, state)?;
                    ip = exit;
                }
                _ => ip += 1,
            }
        }
        Ok(Some(state))
    }

    /// Examines an instruction and marks it. Loop, Break and Return need nothing, so tests 12 and 5 pass for them.
    fn examine(&mut self, ip: usize, state: &mut State, floor: usize) -> Result<(), Fault> {
        self.notes.examined += 1;
        self.marks[ip].height = Some(state.height());
        self.marks[ip].blind |= self.context.examine(ip, state, floor, self.notes)?;
        Ok(())
    }

    /// Walks the arms of an If and joins them. Gives the place after its EndIf too.
    fn branch(
        &mut self,
        ip: usize,
        target: usize,
        state: State,
        breaks: &mut Vec<State>,
        floor: usize,
    ) -> Result<(Option<State>, usize), Fault> {
        let ops = &self.context.chunk.ops;
        let middle = match ops[target - 1] {
            Op::Else(end) if target - 1 > ip => Some((target - 1, usize::from(end))),
            _ => None,
        };
        let (then_end, else_end, closer) = match middle {
            Some((middle, closer)) => {
                let then_end = self.stretch(ip + 1, middle, state.clone(), breaks, floor)?;
                (then_end, self.stretch(target, closer, state, breaks, floor)?, closer)
            }
            None => (self.stretch(ip + 1, target, state.clone(), breaks, floor)?, Some(state), target),
        };
        let joined = match (then_end, else_end) {
            (Some(a), Some(b)) => Some(self.join(ip, &a, &b)?),
            (a, b) => a.or(b),
        };
        Ok((joined, closer + 1))
    }

    fn join(&mut self, ip: usize, a: &State, b: &State) -> Result<State, Fault> {
        if a.height() != b.height() {
            let is_loop = matches!(self.context.chunk.ops[ip], Op::Loop(_));
            self.notes.count(if is_loop { "10 between breaks" } else { "10 between arms" });
            return fault(10, [ip as u64, a.height() as u64, b.height() as u64]);
        }
        let operands = self.join_shapes(&a.operands, &b.operands);
        Ok(State { operands, locals: self.join_shapes(&a.locals, &b.locals) })
    }

    fn join_shapes(&mut self, a: &[Shape], b: &[Shape]) -> Vec<Shape> {
        let pairs = || a.iter().zip(b);
        if pairs().any(|(a, b)| a != b && a.places().is_some() && matches!(a.join(b), Shape::Composite { .. })) {
            self.notes.count("text places joined away");
        }
        if pairs().any(|(a, b)| a.has_other_kind_in_size_of(b)) {
            self.notes.count("composites of one size and different kinds joined");
        }
        pairs().map(|(a, b)| a.join(b)).collect()
    }

    /// The passes over the loop at `ip`, and the state after it.
    fn passes(&mut self, ip: usize, exit: usize, entry: State) -> Result<State, Fault> {
        let most = entry.locals.len() + 2;
        let mut head = entry;
        let mut widenings = 0;
        let pass = loop {
            let pass = self.pass(ip, exit, &head)?;
            let Some(end) = &pass.end else {
                self.notes.count("loop whose body has no end");
                break pass;
            };
            let joined = self.join_shapes(&head.locals, &end.locals);
            if joined == head.locals {
                break pass;
            }
            if widenings >= most {
                self.notes.count("last pass");
                forget_written(&self.context.chunk.ops[ip + 1..exit - 1], &mut head.locals);
                break self.pass(ip, exit, &head)?;
            }
            head.locals = joined;
            widenings += 1;
        };
        *self.notes.passes.entry(widenings + 1).or_default() += 1;
        let mut breaks = pass.breaks.into_iter();
        let Some(first) = breaks.next() else {
            self.notes.count(if pass.end.is_some() { "body's end after a loop" } else { "head after a loop" });
            return Ok(pass.end.unwrap_or(head));
        };
        self.notes.count(if breaks.len() > 0 { "several breaks after a loop" } else { "one break after a loop" });
        breaks.try_fold(first, |joined, state| self.join(ip, &joined, &state))
    }

    /// One pass over a loop's body; its end must have the operands of the head.
    fn pass(&mut self, ip: usize, exit: usize, head: &State) -> Result<Pass, Fault> {
        let mut breaks = Vec::new();
        let end = self.stretch(ip + 1, exit - 1, head.clone(), &mut breaks, head.height())?;
        match &end {
            Some(end) if end.operands != head.operands => {
                if breaks.windows(2).any(|pair| pair[0].height() != pair[1].height()) {
                    self.notes.count("11 where 10 would follow");
                }
                fault(11, [ip as u64, head.height() as u64, end.height() as u64])
            }
            _ => Ok(Pass { end, breaks }),
        }
    }
}

/// Each local that a SetLocal of the body names becomes unknown.
fn forget_written(body: &[Op], locals: &mut [Shape]) {
    for op in body {
        if let Op::SetLocal(slot) = op
            && let Some(local) = locals.get_mut(usize::from(*slot))
        {
            *local = Shape::Unknown;
        }
    }
}
