//! Builds chunks that the walk mostly accepts. Every instruction is put to the walk as it is built: one that would
//! be refused is dropped, unless that refusal is the one that the chunk is to have.

mod idioms;
mod instructions;
mod provoke;

use crate::bytecode::{Chunk, Op};
use crate::generator::Target;
use crate::limits::{Context, Fault, Notes, Shape, State, Walk, Widths};
use crate::listing::{Listing, MAX_LOCALS, op_bytes};
use crate::random::Random;

/// What a chunk is to be like.
#[derive(Clone, Copy)]
pub struct ChunkPlan {
    pub target: Option<Target>,
    /// Instructions, and bytes of their lines, at which building stops.
    pub ops: usize,
    pub bytes: usize,
    /// Short names for the most part, to have many instructions in few bytes.
    pub terse: bool,
    pub depth: usize,
}

/// Builds chunk `number` of a listing that has its tables.
pub fn chunk(random: &mut Random, listing: &Listing, number: usize, plan: ChunkPlan) -> Chunk {
    let mut builder = Builder::new(random, listing, number, plan);
    builder.fill_locals();
    builder.block(plan.ops, false);
    if builder.random.chance(80) {
        builder.emit(Op::Return);
    }
    builder.chunk
}

/// Instructions of few bytes.
#[rustfmt::skip]
const TERSE: [Op; 11] = [
    Op::Dup, Op::Dup, Op::Add, Op::Sub, Op::Mul, Op::Shl, Op::Not, Op::Neg, Op::Len, Op::Mod, Op::PopN(1),
];

struct OpenLoop {
    /// The height at which its breaks leave.
    height: usize,
    /// Where its breaks stand, whose target is not known yet.
    breaks: Vec<usize>,
}

struct Builder<'a> {
    random: &'a mut Random,
    listing: &'a Listing,
    number: usize,
    plan: ChunkPlan,
    chunk: Chunk,
    bytes: usize,
    /// The state of the walk; none where it does not come.
    state: Option<State>,
    floor: usize,
    loops: Vec<OpenLoop>,
    depth: usize,
    /// The refusal that is still to come, and the instruction from which on it may.
    target: Option<Target>,
    armed_from: usize,
}

impl<'a> Builder<'a> {
    fn new(random: &'a mut Random, listing: &'a Listing, number: usize, plan: ChunkPlan) -> Builder<'a> {
        let local_count = match random.below(12) {
            0 => 0,
            1 => random.between(0, usize::from(MAX_LOCALS)) as u16,
            _ => random.between(1, 6) as u16,
        };
        let chunk = Chunk { local_count, ..Chunk::default() };
        let state = Context::new(listing, &chunk, number).start();
        let armed_from = random.below(plan.ops.max(1)) * 3 / 4;
        Builder {
            random,
            listing,
            number,
            plan,
            chunk,
            bytes: 0,
            state: Some(state),
            floor: 0,
            loops: Vec::new(),
            depth: 0,
            target: plan.target,
            armed_from,
        }
    }

    // ── State ────────────────────────────────────────────────────────────────────────────

    fn at(&self) -> usize {
        self.chunk.ops.len()
    }

    fn operands(&self) -> &[Shape] {
        self.state.as_ref().map_or(&[], |state| &state.operands)
    }

    fn height(&self) -> usize {
        self.operands().len()
    }

    /// The operand `depth` below the top.
    fn operand(&self, depth: usize) -> Shape {
        self.operands().iter().rev().nth(depth).cloned().unwrap_or(Shape::Unknown)
    }

    /// Operands above the loop's floor.
    fn available(&self) -> usize {
        self.height().saturating_sub(self.floor)
    }

    fn is_live(&self) -> bool {
        self.state.is_some()
    }

    fn has_room(&self) -> bool {
        self.at() < self.plan.ops && self.bytes < self.plan.bytes
    }

    fn widths(&self) -> Widths {
        Widths::of(self.listing)
    }

    fn has_floats(&self) -> bool {
        self.listing.float_bytes > 0
    }

    fn is_armed(&self) -> bool {
        self.target.is_some() && self.at() >= self.armed_from
    }

    fn wants(&self, fault: &Fault) -> bool {
        self.is_armed()
            && match self.target {
                Some(Target::Refusal(number)) => fault.number == number,
                Some(Target::Limit(limit)) => fault.number == 2 && fault.fields[1] == u64::from(limit),
                _ => false,
            }
    }

    // ── Instructions ─────────────────────────────────────────────────────────────────────

    /// Appends an instruction if the walk takes it, or refuses it as wanted. After that the walk does not go on.
    fn emit(&mut self, op: Op) -> bool {
        self.put(op, false)
    }

    /// Appends an instruction only if the walk refuses it as wanted.
    fn emit_fault(&mut self, op: Op) -> bool {
        self.put(op, true)
    }

    fn put(&mut self, op: Op, only_fault: bool) -> bool {
        let bytes = op_bytes(&op);
        let ip = self.at();
        self.chunk.ops.push(op);
        self.bytes += bytes;
        let Some(mut state) = self.state.clone() else {
            return true;
        };
        let context = Context::new(self.listing, &self.chunk, self.number);
        match context.examine(ip, &mut state, self.floor, &mut Notes::default()) {
            Ok(_) if !only_fault => self.state = Some(state),
            Err(fault) if self.wants(&fault) => {
                self.target = None;
                self.state = None;
            }
            _ => {
                self.chunk.ops.pop();
                self.bytes -= bytes;
                return false;
            }
        }
        true
    }

    /// An instruction that closes or leaves, which the walk does not test.
    fn put_plain(&mut self, op: Op) {
        self.bytes += op_bytes(&op);
        self.chunk.ops.push(op);
    }

    // ── Statements ───────────────────────────────────────────────────────────────────────

    /// Statements up to instruction `end`, or until the walk does not come further.
    fn block(&mut self, end: usize, in_arm: bool) {
        while self.at() < end && self.has_room() {
            if !self.is_live() {
                return self.unreachable(end);
            }
            if self.is_armed() && self.random.chance(40) {
                self.provoke();
            } else if self.height() > 48 && self.target != Some(Target::Limit(5)) {
                self.drop_all_but(4);
            } else if self.plan.terse && self.random.chance(90) {
                self.terse_statement();
            } else {
                self.statement(end, in_arm);
            }
        }
    }

    fn statement(&mut self, end: usize, in_arm: bool) {
        match self.random.below(100) {
            0..48 => self.instruction(),
            48..74 => self.idiom(),
            74..90 => self.structure(end),
            90..95 => self.break_if(),
            _ if in_arm => self.leave(),
            _ => {}
        }
    }

    /// What the walk never sees: anything, properly nested.
    fn unreachable(&mut self, end: usize) {
        for _ in 0..self.random.below(4) {
            match self.random.below(10) {
                0 => self.structure(end),
                1 if !self.loops.is_empty() => {
                    self.note_break(self.at());
                    self.put_plain(Op::Break(0));
                }
                _ => {
                    let op = self.any_op();
                    self.put_plain(op);
                }
            }
        }
    }

    fn instruction(&mut self) {
        for _ in 0..6 {
            let op = match self.random.below(10) {
                0..=5 if self.available() < 2 => self.push(),
                0..=4 => self.any_op(),
                _ => self.fitting_op(),
            };
            if self.emit(op) {
                return;
            }
        }
    }

    fn terse_statement(&mut self) {
        let op = if self.available() == 0 { self.constant(3) } else { self.random.pick(&TERSE) };
        self.emit(op);
    }

    /// Leaves fewer than `most` operands above the floor, if there are that many.
    fn drop_all_but(&mut self, most: usize) {
        let height = self.floor + self.random.below(most);
        self.balance(height);
    }

    /// Pops or pushes until the height is `height`.
    fn balance(&mut self, height: usize) {
        while self.is_live() && self.height() != height {
            let above = self.height().saturating_sub(height);
            let done = if above > 0 {
                self.emit(Op::PopN(above.min(255) as u8))
            } else {
                let op = self.push();
                self.emit(op)
            };
            if !done {
                return;
            }
        }
    }

    // ── Blocks ───────────────────────────────────────────────────────────────────────────

    /// An If or a Loop, if there is room for one.
    fn structure(&mut self, end: usize) {
        if self.depth >= self.plan.depth || self.at() + 4 > self.plan.ops {
            return;
        }
        self.depth += 1;
        let wants_loop = matches!(self.target, Some(Target::Refusal(11 | 12)));
        if self.random.chance(if wants_loop { 80 } else { 40 }) {
            self.loop_block(end);
        } else {
            self.if_block(end);
        }
        self.depth -= 1;
    }

    /// Where an arm that begins here ends.
    fn arm_end(&mut self, end: usize) -> usize {
        let left = end.saturating_sub(self.at());
        self.at() + self.random.below(left.min(30) + 1)
    }

    /// The height at which an arm is to end: not this one, if that is the chunk's refusal.
    fn arm_height(&mut self, height: usize, refusal: u8) -> usize {
        if self.is_live() && self.is_armed() && self.target == Some(Target::Refusal(refusal)) {
            let spare = height > self.floor && refusal == 10 && self.random.chance(50);
            return if spare { height - 1 } else { height + 1 };
        }
        height
    }

    /// The height at which a break is to leave: any of two, if breaks may differ. A loop that is not neutral is
    /// refused for that, whatever its breaks are like.
    fn break_height(&mut self, height: usize) -> usize {
        let may_differ = self.is_armed() && matches!(self.target, Some(Target::Refusal(10 | 11)));
        if may_differ { height + self.random.below(2) } else { height }
    }

    fn if_block(&mut self, end: usize) {
        if self.is_live() && self.available() == 0 {
            self.emit_push();
        }
        let entry = self.state.clone();
        let opener = self.at();
        if !self.emit(Op::If(0)) || (entry.is_some() && !self.is_live()) {
            return self.close_refused(opener);
        }
        let after_condition = self.state.clone();
        let base = self.height();
        let has_else = self.random.chance(50);
        let height = base + if has_else { self.random.pick(&[0, 0, 1, 2]) } else { 0 };
        let arm_end = self.arm_end(end);
        self.block(arm_end, true);
        let then_height = self.arm_height(height, 10);
        self.balance(then_height);
        if has_else {
            self.put_plain(Op::Else(0));
            self.state = after_condition;
            let arm_end = self.arm_end(end);
            self.block(arm_end, true);
            self.balance(height);
        }
        self.close_if(opener, entry);
    }

    /// An If that was itself refused still needs its closer.
    fn close_refused(&mut self, opener: usize) {
        if self.at() > opener {
            self.close_if(opener, None);
        }
    }

    /// Puts the EndIf of the If at `opener`, whose Else, if it has one, has no target yet.
    fn close_if(&mut self, opener: usize, entry: Option<State>) {
        let closer = self.at() as u16;
        let middle = self.chunk.ops[opener..].iter().position(|op| *op == Op::Else(0));
        let target = match middle {
            Some(distance) => {
                self.chunk.ops[opener + distance] = Op::Else(closer);
                (opener + distance + 1) as u16
            }
            None => closer,
        };
        self.chunk.ops[opener] = Op::If(target);
        self.put_plain(Op::EndIf);
        self.walk_again(opener, entry);
    }

    fn loop_block(&mut self, end: usize) {
        let entry = self.state.clone();
        let outer_floor = self.floor;
        let opener = self.at();
        self.emit(Op::Loop(0));
        self.floor = self.height();
        let height = self.floor + self.random.pick(&[0, 0, 1, 2]);
        self.loops.push(OpenLoop { height, breaks: Vec::new() });
        let arm_end = self.arm_end(end);
        self.block(arm_end, true);
        let end_height = self.arm_height(self.floor, 11);
        self.balance(end_height);
        let back = if self.random.chance(70) { (opener + 1) as u16 } else { self.random.word() };
        self.put_plain(Op::EndLoop(back));
        let exit = self.at() as u16;
        self.chunk.ops[opener] = Op::Loop(exit);
        for at in self.loops.pop().map(|open| open.breaks).unwrap_or_default() {
            self.chunk.ops[at] = match self.chunk.ops[at] {
                Op::BreakIf(_) => Op::BreakIf(exit),
                _ => Op::Break(exit),
            };
        }
        self.floor = outer_floor;
        self.walk_again(opener, entry);
    }

    /// After a block is whole, the state is what the walk over it leaves. The walk reads no target of a break.
    fn walk_again(&mut self, opener: usize, entry: Option<State>) {
        let Some(entry) = entry else {
            self.state = None;
            return;
        };
        let context = Context::new(self.listing, &self.chunk, self.number);
        let mut notes = Notes::default();
        let mut walk = Walk::new(context, &mut notes);
        let end = walk.stretch(opener, self.chunk.ops.len(), entry, &mut Vec::new(), self.floor);
        if end.as_ref().is_err_and(|fault| self.wants(fault)) {
            self.target = None;
        }
        self.state = end.ok().flatten();
    }

    fn break_if(&mut self) {
        let Some(height) = self.loops.last().map(|open| open.height) else {
            return;
        };
        let height = self.break_height(height);
        self.balance(height);
        self.emit_push();
        let at = self.at();
        if self.emit(Op::BreakIf(0)) {
            self.note_break(at);
        }
    }

    /// Return, Break or Trap.
    fn leave(&mut self) {
        match (self.random.below(3), self.loops.last().map(|open| open.height)) {
            (0, Some(height)) => {
                let height = self.break_height(height);
                self.balance(height);
                let at = self.at();
                self.emit(Op::Break(0));
                self.note_break(at);
            }
            (1, _) => {
                self.emit(Op::Return);
            }
            _ => {
                let codes = [self.listing.index_code, self.listing.host_code, self.random.word()];
                let code = self.random.pick(&codes);
                if !self.emit(Op::Trap(code)) {
                    return;
                }
            }
        }
        self.state = None;
    }

    fn note_break(&mut self, at: usize) {
        if let Some(open) = self.loops.last_mut() {
            open.breaks.push(at);
        }
    }
}
