//! Listings at a limit and just over it.

use crate::bytecode::{
    ArrayElem, Chunk, ChunkSignature, ConstValue, DataSlot, EnumLayout, NewCompositeOperand, Op,
    PrivateCompositeLayout, SharedSlotLayout, SlotVisibility, WireShape,
};
use crate::damage;
use crate::generator::Scope;
use crate::limits::{MAX_HEIGHT, MAX_PLACES, Widths};
use crate::listing::{
    self, Listing, MAX_BYTES, MAX_CONSTANTS, MAX_ENTRIES, MAX_LOCALS, MAX_OPS, MAX_PARAMS, MAX_SLOTS,
};
use crate::nesting::MAX_OPEN_BLOCKS;
use crate::random::Random;
use crate::tables::{Plan, tables};
use crate::value_layout::{CompositeKind, ScalarKind};

pub fn listing(random: &mut Random, scope: Scope) -> Vec<u8> {
    let small = scope.small;
    let mut listing = tables(random, Plan { scope, target: None, chunks: 1 });
    match random.below(12) {
        0 if !small => return long(random, listing),
        1..=4 if !small => full_table(random, &mut listing, scope),
        0 | 1 => listing.module.signatures = vec![signature(MAX_PARAMS + random.below(2))],
        2..=5 => {
            let local_count = random.pick(&[MAX_LOCALS, MAX_LOCALS + 1, u16::MAX]);
            listing.module.chunks.push(Chunk { local_count, ..Chunk::default() });
        }
        6 | 7 => listing.module.chunks.push(deep(random, small)),
        8 | 9 => listing.module.chunks.push(high(random)),
        _ => {
            let chunk = texts(random, &listing);
            listing.module.chunks.push(chunk);
        }
    }
    listing::write(&listing)
}

/// Exactly the most bytes, one more, or many more (limit 1).
fn long(random: &mut Random, mut listing: Listing) -> Vec<u8> {
    let bytes = random.pick(&[MAX_BYTES, MAX_BYTES, MAX_BYTES + 1, MAX_BYTES + 5_000]);
    // What stands after the Return is never examined, so that it may be anything of the right length.
    let mut chunk = Chunk { ops: vec![Op::Return], ..Chunk::default() };
    listing.module.chunks.push(chunk.clone());
    let mut left = bytes - listing::write(&listing).len();
    let wide = Op::GetLocal(u16::MAX);
    while left > 100 {
        chunk.ops.push(wide.clone());
        left -= listing::op_bytes(&wide);
    }
    // Traps have lines of 12 to 16 bytes, and 36 or more bytes can be cut into such lines.
    while left > 0 {
        let lines = left.div_ceil(16);
        let digits = left.div_ceil(lines) - 11;
        chunk.ops.push(Op::Trap(10u16.pow(digits as u32 - 1)));
        left -= 11 + digits;
    }
    listing.module.chunks = vec![chunk];
    listing::write(&listing)
}

/// A table with all the entries that it may have, or one more (limit 2).
fn full_table(random: &mut Random, listing: &mut Listing, scope: Scope) {
    let more = random.below(2);
    let (slots, entries) = (MAX_SLOTS + more, MAX_ENTRIES + more);
    // In twins the instructions come more often.
    match random.below(if scope.twin.is_some() { 12 } else { 10 }) {
        0 => listing.layout_mut().slots = vec![DataSlot { visibility: SlotVisibility::Private }; slots],
        1 => {
            let layout = listing.layout_mut();
            layout.slots = vec![DataSlot { visibility: SlotVisibility::Shared }; MAX_SLOTS];
            layout.shared_layout = vec![SharedSlotLayout { offset: 0, kind: 0, len: 0 }; slots];
        }
        2 => {
            listing.module.persistent_composite_bytes = 1_000;
            let layout = listing.layout_mut();
            layout.shared_layout.clear();
            layout.slots = vec![DataSlot { visibility: SlotVisibility::Private }; MAX_SLOTS];
            layout.private_composite_layout =
                (0..slots).map(|slot| PrivateCompositeLayout { slot: slot as u16, offset: slot as u32 }).collect();
        }
        3 => listing.module.enum_layouts = vec![EnumLayout { min_payload: 8 }; entries],
        4 => listing.module.native_return_shapes = vec![WireShape::Scalar { kind: 3 }; entries],
        5 => listing.module.signatures = vec![signature(1); entries],
        6 => listing.module.signatures = vec![signature(MAX_PARAMS + more)],
        7 => listing.module.chunks = vec![Chunk { ops: vec![Op::Return], ..Chunk::default() }; entries],
        8 => {
            let constants = vec![ConstValue::Unit; MAX_CONSTANTS / 2];
            let chunk = Chunk { constants, ..Chunk::default() };
            listing.module.chunks = vec![chunk; 2];
            listing.module.chunks[1].constants.extend(vec![ConstValue::Other(255); more]);
        }
        _ => {
            let chunk = Chunk { ops: vec![Op::Stream; MAX_OPS / 2], ..Chunk::default() };
            listing.module.chunks = vec![chunk; 2];
            // In twins the line that is one too many is no line at all where there are no floats.
            let last = match scope.twin {
                Some(_) => Op::GetIndex(ArrayElem::Flat { kind: ScalarKind::Float }),
                None => Op::Reset,
            };
            listing.module.chunks[1].ops.extend(vec![last; more]);
        }
    }
}

fn signature(params: usize) -> ChunkSignature {
    ChunkSignature { params: vec![WireShape::Top; params], ret: WireShape::Top, resume: WireShape::Top }
}

/// Blocks in one another: eight, or more (limit 4), at times with broken nesting besides.
fn deep(random: &mut Random, small: bool) -> Chunk {
    let depth = MAX_OPEN_BLOCKS + random.below(2);
    let mut ops = Vec::new();
    for _ in 0..depth {
        // A loop has the fewest instructions.
        let kind = if small { 0 } else { random.below(4) };
        ops = around(kind, ops);
    }
    let mut chunk = Chunk { ops, ..Chunk::default() };
    if random.chance(15) {
        damage::misnest(random, &mut chunk);
    }
    chunk
}

/// A block around instructions that stand in it alone: a loop, or an If with them in its only, first or last arm.
fn around(kind: usize, inner: Vec<Op>) -> Vec<Op> {
    let length = inner.len() as u16;
    let condition = Op::GetLocal(0);
    let (before, after, moved) = match kind {
        0 => (vec![Op::Loop(length + 2)], vec![Op::EndLoop(0)], 1),
        1 => (vec![condition, Op::If(length + 2)], vec![Op::EndIf], 2),
        2 => (vec![condition, Op::If(length + 3)], vec![Op::Else(length + 3), Op::EndIf], 2),
        _ => (vec![condition, Op::If(3), Op::Else(length + 3)], vec![Op::EndIf], 3),
    };
    let inner = inner.into_iter().map(|op| match op {
        Op::Loop(target) => Op::Loop(target + moved),
        Op::If(target) => Op::If(target + moved),
        Op::Else(target) => Op::Else(target + moved),
        other => other,
    });
    before.into_iter().chain(inner).chain(after).collect()
}

/// Operands up to the limit, or over it (limit 5).
fn high(random: &mut Random) -> Chunk {
    let height = MAX_HEIGHT - 3 + random.below(6);
    let mut ops = vec![Op::PushImmediate(1)];
    let mut now = 1;
    while now + 5 <= height {
        ops.push(Op::BoundsCheck(1));
        now += 5;
    }
    ops.extend(vec![Op::Dup; height - now]);
    ops.push(random.pick(&[Op::Return, Op::CheckedNeg, Op::Add, Op::PopN(64)]));
    Chunk { ops, ..Chunk::default() }
}

/// Composites with text places up to the limit, or over it (limit 6).
fn texts(random: &mut Random, listing: &Listing) -> Chunk {
    let width = Widths::of(listing).scalar(ScalarKind::Text) as u16;
    let mut chunk = Chunk { constants: vec![ConstValue::StaticStr(())], ..Chunk::default() };
    let kind = random.pick(&[CompositeKind::Tuple, CompositeKind::Array, CompositeKind::Struct]);
    let array = |count: u16, byte_size| Op::NewComposite(NewCompositeOperand::Flat { kind, count, byte_size });
    chunk.ops.push(Op::Const(0));
    // Doubled until there are as many as may be.
    let mut places = 1;
    while places < MAX_PLACES as u16 {
        places *= 2;
        chunk.ops.extend([Op::Dup, array(2, places * width)]);
    }
    match random.below(4) {
        0 => chunk.ops.extend([Op::Const(0), array(2, (places + 1) * width)]),
        1 => chunk.ops.extend([Op::Dup, array(2, 2 * places * width)]),
        // An enum's places are unknown, so that it has no limit.
        2 => chunk.ops.extend([
            Op::Dup,
            Op::NewComposite(NewCompositeOperand::Flat { kind: CompositeKind::Enum, count: 2, byte_size: 16 }),
        ]),
        _ => chunk.ops.extend([Op::PushImmediate(0), array(2, 2 * places * width)]),
    }
    chunk
}
