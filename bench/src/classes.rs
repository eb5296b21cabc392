//! The classes of listings that are measured. Generated ones are those of a fixed seed, from number 0 on, that belong to
//! the class; the others are built here.

use oracle::answer::{self, Answer};
use oracle::bytecode::{
    Chunk, ChunkSignature, ConstValue, DataLayout, Module, NewCompositeOperand, Op, StructField, TupleField, WireShape,
};
use oracle::generator::{self, Size};
use oracle::limits::{Notes, Widths};
use oracle::listing::{self, Listing, MAX_BYTES, MAX_OPS};
use oracle::value_layout::{CompositeKind, ScalarKind};
use oracle::whole;

const SEED: u64 = 1;

pub struct Class {
    pub name: &'static str,
    pub listings: Vec<Vec<u8>>,
}

pub fn classes() -> Vec<Class> {
    let class = |name, listings| Class { name, listings };
    vec![
        class("tiny", generated(100, Size::Small, |_, answer| accepted(answer, 1, 12))),
        class("median 100 instructions", median_100()),
        class("4,096 in a straight line", vec![straight_line(MAX_OPS)]),
        class("eight nested loops", vec![include_bytes!("../eight_loops.listing").to_vec()]),
        class("locals that widen", generated(50, Size::Any, |bytes, answer| accepted(answer, 1, 500) && widens(bytes))),
        class("text-heavy composites", vec![texts()]),
        class("4,096 times Return", vec![write(&[], 0, &vec![Op::Return; MAX_OPS])]),
        class("refused early", vec![refused_early()]),
        class("damaged", generated(100, Size::Any, |_, answer| cannot_follow(answer))),
    ]
}

// ── Generated ────────────────────────────────────────────────────────────────────────────

/// The first `count` listings of the seed that are wanted.
fn generated(count: usize, size: Size, wanted: impl Fn(&[u8], &Answer) -> bool) -> Vec<Vec<u8>> {
    let listings = (0..).map(|number| generator::listing_with_floats(SEED, number, size));
    listings.filter(|bytes| wanted(bytes, &answer::answer(bytes))).take(count).collect()
}

/// As many listings with 70 to 100 instructions as with 100 to 140.
fn median_100() -> Vec<Vec<u8>> {
    let mut listings = generated(50, Size::Any, |_, answer| accepted(answer, 70, 100));
    listings.extend(generated(50, Size::Any, |_, answer| accepted(answer, 100, 140)));
    listings
}

fn accepted(answer: &Answer, least: usize, most: usize) -> bool {
    matches!(answer, Answer::Accepted { instructions, .. } if (least..=most).contains(instructions))
}

fn cannot_follow(answer: &Answer) -> bool {
    matches!(answer, Answer::Refused(refusal) if refusal.number == 1)
}

/// Whether some loop takes eight passes or more: its locals widen one after the other.
fn widens(bytes: &[u8]) -> bool {
    let mut notes = Notes::default();
    let listing = listing::read(bytes).expect("an accepted listing");
    whole::check_nested(&listing, &mut notes).is_ok() && notes.passes.keys().any(|passes| *passes >= 8)
}

// ── Built ────────────────────────────────────────────────────────────────────────────────

/// A module of one chunk with these parameters, and with the constants Int and Text.
fn module(params: &[WireShape], local_count: u16, ops: &[Op]) -> Listing {
    let signature = ChunkSignature { params: params.to_vec(), ret: WireShape::Top, resume: WireShape::Top };
    let constants = vec![ConstValue::Int(()), ConstValue::StaticStr(())];
    let module = Module {
        chunks: vec![Chunk { local_count, constants, ops: ops.to_vec() }],
        signatures: vec![signature],
        data_layout: Some(DataLayout::default()),
        addr_bits_log2: 6,
        ..Module::default()
    };
    Listing { word_bytes: 8, float_bytes: 8, index_code: 8, host_code: 9, module }
}

fn write(params: &[WireShape], local_count: u16, ops: &[Op]) -> Vec<u8> {
    listing::write(&module(params, local_count, ops))
}

const INT: Op = Op::Const(0);
const TEXT: Op = Op::Const(1);

/// So many instructions without a jump: constants, locals, arithmetic, and reads of the parameter's fields.
pub fn straight_line(instructions: usize) -> Vec<u8> {
    let read = Op::GetField(StructField::Flat { offset: 8, kind: ScalarKind::Int });
    let pattern = [
        vec![INT, Op::Dup, Op::Add, Op::SetLocal(1)],
        vec![Op::GetLocal(1), Op::GetLocal(2), Op::CmpLt, Op::Not, Op::SetLocal(2)],
        vec![Op::GetLocal(0), read, Op::PopN(1)],
    ];
    let mut ops: Vec<Op> = pattern.concat().into_iter().cycle().take(instructions - 1).collect();
    ops.push(Op::Return);
    write(&[WireShape::Flat { kind: 0, size: 16 }], 3, &ops)
}

/// The same in size, but refused at its first instruction.
fn refused_early() -> Vec<u8> {
    let full = String::from_utf8(straight_line(MAX_OPS)).expect("a listing is text");
    full.replacen("(op Const 0)\n", "(op Add)\n", 1).into_bytes()
}

/// Eight loops in one another. Each first gives its own locals, so many, the Int back. Its body hands each of them the
/// next one's value and the last a text, so that a loop takes a pass more than it has locals whenever it is met.
pub fn eight_loops_that_widen(locals: u16) -> Vec<u8> {
    write(&[], 8 * locals, &nest_that_widens(8, locals, 0))
}

/// So many of these loops, from instruction `start` on.
fn nest_that_widens(depth: u16, locals: u16, start: u16) -> Vec<Op> {
    if depth == 0 {
        return Vec::new();
    }
    let first = (depth - 1) * locals;
    let last = first + locals - 1;
    let mut ops: Vec<Op> = (first..=last).flat_map(|local| [INT, Op::SetLocal(local)]).collect();
    let opener = ops.len();
    ops.push(Op::Loop(0));
    ops.extend((first..last).flat_map(|local| [Op::GetLocal(local + 1), Op::SetLocal(local)]));
    ops.extend([TEXT, Op::SetLocal(last)]);
    ops.extend(nest_that_widens(depth - 1, locals, start + ops.len() as u16));
    ops.push(Op::EndLoop(start + opener as u16));
    ops[opener] = Op::Loop(start + ops.len() as u16);
    ops
}

/// Composites of two, four, eight and sixteen texts, a read of the last text, and a local that keeps them, again and
/// again until the listing is full.
fn texts() -> Vec<u8> {
    let width = Widths::of(&module(&[], 0, &[])).scalar(ScalarKind::Text) as u16;
    let pair = |byte_size| {
        [Op::Dup, Op::NewComposite(NewCompositeOperand::Flat { kind: CompositeKind::Tuple, count: 2, byte_size })]
    };
    let last = Op::GetTupleField(TupleField::Flat { offset: 15 * width, kind: ScalarKind::Text });
    let mut ops = Vec::new();
    let mut bytes = write(&[], 32, &ops);
    for local in (0..32).cycle() {
        ops.push(TEXT);
        ops.extend([2, 4, 8, 16].into_iter().flat_map(|places| pair(places * width)));
        ops.extend([Op::SetLocal(local), Op::GetLocal(local), last.clone(), Op::PopN(1)]);
        let longer = write(&[], 32, &ops);
        if longer.len() > MAX_BYTES || ops.len() > MAX_OPS {
            break;
        }
        bytes = longer;
    }
    bytes
}
