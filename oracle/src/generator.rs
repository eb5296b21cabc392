//! Listings from a seed.

use crate::bounds;
use crate::builder::{self, ChunkPlan};
use crate::bytecode::{ArrayElem, EnumField, Op, StructField, TupleField};
use crate::chains;
use crate::damage;
use crate::listing::{self, Listing, MAX_ENTRIES, MAX_OPS};
use crate::random::Random;
use crate::tables::{self, Plan};
use crate::twins;
use crate::value_layout::ScalarKind;

/// What a listing is to be refused with.
#[derive(Clone, Copy, PartialEq, Eq)]
pub enum Target {
    /// A refusal of the walk.
    Refusal(u8),
    /// A limit of the walk.
    Limit(u8),
    /// A refusal of the data layout, with its reason; 0 where it has none.
    Layout(u8, u8),
}

/// How large listings are.
#[derive(Clone, Copy, PartialEq, Eq)]
pub enum Size {
    /// Mostly under 60 instructions, some with hundreds, a few near 4,096.
    Any,
    /// Few instructions and bytes, to be computed inside a prover.
    Small,
}

/// What a listing is to be like, whatever it is about.
#[derive(Clone, Copy)]
pub struct Scope {
    pub small: bool,
    /// Of a pair of listings with F 0 and with F 8, the one that it is built for.
    pub twin: Option<Twin>,
}

#[derive(Clone, Copy, PartialEq, Eq)]
pub enum Twin {
    WithoutFloats,
    WithFloats,
}

/// The most bytes and instructions of a small listing. One about a limit has more: eight open blocks, or 64
/// operands, are not had with fewer.
const SMALL_BYTES: usize = 600;
const SMALL_OPS: usize = 12;
const SMALL_OPS_AT_A_LIMIT: usize = 18;

/// Listing `number` of a seed. Of each four the last two are one listing, with F 0 and with F 8.
pub fn listing(seed: u64, number: u64, size: Size) -> Vec<u8> {
    match number % 4 {
        2 => twin(seed, number, size, 0),
        3 => twin(seed, number - 1, size, 8),
        _ => listing_with_floats(seed, number, size),
    }
}

/// Listing `number` of a seed where all are built with floats.
pub fn listing_with_floats(seed: u64, number: u64, size: Size) -> Vec<u8> {
    let mut random = Random::new(seed, number);
    let is_damaged = random.chance(22);
    let whole = whole(&mut random, Scope { small: size == Size::Small, twin: None });
    if is_damaged { damage::damaged(&mut random, &whole) } else { whole }
}

/// A listing with so many float bytes, 0 or 8. It is built for the one or for the other, so that what kind 5 comes to in
/// the one that it is not built for is left to chance.
fn twin(seed: u64, number: u64, size: Size, float_bytes: u8) -> Vec<u8> {
    let mut random = Random::new(seed, number);
    let is_damaged = random.chance(22);
    let built_for = if random.chance(60) { Twin::WithoutFloats } else { Twin::WithFloats };
    let whole = whole(&mut random, Scope { small: size == Size::Small, twin: Some(built_for) });
    let whole = twins::with_float_bytes(&whole, float_bytes);
    if is_damaged { damage::damaged(&mut random, &whole) } else { whole }
}

/// A listing that is not damaged, and small if it is to be.
fn whole(random: &mut Random, scope: Scope) -> Vec<u8> {
    loop {
        let (bytes, most_ops) = match random.below(100) {
            0..5 => (bounds::listing(random, scope), SMALL_OPS_AT_A_LIMIT),
            5..12 => (listing::write(&chains::listing(random, scope)), SMALL_OPS),
            12..18 => (listing::write(&misnested(random, scope)), SMALL_OPS),
            _ => (listing::write(&program(random, scope)), SMALL_OPS),
        };
        if !scope.small || (bytes.len() <= SMALL_BYTES && count_ops(&bytes) <= most_ops) {
            return bytes;
        }
    }
}

fn count_ops(bytes: &[u8]) -> usize {
    bytes.windows(4).filter(|window| window == b"(op ").count()
}

/// A module whose nesting is broken, for the most part.
fn misnested(random: &mut Random, scope: Scope) -> Listing {
    let mut listing = program(random, scope);
    let chunk = random.below(listing.module.chunks.len());
    damage::misnest(random, &mut listing.module.chunks[chunk]);
    listing
}

const WALK_TARGETS: [Target; 14] = [
    Target::Refusal(5),
    Target::Refusal(6),
    Target::Refusal(7),
    Target::Refusal(8),
    Target::Refusal(9),
    Target::Refusal(10),
    Target::Refusal(11),
    Target::Refusal(12),
    Target::Refusal(13),
    Target::Refusal(14),
    Target::Refusal(15),
    Target::Refusal(17),
    Target::Limit(5),
    Target::Limit(6),
];

const LAYOUT_TARGETS: [Target; 7] = [
    Target::Layout(16, 0),
    Target::Layout(18, 1),
    Target::Layout(18, 2),
    Target::Layout(18, 3),
    Target::Layout(18, 4),
    Target::Layout(19, 1),
    Target::Layout(19, 2),
];

fn target(random: &mut Random) -> Option<Target> {
    match random.below(100) {
        0..45 => Some(random.pick(&WALK_TARGETS)),
        45..55 => Some(random.pick(&LAYOUT_TARGETS)),
        _ => None,
    }
}

/// A module of some chunks, with one refusal or none.
fn program(random: &mut Random, scope: Scope) -> Listing {
    let target = target(random);
    let small = scope.small;
    let ops = match random.below(200) {
        _ if small => random.between(1, 9),
        0 => MAX_OPS - 2,
        1..20 => random.between(100, 600),
        20..60 => random.between(1, 12),
        _ => random.between(13, 60),
    };
    let chunks = match random.below(20) {
        _ if small => random.pick(&[1, 1, 1, 2]),
        0 => random.between(4, MAX_ENTRIES),
        1..=5 => random.between(2, 3),
        _ => 1,
    };
    let mut listing = tables::tables(random, Plan { scope, target, chunks });
    let at_fault = random.below(chunks);
    for number in 0..chunks {
        let share = ops / chunks + 1;
        let plan = ChunkPlan {
            target: target.filter(|_| number == at_fault),
            ops: share,
            bytes: 60_000 / chunks,
            terse: ops > 1_000,
            depth: random.pick(&[2, 3, 4, 8]),
        };
        let chunk = builder::chunk(random, &listing, number, plan);
        listing.module.chunks.push(chunk);
    }
    if scope.twin.is_some() && random.chance(10) {
        append_float_op(random, &mut listing);
    }
    listing
}

/// Puts an op that names kind 5, or floats by its own name, at the end of a chunk. Where the chunk ends with a Return, it is
/// not examined.
fn append_float_op(random: &mut Random, listing: &mut Listing) {
    let kind = ScalarKind::Float;
    let offset = random.word();
    let op = random.pick(&[
        Op::GetField(StructField::Flat { offset, kind }),
        Op::GetTupleField(TupleField::Flat { offset, kind }),
        Op::GetEnumField(EnumField::Flat { offset, kind }),
        Op::GetIndex(ArrayElem::Flat { kind }),
        Op::IntToFloat,
        Op::FloatToInt,
    ]);
    let chunk = random.below(listing.module.chunks.len());
    listing.module.chunks[chunk].ops.push(op);
}

/// Takes a last argument `small` off a program's arguments.
pub fn size_argument(arguments: &mut Vec<String>) -> Size {
    if arguments.last().is_some_and(|last| last == "small") {
        arguments.pop();
        return Size::Small;
    }
    Size::Any
}
