//! The same listing with F 0 and with F 8, and what kind 5 comes to in the two.

use crate::bytecode::{
    ArrayElem, Chunk, EnumField, FLOAT_TAG, Op, SHARED_SLOT_COMPOSITE_FLAG, StructField, TupleField, WireShape,
};
use crate::limits::Mark;
use crate::listing::{self, Listing};
use crate::refusal::Refusal;
use crate::whole;

// ── Listings ─────────────────────────────────────────────────────────────────────────────

/// What stands before F in a first line: this and W, which is one digit, and a space.
const BEFORE_W: &[u8] = b"(module ";
const AT_F: usize = BEFORE_W.len() + 2;

/// Whether the first line says that there are no floats.
pub fn is_without_floats(bytes: &[u8]) -> bool {
    bytes.starts_with(BEFORE_W) && bytes.get(AT_F - 1..AT_F + 2) == Some(b" 0 ")
}

/// The same listing with another F. Only for listings whose first line has F at its place.
pub fn with_float_bytes(bytes: &[u8], digit: u8) -> Vec<u8> {
    let mut twin = bytes.to_vec();
    twin[AT_F] = b'0' + digit;
    twin
}

// ── What they meet ───────────────────────────────────────────────────────────────────────

/// Every place of kind 5, each reached by a listing with F 0 and by the same with F 8, which answers otherwise; and what
/// kind 5 does not touch, with which both are accepted.
pub const PLACES: &[&str] = &[
    "F 0 and F 8: FloatToInt",
    "F 0 and F 8: GetEnumField of K 5, examined",
    "F 0 and F 8: GetEnumField of K 5, not examined",
    "F 0 and F 8: GetField of K 5, examined",
    "F 0 and F 8: GetField of K 5, not examined",
    "F 0 and F 8: GetIndex of K 5, examined",
    "F 0 and F 8: GetIndex of K 5, not examined",
    "F 0 and F 8: GetTupleField of K 5, examined",
    "F 0 and F 8: GetTupleField of K 5, not examined",
    "F 0 and F 8: IntToFloat",
    "F 0 and F 8: composite passed for a parameter",
    "F 0 and F 8: composite stored in a parameter",
    "F 0 and F 8: flat shape of KIND 5",
    "F 0 and F 8: index into an operand",
    "F 0 and F 8: read of a constant",
    "F 0 and F 8: read of a native's result",
    "F 0 and F 8: read of a parameter",
    "F 0 and F 8: read of a result",
    "F 0 and F 8: read of what is resumed",
    "F 0 and F 8: shared entry of KIND 133",
    "F 0 and F 8: shared entry of KIND 5",
    "F 0 and F 8: size of a composite",
    "F 0 and F 8: texts of a composite",
];

/// A place that needs a listing of many lines.
pub const PLACE_PAST_THE_OPS: &str = "F 0 and F 8: K 5 past the last instruction that there is room for";

/// The places that a listing with F 0 reaches.
pub fn places(bytes: &[u8]) -> Vec<&'static str> {
    let twin = with_float_bytes(bytes, 8);
    let Ok(listing) = listing::read(&twin) else {
        return past_the_ops(bytes, &twin).into_iter().collect();
    };
    match (whole::check(bytes), whole::check(&twin)) {
        (Ok(_), Ok(_)) => untouched(&listing),
        (Ok(_), Err(refusal)) => refused_with_floats(&listing, &refusal).into_iter().collect(),
        (Err(refusal), Ok(marks)) => refused_without_floats(bytes, &listing, &refusal, &marks).into_iter().collect(),
        (Err(_), Err(_)) => Vec::new(),
    }
}

/// Where the instructions are full, a line that names kind 5 cannot follow, and any other is one too many.
fn past_the_ops(bytes: &[u8], twin: &[u8]) -> Option<&'static str> {
    let refusals = (listing::read(bytes).err()?, listing::read(twin).err()?);
    let is_of_kind_5 =
        op_at_line(bytes, &refusals.0).is_some_and(|op| op.starts_with(b"(op Get") && op.ends_with(b" 5)"));
    (is_of_kind_5 && refusals.1.passed_limit() == Some(2)).then_some(PLACE_PAST_THE_OPS)
}

/// The line of a refusal 1, if it is an op's.
fn op_at_line<'a>(bytes: &'a [u8], refusal: &Refusal) -> Option<&'a [u8]> {
    let line = (refusal.number == 1).then(|| refusal.fields[0] as usize)?;
    bytes.split(|byte| *byte == b'\n').nth(line).filter(|line| line.starts_with(b"(op "))
}

/// What both accept, though a 5 stands there.
fn untouched(listing: &Listing) -> Vec<&'static str> {
    let module = &listing.module;
    let mut places = Vec::new();
    let mut note = |is_met: bool, place| {
        if is_met {
            places.push(place);
        }
    };
    let of_kind_5 = |shape: &WireShape| matches!(shape, WireShape::Flat { kind: FLOAT_TAG, .. });
    let in_signatures = module.signatures.iter().flat_map(|sig| sig.params.iter().chain([&sig.ret, &sig.resume]));
    note(module.native_return_shapes.iter().chain(in_signatures).any(of_kind_5), "F 0 and F 8: flat shape of KIND 5");
    let composite = SHARED_SLOT_COMPOSITE_FLAG | FLOAT_TAG;
    let is_composite = listing.layout().shared_layout.iter().any(|entry| entry.kind == composite);
    note(is_composite, "F 0 and F 8: shared entry of KIND 133");
    note(listing.ops().any(|op| *op == Op::IntToFloat), "F 0 and F 8: IntToFloat");
    note(listing.ops().any(|op| *op == Op::FloatToInt), "F 0 and F 8: FloatToInt");
    places
}

/// Where F 8 refuses what F 0 accepts.
fn refused_with_floats(listing: &Listing, refusal: &Refusal) -> Option<&'static str> {
    let ip = *refusal.fields.first()? as usize;
    match refusal.number {
        7 => Some(read_of(listing, refusal.chunk, ip)?),
        8 => Some("F 0 and F 8: size of a composite"),
        9 => Some("F 0 and F 8: texts of a composite"),
        13 => Some("F 0 and F 8: composite stored in a parameter"),
        14 => Some("F 0 and F 8: composite passed for a parameter"),
        _ => None,
    }
}

/// What the read at `ip` reads, where the instruction before pushed it.
fn read_of(listing: &Listing, number: usize, ip: usize) -> Option<&'static str> {
    let Chunk { ops, .. } = &listing.module.chunks[number];
    if matches!(ops[ip], Op::GetIndex(_)) {
        return Some("F 0 and F 8: index into an operand");
    }
    let params = listing.module.signatures.get(number).map_or(&[][..], |sig| &sig.params);
    match ops[ip.checked_sub(1)?] {
        Op::Const(_) => Some("F 0 and F 8: read of a constant"),
        Op::GetLocal(slot) if params.get(usize::from(slot)) == Some(&WireShape::Scalar { kind: FLOAT_TAG }) => {
            Some("F 0 and F 8: read of a parameter")
        }
        Op::Call(..) => Some("F 0 and F 8: read of a result"),
        Op::Yield => Some("F 0 and F 8: read of what is resumed"),
        Op::CallVerifiedNative(..) | Op::CallExternalNative(..) => Some("F 0 and F 8: read of a native's result"),
        _ => None,
    }
}

/// Where F 0 refuses what F 8 accepts: a shared entry without a width, or the first op that names kind 5.
fn refused_without_floats(
    bytes: &[u8],
    listing: &Listing,
    refusal: &Refusal,
    marks: &[Vec<Mark>],
) -> Option<&'static str> {
    if refusal.number == 16 && refusal.fields[2] == 0 {
        return Some("F 0 and F 8: shared entry of KIND 5");
    }
    op_at_line(bytes, refusal)?;
    let (op, mark) = listing.ops().zip(marks.iter().flatten()).find(|(op, _)| names_kind_5(op))?;
    Some(match (op, mark.height.is_some()) {
        (Op::GetField(_), true) => "F 0 and F 8: GetField of K 5, examined",
        (Op::GetField(_), false) => "F 0 and F 8: GetField of K 5, not examined",
        (Op::GetTupleField(_), true) => "F 0 and F 8: GetTupleField of K 5, examined",
        (Op::GetTupleField(_), false) => "F 0 and F 8: GetTupleField of K 5, not examined",
        (Op::GetEnumField(_), true) => "F 0 and F 8: GetEnumField of K 5, examined",
        (Op::GetEnumField(_), false) => "F 0 and F 8: GetEnumField of K 5, not examined",
        (_, true) => "F 0 and F 8: GetIndex of K 5, examined",
        (_, false) => "F 0 and F 8: GetIndex of K 5, not examined",
    })
}

fn names_kind_5(op: &Op) -> bool {
    match op {
        Op::GetField(StructField::Flat { kind, .. })
        | Op::GetTupleField(TupleField::Flat { kind, .. })
        | Op::GetEnumField(EnumField::Flat { kind, .. })
        | Op::GetIndex(ArrayElem::Flat { kind }) => kind.to_tag() == FLOAT_TAG,
        _ => false,
    }
}
