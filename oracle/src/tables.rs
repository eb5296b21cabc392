//! The tables of a generated listing: all of it but the chunks.

use crate::bytecode::{
    ChunkSignature, DataLayout, DataSlot, EnumLayout, FLOAT_TAG, Module, PrivateCompositeLayout,
    SHARED_SLOT_COMPOSITE_FLAG, SharedSlotLayout, SlotVisibility, TrapKind, WireShape,
};
use crate::generator::{Scope, Target, Twin};
use crate::limits::Widths;
use crate::listing::{Listing, MAX_PARAMS};
use crate::random::Random;
use crate::value_layout::ScalarKind;

/// What a listing is to be like.
#[derive(Clone, Copy)]
pub struct Plan {
    pub scope: Scope,
    pub target: Option<Target>,
    pub chunks: usize,
}

/// A listing without chunks.
pub fn tables(random: &mut Random, plan: Plan) -> Listing {
    let Scope { small, twin } = plan.scope;
    let mut listing = header(random, twin);
    match plan.target {
        Some(Target::Layout(number, reason)) => faulty_layout(random, &mut listing, number, reason),
        _ if random.chance(if small { 10 } else { 30 }) => {
            valid_layout(random, &mut listing, 0);
        }
        _ => {}
    }
    let most = if small { 1 } else { 3 };
    if plan.target == Some(Target::Refusal(17)) || random.chance(40) {
        let count = random.between(1, most);
        listing.module.enum_layouts = (0..count).map(|_| EnumLayout { min_payload: random.long() }).collect();
    }
    if random.chance(50) {
        let count = random.between(1, most);
        listing.module.native_return_shapes = (0..count).map(|_| shape(random, twin)).collect();
    }
    if plan.target == Some(Target::Refusal(8)) && random.chance(30) {
        listing.module.native_return_shapes = vec![WireShape::Flat { kind: 0, size: u32::MAX }];
    }
    listing.module.signatures = signatures(random, plan);
    listing
}

fn header(random: &mut Random, twin: Option<Twin>) -> Listing {
    let widths = [8, 8, 8, 4, 2, 1];
    let (index_code, host_code) = if random.chance(97) {
        (TrapKind::IndexOutOfBounds.code(), TrapKind::HostError.code())
    } else {
        random.pick(&[(9, 8), (0, 1), (8, 65535), (3, 9)])
    };
    Listing {
        word_bytes: random.pick(&widths),
        float_bytes: match twin {
            None => random.pick(&widths),
            Some(Twin::WithFloats) => 8,
            Some(Twin::WithoutFloats) => 0,
        },
        index_code,
        host_code,
        module: Module {
            data_layout: Some(DataLayout::default()),
            addr_bits_log2: random.pick(&[6, 6, 6, 5, 4, 3]),
            ..Module::default()
        },
    }
}

/// Fills the layout so that it is refused by nothing; `least` entries of each kind at least. S and P are mostly
/// just enough.
fn valid_layout(random: &mut Random, listing: &mut Listing, least: usize) {
    let shared = random.between(least, least + 2);
    let private = random.between(least, least + 2);
    let slot = |visibility| DataSlot { visibility };
    let mut layout = DataLayout::default();
    layout.slots.resize(shared, slot(SlotVisibility::Shared));
    layout.slots.resize(shared + private, slot(SlotVisibility::Private));
    let mut end = 0;
    for _ in 0..shared {
        let (kind, len, size) = shared_entry(random, listing);
        layout.shared_layout.push(SharedSlotLayout { offset: end, kind, len });
        end += size;
    }
    let mut pool = 0;
    for entry in 0..(shared + private) {
        // Private entries are tested against all slots, so one may name a shared slot.
        if random.chance(60) || entry < least {
            let offset = pool + random.below(9) as u32;
            layout.private_composite_layout.push(PrivateCompositeLayout { slot: entry as u16, offset });
            pool = offset + 1;
        }
    }
    listing.module.data_layout = Some(layout);
    let slack = random.pick(&[0, 0, 1, 100]);
    listing.module.shared_data_bytes = end + slack;
    listing.module.persistent_composite_bytes = pool + slack;
}

/// KIND, LEN and size of a shared entry.
fn shared_entry(random: &mut Random, listing: &Listing) -> (u8, u16, u32) {
    if random.chance(35) {
        let len = random.below(40) as u16;
        return (SHARED_SLOT_COMPOSITE_FLAG | random.byte(), len, u32::from(len));
    }
    let widths = Widths::of(listing);
    let tag = random.below(8) as u8;
    // Of the tags 0 to 7 the listing may lack one, which the last of them stands in for.
    let kind = widths.known(tag).unwrap_or(ScalarKind::Opaque);
    (kind.to_tag(), random.word(), widths.scalar(kind))
}

/// A layout with one fault: refusal `number` with `reason` (0 where it has none).
fn faulty_layout(random: &mut Random, listing: &mut Listing, number: u8, reason: u8) {
    valid_layout(random, listing, 2);
    if number == 16 {
        return faulty_shared_entry(random, listing);
    }
    let pool = listing.module.persistent_composite_bytes;
    let layout = listing.layout_mut();
    if number == 19 {
        match reason {
            1 => layout.slots.push(DataSlot { visibility: SlotVisibility::Shared }),
            _ if random.chance(50) => {
                layout.shared_layout.pop();
            }
            _ => layout.shared_layout.push(SharedSlotLayout { offset: 0, kind: 0, len: 0 }),
        }
        return;
    }
    let slots = layout.slots.len();
    let entries = &mut layout.private_composite_layout;
    let at = random.between(1, entries.len() - 1);
    match reason {
        1 => entries[at].slot = (slots + random.below(2)) as u16,
        2 => entries[at].offset = pool + random.below(2) as u32,
        3 => entries[at].slot = random.below(usize::from(entries[at - 1].slot) + 1) as u16,
        _ => entries[at].offset = random.below(entries[at - 1].offset as usize + 1) as u32,
    }
}

/// A shared entry past S, or one whose KIND is no scalar.
fn faulty_shared_entry(random: &mut Random, listing: &mut Listing) {
    let buffer = listing.module.shared_data_bytes;
    let by_kind = random.chance(30);
    let mut kind = random.between(8, 127) as u8;
    if listing.float_bytes == 0 && random.chance(60) {
        kind = FLOAT_TAG;
    }
    let offset = random.pick(&[buffer, buffer.saturating_sub(1), u32::MAX]);
    let entries = &mut listing.layout_mut().shared_layout;
    let at = random.below(entries.len());
    if by_kind {
        entries[at].kind = kind;
    } else {
        let len = 2 + random.below(5) as u16;
        entries[at] = SharedSlotLayout { offset, kind: SHARED_SLOT_COMPOSITE_FLAG, len };
    }
}

fn signatures(random: &mut Random, plan: Plan) -> Vec<ChunkSignature> {
    let wants_params = matches!(plan.target, Some(Target::Refusal(13 | 14)));
    let count = match random.below(10) {
        _ if wants_params => plan.chunks,
        0 => 0,
        1 => random.below(plan.chunks + 1),
        2 => plan.chunks + random.below(3),
        _ => plan.chunks,
    };
    (0..count.min(64)).map(|_| signature(random, plan.scope, wants_params)).collect()
}

fn signature(random: &mut Random, scope: Scope, wants_params: bool) -> ChunkSignature {
    let Scope { small, twin } = scope;
    let most = match random.below(20) {
        0 if !small => MAX_PARAMS,
        _ if small => 2,
        _ => 4,
    };
    let count = random.between(usize::from(wants_params), most);
    let mut params: Vec<WireShape> = (0..count).map(|_| shape(random, twin)).collect();
    if wants_params {
        params[0] = WireShape::Flat { kind: random.below(4) as u8, size: random.below(40) as u32 };
    }
    ChunkSignature { params, ret: shape(random, twin), resume: shape(random, twin) }
}

/// A shape of a `sig` or `native` line, at times with a tag that is not known. In twins 5 comes often.
fn shape(random: &mut Random, twin: Option<Twin>) -> WireShape {
    if twin.is_some() && random.chance(30) {
        let flat = WireShape::Flat { kind: FLOAT_TAG, size: random.long() };
        return if random.chance(85) { WireShape::Scalar { kind: FLOAT_TAG } } else { flat };
    }
    match random.below(20) {
        0 => WireShape::Scalar { kind: random.between(8, 255) as u8 },
        1 => WireShape::Flat { kind: random.between(4, 255) as u8, size: random.long() },
        2..=5 => WireShape::Top,
        6..=10 => WireShape::Scalar { kind: random.below(8) as u8 },
        11 => WireShape::Flat { kind: random.below(4) as u8, size: random.long() },
        _ => WireShape::Flat { kind: random.below(4) as u8, size: random.pick(&[0, 1, 8, 16, 24, 32, 48]) },
    }
}
