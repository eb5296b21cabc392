//! The original check, unchanged, over types declared from document 01, and a reader of listings. `oracle/build` builds it
//! twice: with its feature `floats`, and without it for listings whose F is 0.

extern crate alloc;

// The original, as published; not to be formatted anew.
#[rustfmt::skip]
#[path = "../../docs/src/value_layout.rs"]
pub mod value_layout;
#[rustfmt::skip]
#[path = "../../docs/src/verify_typed.rs"]
pub mod verify_typed;
/// The one function of verify.rs that the check uses, cut out of that file by `oracle/build`.
pub mod verify {
    use crate::bytecode::{Chunk, Op};
    include!(env!("OP_DEPTH_EFFECT"));
}

// Declared from document 01.
pub mod bytecode;
pub mod form;
pub mod listing;
pub mod refusal;

use bytecode::Module;
use listing::Listing;
use refusal::Refusal;
use verify_typed::{TypedError, typed_check_module};

/// Runs the original. It does not tell the chunk, so a refusal is looked for in the module's first chunks: the
/// fewest that are refused end with the chunk at fault. With no chunk at all the data layout is at fault.
pub fn check(listing: &Listing) -> Result<(), Refusal> {
    let check = |module: &Module| typed_check_module(module, listing.word_bytes, listing.float_bytes);
    let Err(error) = check(&listing.module) else {
        return Ok(());
    };
    let mut module = listing.module.clone();
    while !module.chunks.is_empty() {
        let last = module.chunks.pop();
        if check(&module).is_ok() {
            module.chunks.extend(last);
            break;
        }
    }
    Err(refusal(&error, module.chunks.len().saturating_sub(1)))
}

/// Number and fields of an error, in the order in which the original declares them.
fn refusal(error: &TypedError, chunk: usize) -> Refusal {
    let (number, fields): (u8, Vec<usize>) = match *error {
        TypedError::StackUnderflow { ip } => (5, vec![ip]),
        TypedError::OffsetOutOfBounds { ip, offset, need, size } => (6, vec![ip, offset, need, size as usize]),
        TypedError::ExpectedComposite { ip } => (7, vec![ip]),
        TypedError::NewCompositeSizeMismatch { ip, baked, computed } => {
            (8, vec![ip, baked as usize, computed as usize])
        }
        TypedError::TextFieldMismatch { ip, offset } => (9, vec![ip, offset as usize]),
        TypedError::BranchHeightMismatch { ip, then_height, else_height } => (10, vec![ip, then_height, else_height]),
        TypedError::LoopNotNeutral { ip, entry_height, exit_height } => (11, vec![ip, entry_height, exit_height]),
        TypedError::LoopFloorBreach { ip, floor, available, required } => (12, vec![ip, floor, available, required]),
        TypedError::LocalTypeMismatch { ip, slot } => (13, vec![ip, slot]),
        TypedError::CallArgMismatch { ip, callee, arg } => (14, vec![ip, callee, arg]),
        TypedError::ArrayStrideMismatch { ip, element_size, array_size } => {
            (15, vec![ip, element_size as usize, array_size as usize])
        }
        TypedError::SharedSlotOutOfBounds { slot, offset, size, buffer } => {
            (16, vec![slot, offset, size, buffer as usize])
        }
        TypedError::EnumBodySizeMismatch { ip, baked } => (17, vec![ip, baked as usize]),
        TypedError::PrivateCompositeLayoutInvalid { index, slot, reason } => {
            (18, vec![index, slot, number_of(reason, &PRIVATE_REASONS)])
        }
        TypedError::SharedLayoutCountMismatch { shared_slots, layout_len, reason } => {
            (19, vec![shared_slots, layout_len, number_of(reason, &SHARED_REASONS)])
        }
    };
    Refusal { number, chunk, fields: fields.into_iter().map(|field| field as u64).collect() }
}

/// The reasons of 18, in the order in which the original tests them.
const PRIVATE_REASONS: [&str; 4] = [
    "slot index out of range",
    "pool offset outside the persistent composite pool",
    "slots are not strictly ascending",
    "pool offsets are not strictly ascending",
];

/// The reasons of 19, likewise.
const SHARED_REASONS: [&str; 2] = [
    "shared slots are not a contiguous prefix of the slot array",
    "shared-slot layout entry count does not match the shared-slot count",
];

fn number_of(reason: &str, reasons: &[&str]) -> usize {
    1 + reasons.iter().position(|known| *known == reason).expect("a reason of the original")
}
