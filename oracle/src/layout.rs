//! The tests of the data layout, written again from document 01: refusals 19, 16 and 18.

use crate::bytecode::{SHARED_SLOT_COMPOSITE_FLAG, SharedSlotLayout, SlotVisibility};
use crate::limits::Widths;
use crate::listing::Listing;
use crate::refusal::Refusal;

pub fn check(listing: &Listing) -> Result<(), Refusal> {
    shared_prefix(listing)?;
    shared_entries(listing)?;
    private_entries(listing)
}

fn refuse<T>(number: u8, fields: [u64; 3]) -> Result<T, Refusal> {
    Err(Refusal { number, chunk: 0, fields: fields.to_vec() })
}

/// Shared slots come first, and each has its entry.
fn shared_prefix(listing: &Listing) -> Result<(), Refusal> {
    let layout = listing.layout();
    let shared: Vec<bool> = layout.slots.iter().map(|slot| slot.visibility == SlotVisibility::Shared).collect();
    let total = shared.iter().filter(|shared| **shared).count();
    let entries = layout.shared_layout.len();
    if shared[..total].contains(&false) {
        return refuse(19, [total as u64, entries as u64, 1]);
    }
    if total != entries {
        return refuse(19, [total as u64, entries as u64, 2]);
    }
    Ok(())
}

/// Each shared entry ends within the shared bytes; one whose scalar is not known is refused with size 0.
fn shared_entries(listing: &Listing) -> Result<(), Refusal> {
    let buffer = u64::from(listing.module.shared_data_bytes);
    for (slot, entry) in listing.layout().shared_layout.iter().enumerate() {
        let size = entry_size(listing, entry);
        let offset = u64::from(entry.offset);
        if size.is_none_or(|size| offset + size > buffer) {
            let fields = vec![slot as u64, offset, size.unwrap_or(0), buffer];
            return Err(Refusal { number: 16, chunk: 0, fields });
        }
    }
    Ok(())
}

fn entry_size(listing: &Listing, entry: &SharedSlotLayout) -> Option<u64> {
    if entry.kind >= SHARED_SLOT_COMPOSITE_FLAG {
        return Some(u64::from(entry.len));
    }
    let widths = Widths::of(listing);
    widths.known(entry.kind).map(|kind| u64::from(widths.scalar(kind)))
}

fn private_entries(listing: &Listing) -> Result<(), Refusal> {
    let layout = listing.layout();
    let entries = &layout.private_composite_layout;
    for (index, entry) in entries.iter().enumerate() {
        let before = index.checked_sub(1).map(|before| &entries[before]);
        let reason = if usize::from(entry.slot) >= layout.slots.len() {
            1
        } else if entry.offset >= listing.module.persistent_composite_bytes {
            2
        } else if before.is_some_and(|before| entry.slot <= before.slot) {
            3
        } else if before.is_some_and(|before| entry.offset <= before.offset) {
            4
        } else {
            continue;
        };
        return refuse(18, [index as u64, u64::from(entry.slot), reason]);
    }
    Ok(())
}
