//! The proved checker's static library. Programs that link it include this file; the oracle's own library does not.

unsafe extern "C" {
    /// As in include/stagecheck.h.
    fn stagecheck_check(
        listing: *const u8,
        listing_length: usize,
        heights: *mut u8,
        heights_length: usize,
        blinds: *mut u8,
        blinds_length: usize,
        answer: *mut u64,
    ) -> usize;

    /// As in include/stagecheck.h.
    fn stagecheck_check_in(
        listing: *const u8,
        listing_length: usize,
        tables: *mut u64,
        heights: *mut u8,
        heights_length: usize,
        blinds: *mut u8,
        blinds_length: usize,
        answer: *mut u64,
    ) -> usize;

    /// As in include/stagecheck.h.
    fn stagecheck_read(listing: *const u8, listing_length: usize, tables: *mut u64, answer: *mut u64) -> usize;

    /// As in include/stagecheck.h.
    fn stagecheck_write(tables: *const u64, out: *mut u8, out_length: usize, answer: *mut u64) -> usize;
}

/// The words of an answer: 0, chunks and instructions, or a refusal's numbers; the rest are 0.
pub const ANSWER_WORDS: usize = 8;

/// The words of the tables.
#[allow(dead_code)] // Not every program that includes this file lends tables.
pub const TABLE_WORDS: usize = 22_232;

/// The same with tables that are lent, whatever they hold.
#[allow(dead_code)]
pub fn check_in(
    listing: &[u8],
    tables: &mut [u64; TABLE_WORDS],
    heights: &mut [u8],
    blinds: &mut [u8],
    answer: &mut [u64; ANSWER_WORDS],
) -> usize {
    // SAFETY: as in `check`.
    unsafe {
        stagecheck_check_in(
            listing.as_ptr(),
            listing.len(),
            tables.as_mut_ptr(),
            heights.as_mut_ptr(),
            heights.len(),
            blinds.as_mut_ptr(),
            blinds.len(),
            answer.as_mut_ptr(),
        )
    }
}

/// Checks a listing and gives how many words the answer has.
#[allow(dead_code)]
pub fn check(listing: &[u8], heights: &mut [u8], blinds: &mut [u8], answer: &mut [u64; ANSWER_WORDS]) -> usize {
    // SAFETY: pointers of slices are not null and good for their lengths, and those that are written overlap nothing.
    unsafe {
        stagecheck_check(
            listing.as_ptr(),
            listing.len(),
            heights.as_mut_ptr(),
            heights.len(),
            blinds.as_mut_ptr(),
            blinds.len(),
            answer.as_mut_ptr(),
        )
    }
}

/// Reads a listing into tables, whatever they hold, and gives how many words the answer has.
#[allow(dead_code)]
pub fn read(listing: &[u8], tables: &mut [u64; TABLE_WORDS], answer: &mut [u64; ANSWER_WORDS]) -> usize {
    // SAFETY: as in `check`.
    unsafe { stagecheck_read(listing.as_ptr(), listing.len(), tables.as_mut_ptr(), answer.as_mut_ptr()) }
}

/// Writes what the tables say into a buffer, and gives how many words the answer has.
#[allow(dead_code)]
pub fn write(tables: &[u64; TABLE_WORDS], out: &mut [u8], answer: &mut [u64; ANSWER_WORDS]) -> usize {
    // A buffer of no bytes may be null, which asks more of the library than a pointer to nothing does.
    let start = if out.is_empty() { std::ptr::null_mut() } else { out.as_mut_ptr() };
    // SAFETY: as in `check`.
    unsafe { stagecheck_write(tables.as_ptr(), start, out.len(), answer.as_mut_ptr()) }
}
