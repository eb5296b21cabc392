//! The static library's calls. Nothing but this module is unsafe.

/// The words of an answer: 0, chunks and instructions, or a refusal's numbers; the rest are 0.
pub const ANSWER_WORDS: usize = 8;

/// The words of the tables.
pub const TABLE_WORDS: usize = 22_232;

/// Sheets of so many entries are never too short.
pub const MOST_INSTRUCTIONS: usize = 4_096;

/// A buffer of so many bytes is never too short.
pub const MOST_BYTES: usize = 65_536;

// As in include/stagecheck.h.
unsafe extern "C" {
    fn stagecheck_check_in(
        listing: *const u8,
        listing_length: usize,
        tables: *mut u64,
        heights: *mut u8,
        heights_length: usize,
        blinds: *mut u8,
        blinds_length: usize,
        answer: *mut u64,
    ) -> usize;

    fn stagecheck_read(listing: *const u8, length: usize, tables: *mut u64, answer: *mut u64) -> usize;

    fn stagecheck_write(tables: *const u64, out: *mut u8, out_length: usize, answer: *mut u64) -> usize;
}

/// Checks a listing: the answer's words.
pub fn check_in(
    listing: &[u8],
    tables: &mut [u64; TABLE_WORDS],
    heights: &mut [u8],
    blinds: &mut [u8],
) -> [u64; ANSWER_WORDS] {
    let mut answer = [0; ANSWER_WORDS];
    // SAFETY: pointers of slices and arrays are good for their lengths and aligned, and what is borrowed mutably
    // overlaps nothing else and is seen by nobody else.
    unsafe {
        stagecheck_check_in(
            listing.as_ptr(),
            listing.len(),
            tables.as_mut_ptr(),
            heights.as_mut_ptr(),
            heights.len(),
            blinds.as_mut_ptr(),
            blinds.len(),
            answer.as_mut_ptr(),
        )
    };
    answer
}

/// Reads a listing into tables: the answer's words.
pub fn read(listing: &[u8], tables: &mut [u64; TABLE_WORDS]) -> [u64; ANSWER_WORDS] {
    let mut answer = [0; ANSWER_WORDS];
    // SAFETY: as above.
    unsafe { stagecheck_read(listing.as_ptr(), listing.len(), tables.as_mut_ptr(), answer.as_mut_ptr()) };
    answer
}

/// Writes what tables hold to the front of a buffer: the answer's words.
pub fn write(tables: &[u64; TABLE_WORDS], out: &mut [u8]) -> [u64; ANSWER_WORDS] {
    let mut answer = [0; ANSWER_WORDS];
    // SAFETY: as above; the tables are only read.
    unsafe { stagecheck_write(tables.as_ptr(), out.as_mut_ptr(), out.len(), answer.as_mut_ptr()) };
    answer
}
