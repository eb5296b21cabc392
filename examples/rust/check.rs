//! `check FILE`: checks a listing through a safe wrapper of the static library, and prints the answer and the blind
//! instructions. Fails where the listing is refused or cannot be read.

use std::process::ExitCode;

/// The wrapper: what a Rust program would have as a module.
mod stagecheck {
    use std::fmt;

    /// The most instructions of a listing: sheets of so many entries are never too short.
    pub const MOST_INSTRUCTIONS: usize = 4_096;

    const ANSWER_WORDS: usize = 8;

    unsafe extern "C" {
        /// As in include/stagecheck.h.
        fn stagecheck_check(
            listing: *const u8,
            listing_length: usize,
            heights: *mut u8,
            heights_length: usize,
            blinds: *mut u8,
            blinds_length: usize,
            answer: *mut u64,
        ) -> usize;
    }

    #[derive(Clone, Debug, PartialEq, Eq)]
    pub enum Answer {
        Accepted { chunks: u64, instructions: u64 },
        Refused(Refusal),
    }

    /// A refusal of document 01. The chunk is 0 where none is at fault.
    #[derive(Clone, Debug, PartialEq, Eq)]
    pub struct Refusal {
        pub number: u64,
        pub chunk: u64,
        pub fields: Vec<u64>,
    }

    /// Name and fields of refusals 1 to 19.
    const REFUSALS: [(&str, &[&str]); 19] = [
        ("CannotFollow", &["lines"]),
        ("LimitPassed", &["ip", "limit"]),
        ("NotNested", &["ip"]),
        ("SheetTooShort", &["instructions", "length"]),
        ("StackUnderflow", &["ip"]),
        ("OffsetOutOfBounds", &["ip", "offset", "need", "size"]),
        ("ExpectedComposite", &["ip"]),
        ("NewCompositeSizeMismatch", &["ip", "baked", "computed"]),
        ("TextFieldMismatch", &["ip", "offset"]),
        ("BranchHeightMismatch", &["ip", "then_height", "else_height"]),
        ("LoopNotNeutral", &["ip", "entry_height", "exit_height"]),
        ("LoopFloorBreach", &["ip", "floor", "available", "required"]),
        ("LocalTypeMismatch", &["ip", "slot"]),
        ("CallArgMismatch", &["ip", "callee", "arg"]),
        ("ArrayStrideMismatch", &["ip", "element_size", "array_size"]),
        ("SharedSlotOutOfBounds", &["slot", "offset", "size", "buffer"]),
        ("EnumBodySizeMismatch", &["ip", "baked"]),
        ("PrivateCompositeLayoutInvalid", &["index", "slot", "reason"]),
        ("SharedLayoutCountMismatch", &["shared_slots", "layout_len", "reason"]),
    ];

    /// Checks a listing. Both sheets are overwritten: see include/stagecheck.h.
    pub fn check(listing: &[u8], heights: &mut [u8], blinds: &mut [u8]) -> Answer {
        let mut words = [0; ANSWER_WORDS];
        // SAFETY: pointers of slices are not null and good for their lengths, and what is written overlaps nothing.
        let count = unsafe {
            stagecheck_check(
                listing.as_ptr(),
                listing.len(),
                heights.as_mut_ptr(),
                heights.len(),
                blinds.as_mut_ptr(),
                blinds.len(),
                words.as_mut_ptr(),
            )
        };
        match words[..count] {
            [0, chunks, instructions] => Answer::Accepted { chunks, instructions },
            [number, chunk, ref fields @ ..] => Answer::Refused(Refusal { number, chunk, fields: fields.to_vec() }),
            _ => unreachable!("an answer has three words at least"),
        }
    }

    impl fmt::Display for Answer {
        fn fmt(&self, out: &mut fmt::Formatter) -> fmt::Result {
            match self {
                Answer::Accepted { chunks, instructions } => {
                    write!(out, "accepted, chunks {chunks}, instructions {instructions}")
                }
                Answer::Refused(refusal) => write!(out, "{refusal}"),
            }
        }
    }

    impl fmt::Display for Refusal {
        fn fmt(&self, out: &mut fmt::Formatter) -> fmt::Result {
            let (name, fields) = REFUSALS[self.number as usize - 1];
            write!(out, "refused, {name}, chunk {}", self.chunk)?;
            fields.iter().zip(&self.fields).try_for_each(|(field, value)| write!(out, ", {field} {value}"))
        }
    }
}

use stagecheck::{Answer, MOST_INSTRUCTIONS};

fn main() -> ExitCode {
    let Some(file) = std::env::args().nth(1) else {
        eprintln!("usage: check FILE");
        return ExitCode::FAILURE;
    };
    let listing = match std::fs::read(&file) {
        Ok(listing) => listing,
        Err(error) => {
            eprintln!("check: {file}: {error}");
            return ExitCode::FAILURE;
        }
    };
    let mut heights = [0; MOST_INSTRUCTIONS];
    let mut blinds = [0; MOST_INSTRUCTIONS];
    let answer = stagecheck::check(&listing, &mut heights, &mut blinds);
    println!("{answer}");
    // Entries of both sheets are counted over all chunks.
    for at in (0..MOST_INSTRUCTIONS).filter(|at| blinds[*at] != 0) {
        println!("blind at {at}, with {} operands before it", heights[at] - 1);
    }
    if matches!(answer, Answer::Accepted { .. }) { ExitCode::SUCCESS } else { ExitCode::FAILURE }
}
