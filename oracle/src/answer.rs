//! The original's answer as a line of document 01, and the rule that leaves a listing out of a comparison.

use crate::bytecode::TrapKind;
use crate::limits::Notes;
use crate::listing::{self, Listing};
use crate::refusal::Refusal;
use crate::{nesting, whole};
use original_without_floats::refusal::Refusal as RefusalWithoutFloats;
use std::fmt;

/// What is compared.
#[derive(Clone, Debug, PartialEq, Eq)]
pub enum Answer {
    Accepted {
        chunks: usize,
        instructions: usize,
    },
    Refused(Refusal),
    /// Left out: the walk passes limit 5 or 6, which the original does not have.
    BeyondLimit(u8),
    /// Left out: the trap codes are not the original's.
    BeyondCodes,
}

impl Answer {
    /// The words that a checker gives for it: 0, chunks and instructions, or the refusal's numbers. None where the
    /// listing is left out.
    pub fn words(&self) -> Option<Vec<u64>> {
        match self {
            Answer::Accepted { chunks, instructions } => Some(vec![0, *chunks as u64, *instructions as u64]),
            Answer::Refused(refusal) => Some(refusal.words()),
            Answer::BeyondLimit(_) | Answer::BeyondCodes => None,
        }
    }
}

impl fmt::Display for Answer {
    fn fmt(&self, out: &mut fmt::Formatter) -> fmt::Result {
        match self {
            Answer::Accepted { chunks, instructions } => write!(out, "accepted {chunks} {instructions}"),
            Answer::Refused(refusal) => write!(out, "{refusal}"),
            Answer::BeyondLimit(limit) => write!(out, "beyond {limit}"),
            Answer::BeyondCodes => write!(out, "beyond codes"),
        }
    }
}

/// The answer to a listing. Reading and nesting are not the original's.
pub fn answer(bytes: &[u8]) -> Answer {
    match listing::read(bytes).and_then(|listing| nesting::check(&listing).map(|()| listing)) {
        Ok(listing) => answer_nested(&listing),
        Err(refusal) => Answer::Refused(refusal),
    }
}

/// The answer to a listing that reads and is nested: the original's, unless it is left out.
pub fn answer_nested(listing: &Listing) -> Answer {
    if let Some(left_out) = left_out(listing) {
        return left_out;
    }
    match original(listing) {
        Ok(()) => Answer::Accepted { chunks: listing.module.chunks.len(), instructions: listing.ops().count() },
        Err(refusal) => Answer::Refused(refusal),
    }
}

/// The rule by which a listing is left out of a comparison with the original.
fn left_out(listing: &Listing) -> Option<Answer> {
    let codes = (TrapKind::IndexOutOfBounds.code(), TrapKind::HostError.code());
    if (listing.index_code, listing.host_code) != codes {
        return Some(Answer::BeyondCodes);
    }
    let limit = whole::check_nested(listing, &mut Notes::default()).err()?.passed_limit()?;
    Some(Answer::BeyondLimit(limit))
}

/// Runs the original: where F is 0, the one without floats. That build has types of its own, so it reads the listing again.
fn original(listing: &Listing) -> Result<(), Refusal> {
    if listing.float_bytes > 0 {
        return original::check(listing);
    }
    let read = original_without_floats::listing::read(&listing::write(listing));
    read.and_then(|listing| original_without_floats::check(&listing)).map_err(with_own_type)
}

/// Whether the reader of the build without floats, which has no kind 5 at all, refuses a listing, and how.
pub fn refused_without_floats(bytes: &[u8]) -> Option<Refusal> {
    original_without_floats::listing::read(bytes).err().map(with_own_type)
}

fn with_own_type(refusal: RefusalWithoutFloats) -> Refusal {
    let RefusalWithoutFloats { number, chunk, fields } = refusal;
    Refusal { number, chunk, fields }
}
