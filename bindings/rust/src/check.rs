//! The call.

#![forbid(unsafe_code)]

use crate::accepted::Accepted;
use crate::refusal::Refusal;
use crate::sys::{self, MOST_INSTRUCTIONS};
use crate::tables::Tables;

/// Checks a listing, any bytes. The tables that the check fills, 174 KiB, are allocated for the call: for many listings
/// keep a [`Checker`].
///
/// # Errors
///
/// The refusal, where the listing is not accepted.
pub fn check(listing: &[u8]) -> Result<Accepted, Refusal> {
    Checker::new().check(listing)
}

/// Checks one listing after the other in the same memory. No answer hangs on the calls before it.
///
/// ```
/// let mut checker = stagecheck::Checker::new();
/// assert!(checker.check(b"(module 8 8 6 0 0 8 9\n)\n").is_ok());
/// assert!(checker.check(b"").is_err());
/// ```
#[derive(Clone, Debug)]
pub struct Checker {
    tables: Tables,
    heights: Vec<u8>,
    blinds: Vec<u8>,
}

impl Checker {
    /// With memory of its own.
    pub fn new() -> Self {
        Checker { tables: Tables::new(), heights: vec![0; MOST_INSTRUCTIONS], blinds: vec![0; MOST_INSTRUCTIONS] }
    }

    /// Checks a listing, any bytes.
    ///
    /// # Errors
    ///
    /// The refusal, where the listing is not accepted.
    pub fn check(&mut self, listing: &[u8]) -> Result<Accepted, Refusal> {
        let words = sys::check_in(listing, self.tables.words_mut(), &mut self.heights, &mut self.blinds);
        let [_, chunks, instructions, ..] = Refusal::unless_zero(words)?;
        // An accepted listing has at most as many instructions as the sheets have entries.
        let instructions = instructions as usize;
        Ok(Accepted::from_sheets(chunks, &self.heights[..instructions], &self.blinds[..instructions]))
    }
}

impl Default for Checker {
    fn default() -> Self {
        Checker::new()
    }
}

#[cfg(test)]
mod tests;
