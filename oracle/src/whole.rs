//! The whole text that `stagecheck` prints, by the walk of `limits`.

use crate::limits::{Context, Mark, Notes, Walk};
use crate::listing::{self, Listing};
use crate::refusal::Refusal;
use crate::{layout, nesting};
use std::fmt::Write;

/// The whole output for a listing.
pub fn whole(bytes: &[u8]) -> String {
    match check(bytes) {
        Ok(marks) => accepted(&marks),
        Err(refusal) => format!("{refusal}\n"),
    }
}

/// Each chunk's entries of both sheets, or the refusal.
pub fn check(bytes: &[u8]) -> Result<Vec<Vec<Mark>>, Refusal> {
    let listing = listing::read(bytes)?;
    nesting::check(&listing)?;
    check_nested(&listing, &mut Notes::default())
}

/// Data layout and walk of a listing that reads and is nested: each chunk's entries of both sheets.
pub fn check_nested(listing: &Listing, notes: &mut Notes) -> Result<Vec<Vec<Mark>>, Refusal> {
    layout::check(listing)?;
    let mut marks = Vec::new();
    for (number, chunk) in listing.module.chunks.iter().enumerate() {
        let mut walk = Walk::new(Context::new(listing, chunk, number), notes);
        walk.chunk().map_err(|fault| Refusal { number: fault.number, chunk: number, fields: fault.fields })?;
        marks.push(walk.marks);
    }
    Ok(marks)
}

fn accepted(marks: &[Vec<Mark>]) -> String {
    let instructions: usize = marks.iter().map(Vec::len).sum();
    let mut out = format!("accepted {} {instructions}\n", marks.len());
    for (chunk, marks) in marks.iter().enumerate() {
        for (index, mark) in marks.iter().enumerate() {
            let height = mark.height.map_or("-".to_string(), |height| height.to_string());
            let sight = if mark.blind { "blind" } else { "plain" };
            writeln!(out, "{chunk} {index} {height} {sight}").expect("a string takes all text");
        }
    }
    out
}
