//! `compare SEED COUNT [small]`: compares the proved checker's static library with the original and with the walk of
//! `limits`, on listings 0 to COUNT - 1 of a seed. Prints counts and every disagreement with its listing, and fails
//! where there is one, or where so many listings must reach an answer and do not.

use oracle::compare;
use oracle::generator;
use std::cell::RefCell;
use std::io::{self, Write};
use std::process::ExitCode;

#[path = "../stagecheck.rs"]
mod stagecheck;

/// The call with tables of its own, and that with lent ones, as the call before left them: they must leave the same.
fn both(
    listing: &[u8],
    tables: &mut [u64; stagecheck::TABLE_WORDS],
    heights: &mut [u8],
    blinds: &mut [u8],
    answer: &mut [u64; stagecheck::ANSWER_WORDS],
) -> usize {
    let (mut own_heights, mut own_blinds, mut own_answer) = (heights.to_vec(), blinds.to_vec(), *answer);
    let own_count = stagecheck::check(listing, &mut own_heights, &mut own_blinds, &mut own_answer);
    let count = stagecheck::check_in(listing, tables, heights, blinds, answer);
    assert_eq!((count, &*answer), (own_count, &own_answer), "both calls answer alike");
    assert!(*heights == own_heights[..] && *blinds == own_blinds[..], "both calls leave the same sheets");
    count
}

fn main() -> io::Result<ExitCode> {
    let mut arguments: Vec<String> = std::env::args().skip(1).collect();
    let size = generator::size_argument(&mut arguments);
    let numbers: Option<Vec<u64>> = arguments.iter().map(|number| number.parse().ok()).collect();
    let Some([seed, count]) = numbers.as_deref() else {
        eprintln!("usage: compare SEED COUNT [small]");
        return Ok(ExitCode::FAILURE);
    };
    let tables = RefCell::new(Box::new([0; stagecheck::TABLE_WORDS]));
    let check = |listing: &[u8], heights: &mut [u8], blinds: &mut [u8], answer: &mut [u64; stagecheck::ANSWER_WORDS]| {
        both(listing, &mut tables.borrow_mut(), heights, blinds, answer)
    };
    let comparison = compare::compare(&check, *seed, *count, size);
    let mut out = io::stdout().lock();
    for disagreement in &comparison.disagreements {
        out.write_all(disagreement)?;
    }
    write!(out, "{}", comparison.report())?;
    let missing = comparison.missing(size);
    writeln!(out, "not reached {}", missing.len())?;
    missing.iter().try_for_each(|answer| writeln!(out, "  {answer}"))?;
    writeln!(out, "disagreements {}", comparison.disagreements.len())?;
    let passed = comparison.disagreements.is_empty() && missing.is_empty();
    Ok(if passed { ExitCode::SUCCESS } else { ExitCode::FAILURE })
}
