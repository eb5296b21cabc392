//! `rewrite SEED COUNT [small]`: compares the static library's reading into tables and its writing back with the oracle's: on
//! the fixed list, by rule, and on COUNT listings of a seed, COUNT tables of random words and COUNT tables of a listing
//! with one word changed. Prints counts and the disagreements, and fails where there is one, or where so many must reach an
//! outcome and do not.

use oracle::compare::AnswerWords;
use oracle::generator;
use oracle::rewrite::{self, Calls, Disagreement};
use oracle::words::Words;
use std::io::{self, Write};
use std::process::ExitCode;

#[path = "../stagecheck.rs"]
mod stagecheck;

/// The most disagreements that are printed, the shortest first.
const MOST_PRINTED: usize = 10;

fn main() -> io::Result<ExitCode> {
    let mut arguments: Vec<String> = std::env::args().skip(1).collect();
    let size = generator::size_argument(&mut arguments);
    let numbers: Option<Vec<u64>> = arguments.iter().map(|number| number.parse().ok()).collect();
    let Some([seed, count]) = numbers.as_deref() else {
        eprintln!("usage: rewrite SEED COUNT [small]");
        return Ok(ExitCode::FAILURE);
    };
    let write = |tables: &mut Words, out: &mut [u8], answer: &mut AnswerWords| stagecheck::write(tables, out, answer);
    let mut rewriting = rewrite::compare(Calls { read: &stagecheck::read, write: &write }, *seed, *count, size);
    let mut out = io::stdout().lock();
    let disagreements = rewriting.disagreements();
    let count = disagreements.len();
    disagreements.iter().take(MOST_PRINTED).try_for_each(|Disagreement(account)| out.write_all(account))?;
    write!(out, "{}", rewriting.report())?;
    let missing = rewriting.missing();
    writeln!(out, "not reached {}", missing.len())?;
    missing.iter().try_for_each(|outcome| writeln!(out, "  {outcome}"))?;
    writeln!(out, "disagreements {count}")?;
    Ok(if count == 0 && missing.is_empty() { ExitCode::SUCCESS } else { ExitCode::FAILURE })
}
