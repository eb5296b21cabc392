//! `survey SEED COUNT [small]`: generates and answers listings, and prints counts by answer, by op and by passes.
//! Fails where the original and the walk of `limits` differ, or where a full survey misses something.

use oracle::{generator, survey};
use std::process::ExitCode;

fn main() -> ExitCode {
    let mut arguments: Vec<String> = std::env::args().skip(1).collect();
    let size = generator::size_argument(&mut arguments);
    let numbers: Option<Vec<u64>> = arguments.iter().map(|number| number.parse().ok()).collect();
    let Some([seed, count]) = numbers.as_deref() else {
        eprintln!("usage: survey SEED COUNT [small]");
        return ExitCode::FAILURE;
    };
    let survey = survey::survey(*seed, *count, size);
    print!("{}", survey.report());
    let missing = survey.missing(size);
    println!("\ndisagreements {}", survey.faults.len());
    survey.faults.iter().take(20).for_each(|fault| println!("  {fault}"));
    println!("not reached {}", missing.len());
    missing.iter().for_each(|what| println!("  {what}"));
    if survey.faults.is_empty() && (missing.is_empty() || *count < survey::FULL_COUNT) {
        ExitCode::SUCCESS
    } else {
        ExitCode::FAILURE
    }
}
