//! `conformance choose DIR FILE..`: writes the listings of the kit to DIR, those of the files first.
//! `conformance fresh SEED COUNT DIR`: writes listings of a seed.
//! `conformance check DIR [whole]`: compares the answers of DIR with the oracle's and prints counts; with `whole` it fails
//! where the listings do not reach what the fixed kit must.
//! `conformance ops`: each form of an op with the largest operands, and its need and net at several operands.

use oracle::conformance::{self, Kit};
use oracle::forms;
use std::io;
use std::path::Path;
use std::process::ExitCode;

fn main() -> io::Result<ExitCode> {
    let arguments: Vec<String> = std::env::args().skip(1).collect();
    let words: Vec<&str> = arguments.iter().map(String::as_str).collect();
    match &words[..] {
        ["choose", directory, files @ ..] => {
            let given: Vec<Vec<u8>> = files.iter().map(std::fs::read).collect::<io::Result<_>>()?;
            write(directory, conformance::chosen(&given).into_iter())?;
        }
        ["fresh", seed, count, directory] => {
            let seed: u64 = seed.parse().map_err(io::Error::other)?;
            write(directory, conformance::fresh(seed, count.parse().map_err(io::Error::other)?))?;
        }
        ["check", directory] => return check(directory, false),
        ["check", directory, "whole"] => return check(directory, true),
        ["ops"] => print_ops(),
        _ => {
            eprintln!("usage: conformance choose DIR FILE.. | fresh SEED COUNT DIR | check DIR [whole] | ops");
            return Ok(ExitCode::FAILURE);
        }
    }
    Ok(ExitCode::SUCCESS)
}

fn write(directory: &str, listings: impl Iterator<Item = Vec<u8>>) -> io::Result<()> {
    std::fs::create_dir_all(directory)?;
    for (number, listing) in listings.enumerate() {
        std::fs::write(Path::new(directory).join(format!("{number:04}.listing")), listing)?;
    }
    Ok(())
}

fn check(directory: &str, whole: bool) -> io::Result<ExitCode> {
    let mut names: Vec<String> = Vec::new();
    for entry in std::fs::read_dir(directory)? {
        let name = entry?.file_name().to_string_lossy().into_owned();
        names.extend(name.strip_suffix(".listing").map(str::to_string));
    }
    names.sort();
    let mut kit = Kit::default();
    for name in &names {
        let path = Path::new(directory).join(name);
        let text = std::fs::read(path.with_extension("answer")).ok();
        kit.add(name, &std::fs::read(path.with_extension("listing"))?, text.as_deref());
    }
    println!("listings {}, bytes {}, compared with the original {}", names.len(), kit.bytes, kit.with_original);
    kit.kinds.iter().for_each(|(kind, times)| println!("{times:6}  {kind}"));
    if whole {
        kit.faults.extend(kit.missing());
    }
    println!("faults {}", kit.faults.len());
    kit.faults.iter().take(20).for_each(|fault| println!("  {fault}"));
    let passed = kit.faults.is_empty() && !names.is_empty();
    Ok(if passed { ExitCode::SUCCESS } else { ExitCode::FAILURE })
}

/// Lines of five fields with a tab between: text, largest operands, operands, need, net.
fn print_ops() {
    let list = |numbers: &[u64]| numbers.iter().map(u64::to_string).collect::<Vec<_>>().join(" ");
    for form in forms::op_forms() {
        for effect in form.effects() {
            let (most, operands) = (list(&form.maxima), list(&effect.operands));
            println!("{}\t{most}\t{operands}\t{}\t{}", form.text, effect.need, effect.net);
        }
    }
}
