//! `one_call [FILE [lent | read | write]]`: makes one call, with sheets and buffer that are not on the stack, and fails where
//! its answer is no acceptance. With a file alone it checks the listing; with `lent` the tables are not on the stack
//! either. With `read` it reads the listing into tables, and prints their words as bytes; with `write` the file is what
//! `read` printed, and it writes that as a listing. Without a file it makes no call.

use std::io::Write;
use std::process::ExitCode;
use std::sync::Mutex;

#[path = "../../oracle/src/stagecheck.rs"]
mod stagecheck;

/// The most bytes and the most instructions of a listing.
const MOST_BYTES: usize = 65_536;
const MOST_INSTRUCTIONS: usize = 4_096;

type Tables = [u64; stagecheck::TABLE_WORDS];

static TABLES: Mutex<Tables> = Mutex::new([0; stagecheck::TABLE_WORDS]);

fn main() -> ExitCode {
    let arguments: Vec<String> = std::env::args().skip(1).collect();
    let (file, mode) = match &arguments[..] {
        [] => return ExitCode::SUCCESS,
        [file] => (file, ""),
        [file, mode] => (file, mode.as_str()),
        _ => return ExitCode::FAILURE,
    };
    let (Ok(bytes), Ok(mut tables)) = (std::fs::read(file), TABLES.lock()) else {
        return ExitCode::FAILURE;
    };
    let (mut heights, mut blinds) = (vec![0; MOST_INSTRUCTIONS], vec![0; MOST_INSTRUCTIONS]);
    let mut buffer = vec![0; MOST_BYTES];
    let mut answer = [0; stagecheck::ANSWER_WORDS];
    match mode {
        "" => stagecheck::check(&bytes, &mut heights, &mut blinds, &mut answer),
        "lent" => stagecheck::check_in(&bytes, &mut tables, &mut heights, &mut blinds, &mut answer),
        "read" => stagecheck::read(&bytes, &mut tables, &mut answer),
        "write" if fill(&mut tables, &bytes) => stagecheck::write(&tables, &mut buffer, &mut answer),
        _ => return ExitCode::FAILURE,
    };
    let is_printed = mode != "read" || print(&tables);
    if answer[0] == 0 && is_printed { ExitCode::SUCCESS } else { ExitCode::FAILURE }
}

/// Fills tables with the words that were printed. False where there are not as many.
fn fill(tables: &mut Tables, bytes: &[u8]) -> bool {
    let (words, rest) = bytes.as_chunks();
    tables.iter_mut().zip(words).for_each(|(word, bytes)| *word = u64::from_le_bytes(*bytes));
    words.len() == tables.len() && rest.is_empty()
}

/// Prints the words. False where they cannot be written.
fn print(tables: &Tables) -> bool {
    let mut out = std::io::stdout().lock();
    tables.iter().try_for_each(|word| out.write_all(&word.to_le_bytes())).is_ok() && out.flush().is_ok()
}
