//! `answer FILE..`: one line with the answer to each listing. Without files, to each framed listing on stdin.

use oracle::{answer::answer, frame};
use std::io::{self, BufWriter, Write};

fn main() -> io::Result<()> {
    let files: Vec<String> = std::env::args().skip(1).collect();
    let mut out = BufWriter::new(io::stdout().lock());
    for file in &files {
        writeln!(out, "{}", answer(&std::fs::read(file)?))?;
    }
    if files.is_empty() {
        let mut input = io::stdin().lock();
        while let Some((_, listing)) = frame::read(&mut input)? {
            writeln!(out, "{}", answer(&listing))?;
        }
    }
    out.flush()
}
