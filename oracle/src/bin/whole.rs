//! `whole FILE`: the whole text that `stagecheck` prints for a listing. Without a file, a frame `whole N BYTES` for
//! each framed listing on stdin.

use oracle::{frame, whole::whole};
use std::io::{self, BufWriter, Write};

fn main() -> io::Result<()> {
    let mut out = BufWriter::new(io::stdout().lock());
    match std::env::args().nth(1) {
        Some(file) => out.write_all(whole(&std::fs::read(file)?).as_bytes())?,
        None => {
            let mut input = io::stdin().lock();
            while let Some((number, listing)) = frame::read(&mut input)? {
                frame::write(&mut out, "whole", number, whole(&listing).as_bytes())?;
            }
        }
    }
    out.flush()
}
