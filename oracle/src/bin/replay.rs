//! `replay FILE..`: the fixed list, on stdout: the listings of the files, then generated ones. `oracle/make_replay` has
//! the files.

use oracle::replay;
use std::io::{self, Write};

fn main() -> io::Result<()> {
    let given: Vec<Vec<u8>> = std::env::args().skip(1).map(std::fs::read).collect::<io::Result<_>>()?;
    io::stdout().lock().write_all(&replay::write(&replay::entries(&given)))
}
