//! `generate SEED COUNT [DIR] [small]`: listings 0 to COUNT - 1 of a seed, as frames `listing N BYTES` on stdout or
//! as files `N.listing` in a directory.

use oracle::{frame, generator};
use std::io::{self, BufWriter, Write};

fn main() -> io::Result<()> {
    let mut arguments: Vec<String> = std::env::args().skip(1).collect();
    let size = generator::size_argument(&mut arguments);
    let (seed, count, directory) = match &arguments[..] {
        [seed, count] => (seed, count, None),
        [seed, count, directory] => (seed, count, Some(directory)),
        _ => return Err(io::Error::other("usage: generate SEED COUNT [DIR] [small]")),
    };
    let seed: u64 = seed.parse().map_err(io::Error::other)?;
    let count: u64 = count.parse().map_err(io::Error::other)?;
    if let Some(directory) = directory {
        std::fs::create_dir_all(directory)?;
    }
    let mut out = BufWriter::new(io::stdout().lock());
    for number in 0..count {
        let listing = generator::listing(seed, number, size);
        match directory {
            Some(directory) => std::fs::write(format!("{directory}/{number}.listing"), listing)?,
            None => frame::write(&mut out, "listing", number, &listing)?,
        }
    }
    out.flush()
}
