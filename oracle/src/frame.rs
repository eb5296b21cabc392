//! Many listings, or many texts, in one stream: a line `KIND NUMBER BYTES`, then exactly that many bytes.

use std::io::{self, BufRead, Write};

/// Writes one frame.
pub fn write(out: &mut impl Write, kind: &str, number: u64, bytes: &[u8]) -> io::Result<()> {
    writeln!(out, "{kind} {number} {}", bytes.len())?;
    out.write_all(bytes)
}

/// Reads the next frame of listings: its number and bytes, or none at the stream's end.
pub fn read(input: &mut impl BufRead) -> io::Result<Option<(u64, Vec<u8>)>> {
    let mut head = String::new();
    if input.read_line(&mut head)? == 0 {
        return Ok(None);
    }
    let words: Vec<&str> = head.trim_end().split(' ').collect();
    let (number, length) = match words[..] {
        ["listing", number, length] => (number.parse().ok(), length.parse().ok()),
        _ => (None, None),
    };
    let (Some(number), Some(length)) = (number, length) else {
        return Err(io::Error::other(format!("no frame of a listing: {head:?}")));
    };
    let mut bytes = vec![0; length];
    input.read_exact(&mut bytes)?;
    Ok(Some((number, bytes)))
}
