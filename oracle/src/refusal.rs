//! A refusal as document 01 numbers it.

use std::fmt;

/// Number, chunk and fields, in the order in which they are printed.
#[derive(Clone, Debug, PartialEq, Eq)]
pub struct Refusal {
    pub number: u8,
    pub chunk: usize,
    pub fields: Vec<u64>,
}

impl Refusal {
    /// A refusal of reading: line `lines` cannot follow.
    pub fn line(lines: usize) -> Refusal {
        Refusal { number: 1, chunk: 0, fields: vec![lines as u64] }
    }

    /// A passed limit.
    pub fn limit(chunk: usize, ip: usize, limit: u8) -> Refusal {
        Refusal { number: 2, chunk, fields: vec![ip as u64, u64::from(limit)] }
    }

    /// The limit that was passed, for refusal 2.
    pub fn passed_limit(&self) -> Option<u8> {
        (self.number == 2).then(|| self.fields[1] as u8)
    }

    /// The reason of refusals 18 and 19.
    pub fn reason(&self) -> Option<u64> {
        matches!(self.number, 18 | 19).then(|| self.fields[2])
    }

    /// All numbers, in the order in which they are printed.
    pub fn words(&self) -> Vec<u64> {
        [u64::from(self.number), self.chunk as u64].into_iter().chain(self.fields.iter().copied()).collect()
    }

    /// What it is counted as: its number, with the limit or the reason where it has one.
    pub fn kind(&self) -> String {
        match (self.passed_limit(), self.reason()) {
            (Some(limit), _) => format!("refused  2, limit {limit}"),
            (_, Some(reason)) => format!("refused {}, reason {reason}", self.number),
            _ => format!("refused {:2}", self.number),
        }
    }
}

impl fmt::Display for Refusal {
    fn fmt(&self, out: &mut fmt::Formatter) -> fmt::Result {
        write!(out, "refused {} {}", self.number, self.chunk)?;
        self.fields.iter().try_for_each(|field| write!(out, " {field}"))
    }
}
