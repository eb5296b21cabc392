//! What an acceptance says.

#![forbid(unsafe_code)]

/// An accepted listing: its counts, and for each instruction a height and a mark, in listing order over all chunks.
#[derive(Clone, Debug, PartialEq, Eq)]
pub struct Accepted {
    chunks: u64,
    heights: Vec<Option<u8>>,
    blind: Vec<bool>,
}

impl Accepted {
    /// From the sheets: an entry of `heights` is one more than the height, and 0 where there is none.
    pub(crate) fn from_sheets(chunks: u64, heights: &[u8], blinds: &[u8]) -> Self {
        Accepted {
            chunks,
            heights: heights.iter().map(|entry| entry.checked_sub(1)).collect(),
            blind: blinds.iter().map(|entry| *entry != 0).collect(),
        }
    }

    /// How many chunks the listing has.
    pub fn chunks(&self) -> u64 {
        self.chunks
    }

    /// How many instructions the listing has, of all chunks.
    pub fn instructions(&self) -> usize {
        self.heights.len()
    }

    /// For each instruction the number of operands before it, or none where the walk does not examine it. In every
    /// run of the routine there are exactly so many.
    pub fn heights(&self) -> &[Option<u8>] {
        &self.heights
    }

    /// For each instruction whether it is a flat read or a flat index of an operand of unknown shape. Flat reads that
    /// are not so marked end inside their composite, in every run.
    pub fn blind(&self) -> &[bool] {
        &self.blind
    }
}
