//! A listing read into tables, and written back from them.

#![forbid(unsafe_code)]

use crate::refusal::Refusal;
use crate::sys::{self, MOST_BYTES, TABLE_WORDS};

/// Reads a listing, any bytes, into new tables, 174 KiB. Nothing else is checked: what [`check`](crate::check) refuses
/// for another reason than that it cannot be read is read.
///
/// # Errors
///
/// The refusal, where the listing cannot be read: [`Refusal::CannotFollow`], or [`Refusal::LimitPassed`] with a limit
/// of reading, as a check of the same listing gives it.
pub fn read(listing: &[u8]) -> Result<Tables, Refusal> {
    let mut tables = Tables::new();
    tables.read(listing)?;
    Ok(tables)
}

/// The words that a module is kept in. New ones are 0, and no listing gives them.
///
/// The words may be copied and handed on, to another process too. What each of them says may change with the version of
/// this package: keep words only as long as one version reads and writes them, and listings for longer.
///
/// ```
/// let listing = b"(module 8 8 6 0 0 8 9\n(chunk 0\n(op Return)\n)\n)\n";
/// let kept: Vec<u64> = stagecheck::read(listing)?.words().to_vec();
/// let words: Box<[u64; stagecheck::TABLE_WORDS]> = kept.try_into().expect("as many words");
/// assert_eq!(stagecheck::Tables::from(words).to_listing()?, listing);
/// # Ok::<(), stagecheck::Refusal>(())
/// ```
#[derive(Clone, Debug, PartialEq, Eq)]
pub struct Tables {
    /// Not on the stack, of which a thread may have little.
    words: Box<[u64; TABLE_WORDS]>,
}

/// How much a listing holds that was read.
#[derive(Clone, Copy, Debug, PartialEq, Eq)]
pub struct Counts {
    /// How many chunks.
    pub chunks: u64,
    /// How many instructions, of all chunks.
    pub instructions: u64,
}

impl Tables {
    /// With memory of their own.
    pub fn new() -> Self {
        Tables { words: vec![0; TABLE_WORDS].try_into().expect("a vector of so many words") }
    }

    /// The words.
    pub fn words(&self) -> &[u64; TABLE_WORDS] {
        &self.words
    }

    pub(crate) fn words_mut(&mut self) -> &mut [u64; TABLE_WORDS] {
        &mut self.words
    }

    /// Reads a listing, any bytes, in place of what the tables hold. See [`read`].
    ///
    /// # Errors
    ///
    /// The refusal, where the listing cannot be read. The tables then hold no module, and writing them is refused.
    pub fn read(&mut self, listing: &[u8]) -> Result<Counts, Refusal> {
        let [_, chunks, instructions, ..] = Refusal::unless_zero(sys::read(listing, &mut self.words))?;
        Ok(Counts { chunks, instructions })
    }

    /// Writes the module as its listing to the front of a buffer, and gives how many bytes the listing has. Bytes past
    /// them keep their values. What was read is written as the same bytes; what is written is read as the same module.
    ///
    /// ```
    /// use stagecheck::Refusal;
    ///
    /// let tables = stagecheck::read(b"(module 8 8 6 0 0 8 9\n)\n")?;
    /// let mut out = [b'-'; 26];
    /// assert_eq!(tables.write(&mut out)?, 24);
    /// assert_eq!(&out, b"(module 8 8 6 0 0 8 9\n)\n--");
    /// assert_eq!(tables.write(&mut out[..23]), Err(Refusal::BufferTooShort { needed: 24 }));
    /// # Ok::<(), Refusal>(())
    /// ```
    ///
    /// # Errors
    ///
    /// [`Refusal::CannotFollow`] with 0 lines, where no listing gives what the tables hold, which is never so of
    /// those that have read a listing; else [`Refusal::BufferTooShort`]. After both the whole buffer is as it was.
    pub fn write(&self, out: &mut [u8]) -> Result<usize, Refusal> {
        let [_, length, ..] = Refusal::unless_zero(sys::write(&self.words, out))?;
        // No more than the buffer has.
        Ok(length as usize)
    }

    /// The same in a vector, which has room for every listing.
    ///
    /// # Errors
    ///
    /// [`Refusal::CannotFollow`] with 0 lines, where no listing gives what the tables hold.
    pub fn to_listing(&self) -> Result<Vec<u8>, Refusal> {
        let mut listing = vec![0; MOST_BYTES];
        let length = self.write(&mut listing)?;
        listing.truncate(length);
        Ok(listing)
    }
}

impl Default for Tables {
    fn default() -> Self {
        Tables::new()
    }
}

/// Tables of any words, as [`Tables::words`] gave them, or others: these are refused by [`Tables::write`] where no
/// listing gives them.
impl From<Box<[u64; TABLE_WORDS]>> for Tables {
    fn from(words: Box<[u64; TABLE_WORDS]>) -> Self {
        Tables { words }
    }
}
