//! The words of the tables that callers lend: what a listing puts into them, and what is written of any words.
//!
//! Words are taken for the lines of a listing, with the numbers that they have, however great; then the reader decides
//! whether there is such a listing. So nothing is said here of what a line may hold.

use crate::bytecode::{
    ChunkSignature, ConstValue, DataSlot, EnumLayout, PrivateCompositeLayout, SharedSlotLayout, WireShape,
};
use crate::form::Entry;
use crate::forms::{OpForm, op_forms, op_of};
use crate::listing::{self, CHUNK, CLOSE, MAX_CONSTANTS, MAX_ENTRIES, MAX_OPS, MAX_PARAMS, MAX_SLOTS, MODULE, OP};
use crate::refusal::Refusal;
use std::collections::BTreeMap;
use std::fmt;
use std::fmt::Write;
use std::sync::LazyLock;

// ── Where each word is ───────────────────────────────────────────────────────────────────

#[derive(Clone, Copy, Debug, PartialEq, Eq, PartialOrd, Ord)]
pub enum Table {
    Module,
    Slot,
    Shared,
    Private,
    Enum,
    Native,
    Sig,
    Chunk,
    Const,
    Op,
}

/// The word from which on the rows stand. Those before it count the rows of the tables, as many as there are tables.
const FIRST_ROW: usize = 16;

impl Table {
    pub const ALL: [Table; 10] = [
        Table::Module,
        Table::Slot,
        Table::Shared,
        Table::Private,
        Table::Enum,
        Table::Native,
        Table::Sig,
        Table::Chunk,
        Table::Const,
        Table::Op,
    ];

    /// The bracket and the first word of its lines.
    pub const fn begin(self) -> &'static str {
        match self {
            Table::Module => MODULE,
            Table::Slot => DataSlot::BEGIN,
            Table::Shared => SharedSlotLayout::BEGIN,
            Table::Private => PrivateCompositeLayout::BEGIN,
            Table::Enum => EnumLayout::BEGIN,
            Table::Native => WireShape::BEGIN,
            Table::Sig => ChunkSignature::BEGIN,
            Table::Chunk => CHUNK,
            Table::Const => ConstValue::BEGIN,
            Table::Op => OP,
        }
    }

    /// The words of a row: one that counts, or an op's code, and one for each number of the longest line. A slot has
    /// nothing to count, and a chunk's row has besides LOCALS where its constants and instructions begin.
    const fn row_words(self) -> usize {
        match self {
            Table::Slot => 1,
            Table::Enum | Table::Native | Table::Const => 1 + 1,
            Table::Private => 1 + 2,
            Table::Shared | Table::Chunk | Table::Op => 1 + 3,
            Table::Module => 1 + 7,
            Table::Sig => 1 + FIXED_SHAPES + MAX_PARAMS,
        }
    }

    /// The most rows.
    pub const fn most(self) -> usize {
        match self {
            Table::Module => 1,
            Table::Slot | Table::Shared | Table::Private => MAX_SLOTS,
            Table::Enum | Table::Native | Table::Sig | Table::Chunk => MAX_ENTRIES,
            Table::Const => MAX_CONSTANTS,
            Table::Op => MAX_OPS,
        }
    }

    /// Where its rows begin: behind those of the tables before it.
    const fn first(self) -> usize {
        let mut first = FIRST_ROW;
        let mut number = 0;
        while number < self as usize {
            first += Table::ALL[number].most() * Table::ALL[number].row_words();
            number += 1;
        }
        first
    }

    /// The place of a word of a row.
    pub const fn at(self, row: usize, word: usize) -> usize {
        self.first() + row * self.row_words() + word
    }

    /// The place of the word that counts its rows.
    pub const fn count(self) -> usize {
        self as usize
    }

    fn row(self, words: &Words, row: usize) -> &[u64] {
        &words[self.at(row, 0)..][..self.row_words()]
    }

    /// The table of a line; none for a closing one.
    fn of(line: &str) -> Option<Table> {
        let begin = line.split(' ').next();
        Table::ALL.into_iter().find(|table| begin == Some(table.begin()))
    }

    /// The row of a place and the word's number in it, where the place is in this table.
    pub fn row_and_word(self, at: usize) -> Option<(usize, usize)> {
        let within = at.checked_sub(self.first())?;
        let row = within / self.row_words();
        (row < self.most()).then_some((row, within % self.row_words()))
    }
}

/// All words: the rows of the last table end there.
pub const COUNT: usize = Table::Op.at(MAX_OPS, 0);

pub type Words = [u64; COUNT];

pub fn zeros() -> Box<Words> {
    vec![0; COUNT].into_boxed_slice().try_into().expect("there are so many")
}

/// RET and RESUME, which come before the parameters.
pub const FIXED_SHAPES: usize = 2;

/// The words of I and H, and of F, in the first line's row.
const FLOAT_BYTES: usize = Table::Module.at(0, 2);
const INDEX_CODE: usize = Table::Module.at(0, 6);
const HOST_CODE: usize = Table::Module.at(0, 7);

/// What a chunk has rows of, and the word of its own row that says where they begin.
pub const OF_CHUNKS: [(Table, usize); 2] = [(Table::Const, 2), (Table::Op, 3)];

/// The op of each code: its name, and its variant's word where it has one.
pub static FORMS: LazyLock<Vec<OpForm>> = LazyLock::new(op_forms);

static CODES: LazyLock<BTreeMap<&'static str, usize>> =
    LazyLock::new(|| FORMS.iter().enumerate().map(|(code, form)| (form.text.as_str(), code)).collect());

/// The slots, each by its word.
const SLOTS: [&str; 2] = ["shared", "private"];

/// The shapes, each by what its word leaves when it is divided by `SHAPE_STEP`.
const SHAPES: [&str; 3] = ["top", "scalar", "flat"];
const SHAPE_STEP: u64 = 4;
/// K has so many values where a SIZE stands above it.
const KIND_STEP: u64 = 256;

// ── What a listing puts into them ────────────────────────────────────────────────────────

/// The words in use, each with its place, for lines in a listing's form and order that the tables have room for. Their
/// numbers may be any.
pub fn in_use(listing: &str) -> Vec<(usize, u64)> {
    let mut rows = [0; Table::ALL.len()];
    let mut words = Vec::new();
    for line in listing.lines() {
        let Some(table) = Table::of(line) else { continue };
        let row = rows[table as usize];
        assert!(row < table.most(), "{:?} has room for it", table);
        let mut put = |first: usize, row_words: &[u64]| {
            words.extend(row_words.iter().enumerate().map(|(word, value)| (table.at(row, first + word), *value)));
        };
        match table {
            Table::Module | Table::Shared | Table::Private | Table::Enum | Table::Const => put(1, &numbers(line)),
            Table::Chunk => {
                put(1, &numbers(line));
                for (of_chunk, word) in OF_CHUNKS {
                    put(word, &[rows[of_chunk as usize] as u64]);
                }
            }
            Table::Slot => put(0, &[SLOTS.iter().position(|slot| line.contains(slot)).expect("a slot") as u64]),
            Table::Native => put(1, &shape_words(line)),
            Table::Sig => {
                let shapes = shape_words(line);
                put(0, &[shapes.len() as u64]);
                put(1, &shapes);
            }
            Table::Op => {
                let name = op_in(line).trim_end_matches(|letter: char| !letter.is_ascii_alphabetic());
                put(0, &[CODES[name] as u64]);
                put(1, &numbers(line));
            }
        }
        rows[table as usize] += 1;
    }
    words.extend(Table::ALL.map(|table| (table.count(), rows[table as usize] as u64)));
    words
}

/// Puts them into tables. What is not in use stays.
pub fn put(listing: &str, words: &mut Words) {
    in_use(listing).into_iter().for_each(|(at, value)| words[at] = value);
}

/// The name and the operands of an op's line.
fn op_in(line: &str) -> &str {
    let op = line.strip_prefix(OP).and_then(|rest| rest.strip_prefix(' ')).expect("an op's line begins so");
    op.trim_end_matches(')')
}

fn numbers(line: &str) -> Vec<u64> {
    let is_digit = |letter: char| letter.is_ascii_digit();
    line.split(|letter| !is_digit(letter))
        .filter(|digits| !digits.is_empty())
        .map(|digits| digits.parse().expect("64 bits"))
        .collect()
}

fn shape_words(line: &str) -> Vec<u64> {
    line.split(" (").skip(1).map(shape_word).collect()
}

/// The word of a shape, which is written without the bracket before it.
pub fn shape_word(shape: &str) -> u64 {
    let tag = SHAPES.iter().position(|name| shape.starts_with(name)).expect("a shape");
    match numbers(shape)[..] {
        [] => tag as u64,
        [kind] => tag as u64 + SHAPE_STEP * kind,
        [kind, size] => tag as u64 + SHAPE_STEP * (kind + KIND_STEP * size),
        _ => unreachable!("a shape has two numbers at most"),
    }
}

// ── What they say ────────────────────────────────────────────────────────────────────────

/// Why no listing gives what the words say.
#[derive(Clone, Copy, Debug, PartialEq, Eq, PartialOrd, Ord)]
pub enum Cause {
    /// The first word, the rows of the first line, is not 1.
    HeaderRows,
    /// A table has more rows than it has room for.
    Rows(Table),
    /// A slot is neither 0 nor 1.
    Slot,
    /// A word is no shape, whatever its numbers.
    Shape,
    /// A signature has another number of shapes than it may have.
    ShapeCount,
    /// No op has the code.
    Code,
    /// A chunk's first constant or instruction is not the one after the last of the chunk before.
    First(Table),
    /// There are constants or instructions that no chunk has.
    NoChunk(Table),
    /// A line's number is too great, or none that its form has.
    Number(Table),
    /// I and H are equal.
    EqualCodes,
    /// An op names kind 5, and F is 0.
    NoFloats,
    /// LOCALS is over 32.
    Locals,
    /// The listing would have too many bytes.
    Bytes,
}

impl Cause {
    pub fn all() -> Vec<Cause> {
        let alone = [
            Cause::HeaderRows,
            Cause::Slot,
            Cause::Shape,
            Cause::ShapeCount,
            Cause::Code,
            Cause::First(Table::Const),
            Cause::First(Table::Op),
            Cause::NoChunk(Table::Const),
            Cause::NoChunk(Table::Op),
            Cause::EqualCodes,
            Cause::NoFloats,
            Cause::Locals,
            Cause::Bytes,
        ];
        let rows = Table::ALL[1..].iter().map(|table| Cause::Rows(*table));
        // A slot's line has no number.
        let numbers = Table::ALL.into_iter().filter(|table| !matches!(table, Table::Slot)).map(Cause::Number);
        alone.into_iter().chain(rows).chain(numbers).collect()
    }

    /// Why the reader refuses the lines that the words say.
    fn of(refusal: &Refusal, listing: &str, words: &Words) -> Cause {
        match refusal.passed_limit() {
            Some(1) => return Cause::Bytes,
            Some(3) => return Cause::Locals,
            Some(limit) => unreachable!("limit {limit}: the tables have room"),
            None => {}
        }
        let lines = refusal.fields[0] as usize;
        let line = listing.lines().nth(lines).expect("the line at fault");
        match Table::of(line).expect("a closing line is never at fault") {
            Table::Module if words[INDEX_CODE] == words[HOST_CODE] => Cause::EqualCodes,
            Table::Op if words[FLOAT_BYTES] == 0 && op_of(op_in(line)).is_some() => Cause::NoFloats,
            table => Cause::Number(table),
        }
    }
}

impl fmt::Display for Cause {
    fn fmt(&self, out: &mut fmt::Formatter) -> fmt::Result {
        let line = |table: &Table| format!("`{}`", table.begin());
        match self {
            Cause::HeaderRows => write!(out, "word 0 is not 1"),
            Cause::Rows(table) => write!(out, "too many rows of {}", line(table)),
            Cause::Slot => write!(out, "a slot that is neither 0 nor 1"),
            Cause::Shape => write!(out, "a word that is no shape"),
            Cause::ShapeCount => write!(out, "a signature of too few or too many shapes"),
            Cause::Code => write!(out, "a code of no op"),
            Cause::First(table) => write!(out, "a chunk's first row of {} is another", line(table)),
            Cause::NoChunk(table) => write!(out, "rows of {} without a chunk", line(table)),
            Cause::Number(table) => write!(out, "a number of {}", line(table)),
            Cause::EqualCodes => write!(out, "I and H are equal"),
            Cause::NoFloats => write!(out, "kind 5 where F is 0"),
            Cause::Locals => write!(out, "more than 32 locals"),
            Cause::Bytes => write!(out, "more than 65,536 bytes"),
        }
    }
}

/// The listing that the words say exactly, which is what is written of them.
pub fn written(words: &Words) -> Result<String, Cause> {
    let text = lines(words)?;
    match listing::read(text.as_bytes()) {
        Ok(listing) => {
            assert_eq!(listing::write(&listing), text.as_bytes(), "what reads is written back");
            Ok(text)
        }
        Err(refusal) => Err(Cause::of(&refusal, &text, words)),
    }
}

/// The lines that the words say, in a listing's form and order. Their numbers may be any.
pub fn lines(words: &Words) -> Result<String, Cause> {
    if words[Table::Module.count()] != 1 {
        return Err(Cause::HeaderRows);
    }
    let mut rows = [0; Table::ALL.len()];
    for table in Table::ALL {
        let count = usize::try_from(words[table.count()]).ok().filter(|count| *count <= table.most());
        rows[table as usize] = count.ok_or(Cause::Rows(table))?;
    }
    let mut out = String::new();
    for table in &Table::ALL[..Table::Chunk as usize] {
        (0..rows[*table as usize]).try_for_each(|row| push_line(*table, table.row(words, row), &mut out))?;
    }
    chunks(words, rows, &mut out)?;
    out.push_str(CLOSE);
    Ok(out)
}

fn chunks(words: &Words, rows: [usize; Table::ALL.len()], out: &mut String) -> Result<(), Cause> {
    let chunks = rows[Table::Chunk as usize];
    if let Some((table, _)) = OF_CHUNKS.into_iter().find(|(table, _)| chunks == 0 && rows[*table as usize] > 0) {
        return Err(Cause::NoChunk(table));
    }
    let first = |chunk, word| words[Table::Chunk.at(chunk, word)];
    for (table, word) in OF_CHUNKS {
        let are_in_order = chunks == 0
            || first(0, word) == 0
                && (1..chunks).all(|chunk| first(chunk - 1, word) <= first(chunk, word))
                && first(chunks - 1, word) <= rows[table as usize] as u64;
        if !are_in_order {
            return Err(Cause::First(table));
        }
    }
    for chunk in 0..chunks {
        push_line(Table::Chunk, Table::Chunk.row(words, chunk), out)?;
        for (table, word) in OF_CHUNKS {
            let end = if chunk + 1 < chunks { first(chunk + 1, word) as usize } else { rows[table as usize] };
            (first(chunk, word) as usize..end).try_for_each(|row| push_line(table, table.row(words, row), out))?;
        }
        out.push_str(CLOSE);
    }
    Ok(())
}

fn push_line(table: Table, row: &[u64], out: &mut String) -> Result<(), Cause> {
    out.push_str(table.begin());
    match table {
        Table::Module | Table::Shared | Table::Private | Table::Enum | Table::Const => push_numbers(&row[1..], out),
        Table::Chunk => push_numbers(&row[1..2], out),
        Table::Slot => {
            let slot = usize::try_from(row[0]).ok().and_then(|slot| SLOTS.get(slot)).ok_or(Cause::Slot)?;
            out.push(' ');
            out.push_str(slot);
        }
        Table::Native => push_shape(row[1], out)?,
        Table::Sig => {
            let shapes = usize::try_from(row[0]).ok().filter(|count| (FIXED_SHAPES..row.len()).contains(count));
            let shapes = &row[1..=shapes.ok_or(Cause::ShapeCount)?];
            shapes.iter().try_for_each(|shape| push_shape(*shape, out))?;
        }
        Table::Op => {
            let form = usize::try_from(row[0]).ok().and_then(|code| FORMS.get(code)).ok_or(Cause::Code)?;
            out.push(' ');
            out.push_str(&form.text);
            push_numbers(&row[1..=form.maxima.len()], out);
        }
    }
    // The module and a chunk are closed by lines of their own.
    out.push_str(if matches!(table, Table::Module | Table::Chunk) { "\n" } else { CLOSE });
    Ok(())
}

fn push_numbers(numbers: &[u64], out: &mut String) {
    numbers.iter().for_each(|number| write!(out, " {number}").expect("a string takes all text"));
}

fn push_shape(word: u64, out: &mut String) -> Result<(), Cause> {
    let (tag, rest) = ((word % SHAPE_STEP) as usize, word / SHAPE_STEP);
    let numbers = match tag {
        0 if rest == 0 => vec![],
        1 => vec![rest],
        2 => vec![rest % KIND_STEP, rest / KIND_STEP],
        _ => return Err(Cause::Shape),
    };
    write!(out, " ({}", SHAPES[tag]).expect("a string takes all text");
    push_numbers(&numbers, out);
    out.push(')');
    Ok(())
}

#[cfg(test)]
mod tests {
    use super::*;
    use crate::forms;
    use crate::generator::{self, Size};

    #[test]
    fn what_a_listing_puts_into_tables_is_written_as_the_listing() {
        let generated = (0..3_000).map(|number| generator::listing(1, number, Size::Any));
        let mut words = zeros();
        let mut reading = 0;
        for bytes in generated.chain(forms::listings()) {
            if listing::read(&bytes).is_err() {
                continue;
            }
            reading += 1;
            let text = String::from_utf8(bytes).expect("what reads is text");
            put(&text, &mut words);
            assert_eq!(written(&words), Ok(text));
        }
        assert!(reading > 3_000);
    }

    #[test]
    fn the_tables_have_their_places() {
        assert_eq!(COUNT, 22_232);
        assert_eq!(FORMS.len(), 75);
        let firsts = [16, 24, 280, 1304, 2072, 2200, 2328, 3544, 3800, 5848];
        assert_eq!(Table::ALL.map(|table| table.at(0, 0)), firsts);
    }
}
