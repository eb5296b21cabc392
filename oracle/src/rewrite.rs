//! Compares calls that read a listing into tables and write tables back with the oracle's reader and with `words`, on
//! generated listings and on tables of any words.

use crate::compare::{AnswerWords, NO_ANSWER, answer_fault};
use crate::forms;
use crate::frame;
use crate::generator::{self, Size};
use crate::listing::{self, MAX_BYTES};
use crate::random::Random;
use crate::refusal::Refusal;
use crate::survey::FULL_COUNT;
use crate::words::{self, Cause, Table, Words};
use made::Change;
use std::collections::BTreeMap;
use std::io::Write;

mod fixed;
mod made;

/// Both calls. Each gives how many words its answer has.
#[derive(Clone, Copy)]
pub struct Calls<'a> {
    /// Reads a listing into tables, whatever they hold.
    pub read: &'a dyn Fn(&[u8], &mut Words, &mut AnswerWords) -> usize,
    /// Writes what the tables say into a buffer. They are only to be read, which is compared.
    pub write: &'a dyn Fn(&mut Words, &mut [u8], &mut AnswerWords) -> usize,
}

// ── One call ─────────────────────────────────────────────────────────────────────────────

/// The refusal of a buffer that is too short.
const BUFFER_TOO_SHORT: u8 = 20;

/// The answer to a listing that is read into tables: chunks and instructions, or a refusal of reading.
fn answer_of_reading(bytes: &[u8]) -> Vec<u64> {
    match listing::read(bytes) {
        Ok(listing) => vec![0, listing.module.chunks.len() as u64, listing.ops().count() as u64],
        Err(refusal) => refusal.words(),
    }
}

/// The answer of writing into a buffer with so much room.
fn answer_of_writing(said: &Result<String, Cause>, room: usize) -> Vec<u64> {
    match said {
        Err(_) => Refusal::line(0).words(),
        Ok(text) if text.len() > room => {
            Refusal { number: BUFFER_TOO_SHORT, chunk: 0, fields: vec![text.len() as u64] }.words()
        }
        Ok(text) => vec![0, text.len() as u64],
    }
}

/// A buffer to lend, with bytes after it that are not lent. All are bytes that no listing has.
struct Buffer {
    room: usize,
    before: Vec<u8>,
    bytes: Vec<u8>,
}

impl Buffer {
    /// The bytes after a buffer.
    const PAST: usize = 16;

    fn new(room: usize, random: &mut Random) -> Buffer {
        const NO_LETTERS: u64 = 0x8080_8080_8080_8080;
        let length = room + Buffer::PAST;
        let mut before: Vec<u8> =
            (0..length.div_ceil(8)).flat_map(|_| (random.next() | NO_LETTERS).to_le_bytes()).collect();
        before.truncate(length);
        Buffer { room, bytes: before.clone(), before }
    }

    /// The first byte that is not as it must be, where this was written.
    fn fault(&self, written: &[u8]) -> Option<String> {
        let kept = &self.before[written.len()..];
        if self.bytes[..written.len()] == *written && self.bytes[written.len()..] == *kept {
            return None;
        }
        let wanted = [written, kept].concat();
        let at = (0..wanted.len()).find(|at| self.bytes[*at] != wanted[*at])?;
        Some(format!("leaves {} and not {} at {at} of the buffer of {}", self.bytes[at], wanted[at], self.room))
    }
}

/// Writes tables into a buffer with so much room: how the call differs from what is expected.
fn faults_of_writing(
    calls: Calls,
    words: &mut Words,
    room: usize,
    said: &Result<String, Cause>,
    random: &mut Random,
) -> Vec<String> {
    let mut buffer = Buffer::new(room, random);
    let mut answer = NO_ANSWER;
    let count = (calls.write)(words, &mut buffer.bytes[..room], &mut answer);
    let expected = answer_of_writing(said, room);
    let written = said.as_ref().ok().filter(|text| text.len() <= room);
    let faults = answer_fault(&answer, count, &expected).map(|fault| format!("{fault}, with a buffer of {room}"));
    faults.into_iter().chain(buffer.fault(written.map_or(b"", |text| text.as_bytes()))).collect()
}

/// Reads a listing into tables: how the call differs from what is expected. After a refusal the tables hold no module.
fn faults_of_reading(calls: Calls, bytes: &[u8], words: &mut Words) -> Vec<String> {
    let mut answer = NO_ANSWER;
    let count = (calls.read)(bytes, words, &mut answer);
    let expected = answer_of_reading(bytes);
    let mut faults: Vec<String> = answer_fault(&answer, count, &expected).into_iter().collect();
    if expected[0] == 0 {
        faults.extend(fault_in_use(&words::in_use(text(bytes)), words));
    } else if words::written(words).is_ok() {
        faults.push("leaves a module of a listing that does not read".to_string());
    }
    faults
}

/// The first word in use that is another.
fn fault_in_use(in_use: &[(usize, u64)], words: &Words) -> Option<String> {
    let (at, value) = in_use.iter().find(|(at, value)| words[*at] != *value)?;
    Some(format!("leaves {} and not {value} in {}", words[*at], place(*at)))
}

fn text(bytes: &[u8]) -> &str {
    str::from_utf8(bytes).expect("what reads is text")
}

/// A word's place, in words.
fn place(at: usize) -> String {
    for table in Table::ALL {
        if at == table.count() {
            return format!("the rows of {table:?}");
        }
        if let Some((row, word)) = table.row_and_word(at) {
            return format!("word {word} of row {row} of {table:?}");
        }
    }
    format!("word {at}")
}

// ── Many ─────────────────────────────────────────────────────────────────────────────────

/// What is given to the calls.
#[derive(Clone, Copy, PartialEq, Eq)]
enum Kind {
    /// Listings, and the tables that they are read into.
    Listing,
    /// Tables of random words.
    Random,
    /// Tables of a listing with one word changed.
    Changed,
    /// The same that is not by chance, and the fixed list.
    ByRule,
}

impl Kind {
    const ALL: [Kind; 4] = [Kind::Listing, Kind::Random, Kind::Changed, Kind::ByRule];

    fn name(self) -> &'static str {
        match self {
            Kind::Listing => "listings",
            Kind::Random => "random words",
            Kind::Changed => "one word changed",
            Kind::ByRule => "by rule",
        }
    }
}

/// What a disagreement is told by: a listing, and the word of its tables that was changed; or how it was made.
#[derive(Clone, Copy)]
struct Source<'a> {
    kind: Kind,
    name: &'a str,
    listing: &'a [u8],
    change: Option<Change>,
}

/// What differs, line by line, then the listing as a frame.
pub struct Disagreement(pub Vec<u8>);

pub struct Rewriting<'a> {
    calls: Calls<'a>,
    /// What the calls are lent, as the ones before left it.
    tables: Box<Words>,
    /// A copy of tables that are only to be read.
    before: Box<Words>,
    /// What a written listing is read into.
    again: Box<Words>,
    /// How many listings or tables of each kind there were, and how many of them agreed.
    tallies: [(u64, u64); Kind::ALL.len()],
    /// What calls answered, by kind.
    outcomes: BTreeMap<String, [u64; Kind::ALL.len()]>,
    disagreements: Vec<Disagreement>,
    /// The last listing that reads, as text.
    base: String,
    generated: u64,
}

/// Compares the calls on the fixed list, by rule, and on `count` of each kind of a seed.
pub fn compare<'a>(calls: Calls<'a>, seed: u64, count: u64, size: Size) -> Rewriting<'a> {
    let mut rewriting = Rewriting::new(calls);
    rewriting.add_by_rule();
    for number in 0..count {
        rewriting.add(seed, number, size);
    }
    rewriting
}

impl<'a> Rewriting<'a> {
    fn new(calls: Calls<'a>) -> Rewriting<'a> {
        Rewriting {
            calls,
            tables: words::zeros(),
            before: words::zeros(),
            again: words::zeros(),
            tallies: Default::default(),
            outcomes: BTreeMap::new(),
            disagreements: Vec::new(),
            base: made::EACH.to_string(),
            generated: 0,
        }
    }

    /// One of each kind.
    fn add(&mut self, seed: u64, number: u64, size: Size) {
        // Other numbers than those that the listing was made from.
        let mut random = Random::new(!seed, number);
        self.generated += 1;
        let bytes = generator::listing(seed, number, size);
        let name = format!("number {number} of seed {seed}");
        self.add_listing(Source { kind: Kind::Listing, name: &name, listing: &bytes, change: None }, &mut random);
        if listing::read(&bytes).is_ok() {
            self.base = text(&bytes).to_string();
        }
        made::fill(&mut random, &mut self.tables);
        self.add_tables(Source { kind: Kind::Random, name: &name, listing: b"", change: None }, &mut random);
        let base = std::mem::take(&mut self.base);
        let in_use = words::in_use(&base);
        in_use.iter().for_each(|(at, value)| self.tables[*at] = *value);
        let change = made::change(&mut random, &self.tables, &in_use);
        self.add_changed(Kind::Changed, &name, &base, change, &mut random);
        self.base = base;
    }

    fn add_by_rule(&mut self) {
        let mut random = Random::new(0, 0);
        let kind = Kind::ByRule;
        for bytes in forms::listings() {
            self.add_listing(Source { kind, name: "a listing by rule", listing: &bytes, change: None }, &mut random);
        }
        for lines in made::at_the_ends() {
            let source = Source { kind, name: "lines by rule", listing: lines.as_bytes(), change: None };
            self.add_listing(source, &mut random);
            // Lines that are not read have tables too.
            words::put(&lines, &mut self.tables);
            self.add_tables(source, &mut random);
        }
        let each = words::in_use(made::EACH);
        let boundaries = each.iter().flat_map(|(at, _)| made::BOUNDS.map(|value| Change { at: *at, value }));
        let everywhere = (0..words::COUNT).map(|at| Change { at, value: u64::MAX });
        for change in boundaries.chain(everywhere) {
            each.iter().for_each(|(at, value)| self.tables[*at] = *value);
            self.add_changed(kind, "a line of each form", made::EACH, change, &mut random);
        }
        for case in fixed::cases() {
            self.tables.fill_with(|| random.next());
            case.put(&mut self.tables);
            let source = Source { kind, name: &case.name, listing: case.lines.as_bytes(), change: None };
            self.add_case(source, &case.calls, &mut random);
        }
    }

    /// Writes the tables into buffers of these lengths. The oracle must answer as the list has it.
    fn add_case(&mut self, source: Source, calls: &[(usize, Vec<u64>)], random: &mut Random) {
        let said = words::written(&self.tables);
        for (room, answer) in calls {
            assert_eq!(answer_of_writing(&said, *room), *answer, "case {}, {room} bytes", source.name);
        }
        let rooms: Vec<usize> = calls.iter().map(|(room, _)| *room).collect();
        self.add_tables_in(&rooms, said, source, random);
    }

    /// Reads a listing and writes back what is then in the tables.
    fn add_listing(&mut self, source: Source, random: &mut Random) {
        let faults = faults_of_reading(self.calls, source.listing, &mut self.tables);
        if !faults.is_empty() {
            return self.disagree(source, &faults);
        }
        match listing::read(source.listing) {
            Ok(_) => self.add_tables(source, random),
            Err(refusal) => {
                self.count(source.kind, format!("reading: {}", refusal.kind()));
                self.add_tables(source, random);
            }
        }
    }

    /// Writes tables in which one word is another.
    fn add_changed(&mut self, kind: Kind, name: &str, base: &str, change: Change, random: &mut Random) {
        let was = std::mem::replace(&mut self.tables[change.at], change.value);
        self.add_tables(Source { kind, name, listing: base.as_bytes(), change: Some(change) }, random);
        self.tables[change.at] = was;
    }

    /// Writes the tables into buffers of several lengths, and reads what was written.
    fn add_tables(&mut self, source: Source, random: &mut Random) {
        let said = words::written(&self.tables);
        self.add_tables_in(&rooms(&said, random), said, source, random);
    }

    fn add_tables_in(&mut self, rooms: &[usize], said: Result<String, Cause>, source: Source, random: &mut Random) {
        self.before.copy_from_slice(&*self.tables);
        let mut faults = Vec::new();
        for room in rooms {
            faults.extend(faults_of_writing(self.calls, &mut self.tables, *room, &said, random));
            self.count(source.kind, outcome(&said, *room));
        }
        if self.before != self.tables {
            faults.push("changes the tables that it writes".to_string());
        }
        if let Ok(text) = &said {
            faults.extend(faults_of_reading(self.calls, text.as_bytes(), &mut self.again));
            faults.extend(fault_in_use(&words::in_use(text), &self.before));
        }
        if faults.is_empty() { self.tally(source.kind, true) } else { self.disagree(source, &faults) }
    }

    fn tally(&mut self, kind: Kind, agrees: bool) {
        let (compared, agreeing) = &mut self.tallies[kind as usize];
        *compared += 1;
        *agreeing += u64::from(agrees);
    }

    fn count(&mut self, kind: Kind, outcome: String) {
        self.outcomes.entry(outcome).or_default()[kind as usize] += 1;
    }

    fn disagree(&mut self, source: Source, faults: &[String]) {
        self.tally(source.kind, false);
        let mut out = Vec::new();
        for fault in faults {
            out.extend(format!("{}, {}: it {fault}\n", source.kind.name(), source.name).bytes());
        }
        if let Some(Change { at, value }) = source.change {
            out.extend(format!("with {value} in {}, of the tables of:\n", place(at)).bytes());
        }
        // Random words are told by what they say.
        let said = if source.kind == Kind::Random { words::lines(&self.before) } else { Ok(String::new()) };
        match said {
            Ok(lines) if source.listing.is_empty() => frame::write(&mut out, "lines", 0, lines.as_bytes()),
            Ok(_) => frame::write(&mut out, "listing", 0, source.listing),
            Err(cause) => writeln!(out, "no lines say it: {cause}"),
        }
        .expect("a vector takes all bytes");
        self.disagreements.push(Disagreement(out));
    }

    /// The disagreements, the shortest first.
    pub fn disagreements(&mut self) -> &[Disagreement] {
        self.disagreements.sort_by_key(|disagreement| disagreement.0.len());
        &self.disagreements
    }

    /// The outcomes that so many must reach and did not.
    pub fn missing(&self) -> Vec<String> {
        if self.generated < FULL_COUNT {
            return Vec::new();
        }
        let mut wanted = vec![WRITTEN.to_string(), TOO_SHORT.to_string()];
        wanted.extend(Cause::all().into_iter().map(not_given));
        wanted.retain(|outcome| !self.outcomes.contains_key(outcome));
        wanted
    }

    /// All counts, as text.
    pub fn report(&self) -> String {
        let mut out = String::new();
        for (kind, (compared, agreeing)) in Kind::ALL.into_iter().zip(self.tallies) {
            out.push_str(&format!("{}: {compared} compared, {agreeing} agreeing\n", kind.name()));
        }
        let row = |cells: [String; Kind::ALL.len()], outcome: &str| {
            let cells: String = cells.into_iter().map(|cell| format!("{cell:>17}")).collect();
            format!("{cells}  {outcome}\n")
        };
        out.push_str(&row(Kind::ALL.map(|kind| kind.name().to_string()), "calls that answer"));
        for (outcome, counts) in &self.outcomes {
            out.push_str(&row(counts.map(|count| count.to_string()), outcome));
        }
        out
    }
}

/// Lengths of buffers: for a listing exactly its length, one less, longer, and none; for what is refused any, and none.
fn rooms(said: &Result<String, Cause>, random: &mut Random) -> Vec<usize> {
    let more = random.pick(&[1, 7, 100]) + random.below(9);
    match said {
        Ok(text) if random.chance(5) => vec![text.len(), text.len() - 1, MAX_BYTES + more, 0],
        Ok(text) => vec![text.len(), text.len() - 1, text.len() + more, 0],
        Err(_) if random.chance(5) => vec![MAX_BYTES + more, 0],
        Err(_) => vec![more, 0],
    }
}

const WRITTEN: &str = "written";
const TOO_SHORT: &str = "20";

fn not_given(cause: Cause) -> String {
    format!("1: {cause}")
}

fn outcome(said: &Result<String, Cause>, room: usize) -> String {
    match said {
        Err(cause) => not_given(*cause),
        Ok(text) if text.len() > room => TOO_SHORT.to_string(),
        Ok(_) => WRITTEN.to_string(),
    }
}

#[cfg(test)]
mod tests;
