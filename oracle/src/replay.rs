//! The fixed list: listings, the lengths of the sheets lent for each, and what a call gives. The program crates/replay
//! runs it.

use crate::answer;
use crate::choice::{Choice, Class};
use crate::compare::Expected;
use crate::generator::{self, Size};
use crate::listing::{self, MAX_BYTES, MAX_OPS};
use crate::whole;

/// The seed of the generated listings.
const SEED: u64 = 1;
/// Short listings are looked for among so many, then what is still missing among so many of any length.
const SHORT_AMONG: u64 = 8_000;
const ANY_AMONG: u64 = 80_000;
/// The most bytes of a short listing.
const SHORT_BYTES: usize = 900;
/// The most bytes of any: one more than a listing may have.
const MOST_BYTES: usize = MAX_BYTES + 1;
/// One listing in so many is there once more, with a sheet that is too short.
const TOO_SHORT_EVERY: usize = 25;

/// One line of the list: what is lent, and what must come of it.
pub struct Entry {
    listing: Vec<u8>,
    lengths: (usize, usize),
    expected: Expected,
    /// Whether the answer is the original's. The others are of what document 01 adds: reading, nesting, limits, sheets
    /// and other trap codes.
    of_original: bool,
}

impl Entry {
    /// The listing with sheets that have room: of 4,096 entries, exact, or one of each. The answer is the original's
    /// where it has one; the sheets are the second walk's.
    fn with_room(listing: &[u8], number: usize) -> Entry {
        let instructions = instructions(listing);
        let lengths = match number % 4 {
            0 => (MAX_OPS, MAX_OPS),
            1 => (instructions, instructions),
            2 => (MAX_OPS, instructions),
            _ => (instructions, (instructions + number).min(MAX_OPS)),
        };
        let mut expected = Expected::of(&whole::check(listing));
        let of_original = original(listing);
        if let Some(words) = &of_original {
            expected.words.clone_from(words);
        }
        Entry { listing: listing.to_vec(), lengths, expected, of_original: of_original.is_some() }
    }

    /// The listing with a sheet that is too short, or with two.
    fn too_short(listing: &[u8], number: usize) -> Entry {
        let instructions = instructions(listing);
        let short = number % instructions;
        let lengths = match number % 3 {
            0 => (short, MAX_OPS),
            1 => (instructions, instructions - 1),
            _ => (short, short / 2),
        };
        let expected = Expected::too_short(instructions, lengths);
        Entry { listing: listing.to_vec(), lengths, expected, of_original: false }
    }

    /// A line `original NUMBER BYTES HEIGHTS BLINDS COUNT WORD ..`, or `added ..`; the listing's bytes; and for an
    /// acceptance a line with the entries of each sheet, as many as there are instructions.
    fn write(&self, number: usize, out: &mut Vec<u8>) {
        let word = if self.of_original { "original" } else { "added" };
        let Expected { words, heights, blinds } = &self.expected;
        let (heights_length, blinds_length) = self.lengths;
        let bytes = self.listing.len();
        out.extend(format!("{word} {number} {bytes} {heights_length} {blinds_length} {}", words.len()).bytes());
        words.iter().for_each(|word| out.extend(format!(" {word}").bytes()));
        out.push(b'\n');
        out.extend(&self.listing);
        if words[0] == 0 {
            [heights, blinds].into_iter().for_each(|sheet| out.extend(line(sheet).bytes()));
        }
    }
}

/// The entries of a sheet with a space after each but the last, which has an LF; nothing where there are none.
fn line(entries: &[u8]) -> String {
    let entries: Vec<String> = entries.iter().map(u8::to_string).collect();
    if entries.is_empty() { String::new() } else { entries.join(" ") + "\n" }
}

fn instructions(listing: &[u8]) -> usize {
    listing::read(listing).map_or(0, |listing| listing.ops().count())
}

/// The words of the original's answer, where it is asked and the listing is not left out.
pub fn original(listing: &[u8]) -> Option<Vec<u64>> {
    answer::answer(listing).words().filter(|words| !(1..=3).contains(&words[0]))
}

/// The list: first the given listings, then generated ones.
pub fn entries(given: &[Vec<u8>]) -> Vec<Entry> {
    let mut entries = Vec::new();
    for listing in given.iter().chain(&chosen()) {
        entries.push(Entry::with_room(listing, entries.len()));
        if entries.len() % TOO_SHORT_EVERY == 0 && instructions(listing) > 0 {
            entries.push(Entry::too_short(listing, entries.len()));
        }
    }
    entries
}

/// The list as a stream.
pub fn write(entries: &[Entry]) -> Vec<u8> {
    let mut out = Vec::new();
    entries.iter().enumerate().for_each(|(number, entry)| entry.write(number, &mut out));
    out
}

// ── Which generated listings ─────────────────────────────────────────────────────────────

/// Listings of a seed: of each class as many as wanted, and all that reach what no earlier one does. Short ones first.
pub fn chosen() -> Vec<Vec<u8>> {
    let mut choice = Choice::new(wanted, 1);
    for number in 0..SHORT_AMONG {
        let listing = generator::listing(SEED, number, Size::Any);
        if listing.len() <= SHORT_BYTES {
            choice.offer(listing);
        }
    }
    for number in 0..ANY_AMONG {
        let listing = generator::listing(SEED, number, Size::Any);
        if (SHORT_BYTES + 1..=MOST_BYTES).contains(&listing.len()) {
            choice.offer(listing);
        }
    }
    assert!(choice.missing.is_empty(), "not reached: {:?}", choice.missing);
    choice.listings
}

/// How many of a class are wanted: the large ones are few.
fn wanted(class: &Class) -> usize {
    match class {
        Class::Accepted(5) => 25,
        Class::Accepted(20 | 60) => 50,
        Class::Accepted(600) => 12,
        Class::Accepted(MAX_OPS) | Class::Overfull(_) => 1,
        Class::Accepted(_) => 2,
        Class::Refused(kind) if kind == "refused  2, limit 1" => 1,
        Class::Refused(_) => 12,
    }
}
