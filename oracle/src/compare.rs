//! Compares a checker with the original, and with the walk of `limits` and its sheets, on generated listings.

use crate::answer;
use crate::frame;
use crate::generator::{self, Size};
use crate::limits::{Mark, Notes};
use crate::listing::{self, MAX_OPS};
use crate::random::Random;
use crate::refusal::Refusal;
use crate::survey::{self, FULL_COUNT};
use crate::{nesting, whole};
use std::collections::BTreeMap;
use std::fmt;

/// The words of an answer: 0, chunks and instructions, or a refusal's numbers; the rest are 0.
pub const ANSWER_WORDS: usize = 8;

pub type AnswerWords = [u64; ANSWER_WORDS];

/// What an answer is filled with before a call: no call leaves it.
pub const NO_ANSWER: AnswerWords = [u64::MAX; ANSWER_WORDS];

/// A checker: the listing, the height sheet, the blind sheet, the answer. It gives how many words the answer has.
pub type Check<'a> = &'a dyn Fn(&[u8], &mut [u8], &mut [u8], &mut AnswerWords) -> usize;

// ── One call ─────────────────────────────────────────────────────────────────────────────

/// What a call must give. Past these entries a sheet is 0.
pub struct Expected {
    pub words: Vec<u64>,
    pub heights: Vec<u8>,
    pub blinds: Vec<u8>,
}

impl Expected {
    fn refused(refusal: &Refusal) -> Expected {
        Expected { words: refusal.words(), heights: Vec::new(), blinds: Vec::new() }
    }

    fn accepted(marks: &[Vec<Mark>]) -> Expected {
        let all: Vec<&Mark> = marks.iter().flatten().collect();
        Expected {
            words: vec![0, marks.len() as u64, all.len() as u64],
            heights: all.iter().map(|mark| mark.height.map_or(0, |height| height as u8 + 1)).collect(),
            blinds: all.iter().map(|mark| u8::from(mark.blind)).collect(),
        }
    }

    /// What the second walk gives, where both sheets have room.
    pub fn of(walked: &Result<Vec<Vec<Mark>>, Refusal>) -> Expected {
        walked.as_ref().map_or_else(Expected::refused, |marks| Expected::accepted(marks))
    }

    /// What comes of sheets of these lengths, one of them at least too short for so many instructions.
    pub fn too_short(instructions: usize, lengths: (usize, usize)) -> Expected {
        let fields = vec![instructions as u64, lengths.0.min(lengths.1) as u64];
        Expected::refused(&Refusal { number: 4, chunk: 0, fields })
    }
}

/// A sheet to lend, with bytes after it that are not lent. All are full of what is not 0.
struct Sheet {
    name: &'static str,
    length: usize,
    first: usize,
    bytes: Vec<u8>,
}

impl Sheet {
    /// The bytes after a sheet.
    const PAST: usize = 16;

    fn new(name: &'static str, length: usize, random: &mut Random) -> Sheet {
        let first = random.below(255);
        let bytes = (0..length + Sheet::PAST).map(|at| Sheet::rubbish(first, at)).collect();
        Sheet { name, length, first, bytes }
    }

    fn rubbish(first: usize, at: usize) -> u8 {
        ((first + at) % 255) as u8 + 1
    }

    fn lent(&mut self) -> &mut [u8] {
        &mut self.bytes[..self.length]
    }

    /// The first byte that is not as it must be.
    fn fault(&self, expected: &[u8]) -> Option<String> {
        let wanted = |at| match expected.get(at) {
            Some(entry) => *entry,
            None if at < self.length => 0,
            None => Sheet::rubbish(self.first, at),
        };
        let at = (0..self.bytes.len()).find(|at| self.bytes[*at] != wanted(*at))?;
        let Sheet { name, length, .. } = self;
        Some(format!("leaves {} and not {} at {at} of the {name} sheet of {length}", self.bytes[at], wanted(at)))
    }
}

/// How an answer of so many words differs from the expected one.
pub fn answer_fault(answer: &AnswerWords, count: usize, expected: &[u64]) -> Option<String> {
    let (words, rest) = answer.split_at(count.min(ANSWER_WORDS));
    let is_right = words == expected && rest.iter().all(|word| *word == 0);
    (!is_right).then(|| format!("answers {words:?}, then {rest:?}, and not {expected:?}"))
}

/// Calls the checker with sheets of these lengths. Gives the words of its answer, and how the call differs from what
/// is expected.
fn call(
    check: Check,
    bytes: &[u8],
    lengths: (usize, usize),
    expected: &Expected,
    random: &mut Random,
) -> (Vec<u64>, Vec<String>) {
    let mut heights = Sheet::new("height", lengths.0, random);
    let mut blinds = Sheet::new("blind", lengths.1, random);
    let mut answer = NO_ANSWER;
    let count = check(bytes, heights.lent(), blinds.lent(), &mut answer);
    let mut faults: Vec<String> = answer_fault(&answer, count, &expected.words).into_iter().collect();
    faults.extend(heights.fault(&expected.heights));
    faults.extend(blinds.fault(&expected.blinds));
    (answer[..count.min(ANSWER_WORDS)].to_vec(), faults)
}

/// Lengths of two sheets that have room for so many instructions: exact, longer, the most, and unequal ones.
fn lengths_with_room(random: &mut Random, instructions: usize) -> (usize, usize) {
    let longer = instructions + random.between(1, 40);
    match random.below(6) {
        0 => (instructions, instructions),
        1 => (instructions, longer),
        2 => (longer, instructions),
        3 => (longer, longer + random.below(3)),
        4 => (MAX_OPS, MAX_OPS),
        _ => (MAX_OPS + random.below(3), instructions),
    }
}

/// Lengths of two sheets of which one at least is too short.
fn lengths_too_short(random: &mut Random, instructions: usize) -> (usize, usize) {
    let below = random.below(instructions);
    let short = random.pick(&[0, instructions - 1, below]);
    let other = random.pick(&[0, below, instructions, instructions + 7, MAX_OPS]);
    if random.chance(50) { (short, other) } else { (other, short) }
}

// ── Many listings ────────────────────────────────────────────────────────────────────────

/// How many were compared, and how many of them agreed.
#[derive(Default)]
struct Tally {
    compared: u64,
    agreeing: u64,
}

impl Tally {
    fn add(&mut self, agrees: bool) {
        self.compared += 1;
        self.agreeing += u64::from(agrees);
    }
}

impl fmt::Display for Tally {
    fn fmt(&self, out: &mut fmt::Formatter) -> fmt::Result {
        write!(out, "{} compared, {} agreeing", self.compared, self.agreeing)
    }
}

/// In a full comparison one listing in so many at least is compared with the original without floats.
const LEAST_WITHOUT_FLOATS: u64 = 10;

#[derive(Default)]
pub struct Comparison {
    listings: u64,
    with_original: Tally,
    /// Those of them whose F is 0: the original is then the one without floats.
    without_floats: Tally,
    with_second_walk: Tally,
    too_short: Tally,
    /// Why a listing was not compared with the original.
    left_out: BTreeMap<String, u64>,
    answers: BTreeMap<String, u64>,
    /// Every disagreement, with its listing as a frame.
    pub disagreements: Vec<Vec<u8>>,
}

/// Compares a checker on listings 0 to `count` - 1 of a seed.
pub fn compare(check: Check, seed: u64, count: u64, size: Size) -> Comparison {
    let mut comparison = Comparison::default();
    for number in 0..count {
        comparison.add(check, seed, number, &generator::listing(seed, number, size));
    }
    comparison
}

impl Comparison {
    fn add(&mut self, check: Check, seed: u64, number: u64, bytes: &[u8]) {
        // Other numbers than those that the listing was made from.
        let mut random = Random::new(!seed, number);
        self.listings += 1;
        let read = listing::read(bytes);
        // A listing that is not read is refused with sheets of any length.
        let instructions = read.as_ref().map_or(0, |listing| listing.ops().count());
        let nested = read.as_ref().map_err(Clone::clone).and_then(|listing| nesting::check(listing).map(|()| listing));
        let walked = nested.clone().and_then(|listing| whole::check_nested(listing, &mut Notes::default()));
        survey::count(&mut self.answers, &walked.as_ref().map_or_else(Refusal::kind, |_| "accepted".to_string()));
        let expected = Expected::of(&walked);
        let lengths = lengths_with_room(&mut random, instructions);
        let (words, mut faults) = call(check, bytes, lengths, &expected, &mut random);
        self.with_second_walk.add(faults.is_empty());
        match nested.map(|listing| (listing.float_bytes, answer::answer_nested(listing))) {
            Ok((float_bytes, original)) => match original.words() {
                Some(of_original) => {
                    self.with_original.add(words == of_original);
                    if float_bytes == 0 {
                        self.without_floats.add(words == of_original);
                    }
                    if words != of_original {
                        faults.push(format!("answers {words:?}, where the original answers {of_original:?}"));
                    }
                }
                None => survey::count(&mut self.left_out, &original.to_string()),
            },
            Err(_) => survey::count(&mut self.left_out, "refused in reading or nesting"),
        }
        if instructions > 0 && random.chance(25) {
            let lengths = lengths_too_short(&mut random, instructions);
            let expected = Expected::too_short(instructions, lengths);
            survey::count(&mut self.answers, "refused  4");
            let (_, short_faults) = call(check, bytes, lengths, &expected, &mut random);
            self.too_short.add(short_faults.is_empty());
            faults.extend(short_faults);
        }
        if !faults.is_empty() {
            self.disagreements.push(disagreement(number, &faults, bytes));
        }
    }

    /// The answers that so many listings must reach and did not; and that too few were compared with the original without
    /// floats.
    pub fn missing(&self, size: Size) -> Vec<String> {
        if self.listings < FULL_COUNT {
            return Vec::new();
        }
        let mut wanted = survey::answers_compared(size);
        wanted.extend(["refused  4", "refused  2, limit 5", "refused  2, limit 6"].map(String::from));
        wanted.retain(|answer| !self.answers.contains_key(answer));
        let least = self.listings / LEAST_WITHOUT_FLOATS;
        if self.without_floats.compared < least {
            wanted.push(format!("{least} comparisons with the original without floats"));
        }
        wanted
    }

    /// All counts, as text.
    pub fn report(&self) -> String {
        let mut out = format!("listings {}\n", self.listings);
        out.push_str(&format!("answer, with the original: {}\n", self.with_original));
        out.push_str(&format!("of these, with the original without floats: {}\n", self.without_floats));
        out.push_str(&format!("answer and both sheets, with the second walk: {}\n", self.with_second_walk));
        out.push_str(&format!("refusal 4, with a sheet too short: {}\n", self.too_short));
        let mut table = |title: &str, counts: &BTreeMap<String, u64>| {
            out.push_str(&format!("{title}\n"));
            counts.iter().for_each(|(key, times)| out.push_str(&format!("{times:9}  {key}\n")));
        };
        table("not compared with the original", &self.left_out);
        table("answers", &self.answers);
        out
    }
}

/// What differs, line by line, then the listing as a frame.
fn disagreement(number: u64, faults: &[String], bytes: &[u8]) -> Vec<u8> {
    let mut out = Vec::new();
    for fault in faults {
        out.extend(format!("listing {number}: the checker {fault}\n").bytes());
    }
    frame::write(&mut out, "listing", number, bytes).expect("a vector takes all bytes");
    out
}

#[cfg(test)]
mod tests {
    use super::*;
    use crate::twins;

    type Call<'a> = (&'a [u8], &'a mut [u8], &'a mut [u8], &'a mut AnswerWords);

    /// The second walk as a checker: one that is right.
    fn right((bytes, heights, blinds, answer): Call) -> usize {
        let instructions = listing::read(bytes).map_or(0, |listing| listing.ops().count());
        let expected = if heights.len().min(blinds.len()) < instructions {
            Expected::too_short(instructions, (heights.len(), blinds.len()))
        } else {
            Expected::of(&whole::check(bytes))
        };
        heights.fill(0);
        blinds.fill(0);
        answer.fill(0);
        heights[..expected.heights.len()].copy_from_slice(&expected.heights);
        blinds[..expected.blinds.len()].copy_from_slice(&expected.blinds);
        answer[..expected.words.len()].copy_from_slice(&expected.words);
        expected.words.len()
    }

    /// How many of 2,000 listings a checker differs on that is right but for a change after its call.
    fn disagreements(spoil: fn(Call, &mut usize)) -> usize {
        let check = |bytes: &[u8], heights: &mut [u8], blinds: &mut [u8], answer: &mut AnswerWords| {
            let mut count = right((bytes, &mut *heights, &mut *blinds, &mut *answer));
            spoil((bytes, heights, blinds, answer), &mut count);
            count
        };
        compare(&check, 1, 2_000, Size::Any).disagreements.len()
    }

    /// The same for a checker that is right but for what it takes a listing with F 0 for: on how many it differs from the
    /// original, and on how many in all.
    fn disagreements_without_floats(mistake: fn(&[u8]) -> Vec<u8>) -> (u64, usize) {
        let check = |bytes: &[u8], heights: &mut [u8], blinds: &mut [u8], answer: &mut AnswerWords| {
            let taken_for = if twins::is_without_floats(bytes) { mistake(bytes) } else { bytes.to_vec() };
            right((&taken_for, heights, blinds, answer))
        };
        let comparison = compare(&check, 1, 2_000, Size::Any);
        let Tally { compared, agreeing } = comparison.without_floats;
        (compared - agreeing, comparison.disagreements.len())
    }

    fn replaced(bytes: &[u8], from: &str, to: &str) -> Vec<u8> {
        // Bytes that are no text stay what they are, since each is taken for a character.
        let text: String = bytes.iter().map(|byte| char::from(*byte)).collect();
        text.replace(from, to).chars().map(|character| character as u8).collect()
    }

    #[test]
    fn a_right_checker_agrees() {
        assert_eq!(disagreements(|_, _| ()), 0);
    }

    /// Each is found on some listing.
    #[test]
    fn wrong_checkers_disagree() {
        let wrong: [(&str, fn(Call, &mut usize)); 11] = [
            ("accepts all", |(_, _, _, answer), _| answer[0] = 0),
            ("another number", |(_, _, _, answer), _| answer[0] += u64::from(answer[0] == 17)),
            ("no chunk", |(_, _, _, answer), _| answer[1] *= u64::from(answer[0] == 0)),
            ("another last field", |(_, _, _, answer), count| answer[*count - 1] += u64::from(answer[0] == 6)),
            ("a word too few", |(_, _, _, answer), count| *count -= usize::from(answer[0] == 12)),
            ("a word that is not 0 at the end", |(_, _, _, answer), _| answer[7] = 1),
            ("a length of 4", |(_, _, _, answer), _| answer[3] += u64::from(answer[0] == 4)),
            ("a height", |(_, heights, _, _), _| heights.iter_mut().for_each(|entry| *entry += u8::from(*entry == 9))),
            ("no mark", |(_, _, blinds, _), _| blinds.fill(0)),
            ("an entry past the end", |(_, heights, _, answer), _| {
                let end = if answer[0] == 0 { answer[2] as usize } else { heights.len() };
                heights[end..].fill(1);
            }),
            ("a sheet that a refusal leaves", |(_, _, blinds, answer), _| {
                blinds.iter_mut().for_each(|entry| *entry = (*entry).max(u8::from(answer[0] > 0)));
            }),
        ];
        for (what, spoil) in wrong {
            assert!(disagreements(spoil) > 0, "{what} is not found");
        }
    }

    /// Each is found where the original without floats answers, but for an op that names kind 5, which is not read.
    #[test]
    fn checkers_that_are_wrong_without_floats_disagree() {
        assert_eq!(disagreements_without_floats(|bytes| bytes.to_vec()), (0, 0));
        let wrong: [(&str, fn(&[u8]) -> Vec<u8>); 9] = [
            ("a first line that is refused", |bytes| twins::with_float_bytes(bytes, 3)),
            ("floats of 8 bytes", |bytes| twins::with_float_bytes(bytes, 8)),
            ("a constant that is a scalar", |bytes| replaced(bytes, "(const 5)", "(const 0)")),
            ("a constant that is refused", |bytes| replaced(bytes, "(const 5)", "(const 7)")),
            ("a declared shape that is a scalar", |bytes| replaced(bytes, "(scalar 5)", "(scalar 0)")),
            ("a shared entry of no bytes that passes", |bytes| {
                let lines = bytes.split_inclusive(|byte| *byte == b'\n');
                let of_kind_0 = |line: &[u8]| match line.starts_with(b"(shared ") {
                    true => replaced(line, " 5 ", " 0 "),
                    false => line.to_vec(),
                };
                lines.flat_map(of_kind_0).collect()
            }),
            ("no name IntToFloat", |bytes| replaced(bytes, "(op IntToFloat)", "(op FixedToFloat)")),
            ("a FloatToInt that pushes one more", |bytes| replaced(bytes, "(op FloatToInt)", "(op Dup)")),
            ("an op of kind 5 that is read", |bytes| {
                let twin = twins::with_float_bytes(bytes, 8);
                if listing::read(bytes).is_err() && listing::read(&twin).is_ok() { twin } else { bytes.to_vec() }
            }),
        ];
        for (what, mistake) in wrong {
            let (with_original, all) = disagreements_without_floats(mistake);
            assert!(all > 0, "{what} is not found");
            assert!(with_original > 0 || what.ends_with("that is read"), "{what} is not found by the original");
        }
    }
}
