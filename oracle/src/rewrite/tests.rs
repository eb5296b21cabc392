//! The comparison itself, without the static library: right calls agree, and each wrong one is found.

use super::*;
use crate::listing::{MAX_LOCALS, MAX_PARAMS};
use crate::words::FIXED_SHAPES;

type Read = fn(&[u8], &mut Words, &mut AnswerWords) -> usize;
type Write = fn(&mut Words, &mut [u8], &mut AnswerWords) -> usize;

/// Reading that is right: what is not in use is left.
fn right_read(bytes: &[u8], words: &mut Words, answer: &mut AnswerWords) -> usize {
    let expected = answer_of_reading(bytes);
    if expected[0] == 0 {
        words::put(text(bytes), words);
    } else {
        words[Table::Module.count()] = 0;
    }
    give(&expected, answer)
}

/// Writing that is right.
fn right_write(words: &mut Words, out: &mut [u8], answer: &mut AnswerWords) -> usize {
    write_as(words::written(words), out, answer)
}

/// Writing of what the words are taken to say.
fn write_as(said: Result<String, Cause>, out: &mut [u8], answer: &mut AnswerWords) -> usize {
    let expected = answer_of_writing(&said, out.len());
    if let (Ok(text), 0) = (said, expected[0]) {
        out[..text.len()].copy_from_slice(text.as_bytes());
    }
    give(&expected, answer)
}

fn give(expected: &[u64], answer: &mut AnswerWords) -> usize {
    answer.fill(0);
    answer[..expected.len()].copy_from_slice(expected);
    expected.len()
}

#[test]
fn right_calls_agree() {
    let mut rewriting = compare(Calls { read: &right_read, write: &right_write }, 1, 1_000, Size::Any);
    let disagreements = rewriting.disagreements().iter().map(|one| String::from_utf8_lossy(&one.0).into_owned());
    assert_eq!(disagreements.collect::<Vec<String>>(), Vec::<String>::new());
}

/// Whether a disagreement is found by chance, or else by rule.
fn are_found(calls: Calls) -> bool {
    let mut rewriting = Rewriting::new(calls);
    for number in 0..1_000 {
        rewriting.add(1, number, Size::Small);
        if !rewriting.disagreements.is_empty() {
            return true;
        }
    }
    rewriting.add_by_rule();
    !rewriting.disagreements.is_empty()
}

// ── Wrong reading ────────────────────────────────────────────────────────────────────────

/// Reading of other bytes, with an answer that is right.
fn read_as(bytes: &[u8], taken_for: &[u8], words: &mut Words, answer: &mut AnswerWords) -> usize {
    if listing::read(taken_for).is_ok() {
        words::put(text(taken_for), words);
    } else {
        words[Table::Module.count()] = 0;
    }
    give(&answer_of_reading(bytes), answer)
}

fn without(bytes: &[u8], line: &str, number: &str) -> Vec<u8> {
    let lines = text_or_nothing(bytes).split_inclusive('\n');
    let changed =
        lines.map(|read| if read.starts_with(line) { format!("{line} {number})\n") } else { read.to_string() });
    changed.collect::<String>().into_bytes()
}

fn text_or_nothing(bytes: &[u8]) -> &str {
    str::from_utf8(bytes).unwrap_or("")
}

#[test]
fn wrong_reading_is_found() {
    let wrong: [(&str, Read); 9] = [
        ("tables that are left", |bytes, _, answer| give(&answer_of_reading(bytes), answer)),
        ("EndLoop's operand", |bytes, words, answer| {
            read_as(bytes, &without(bytes, "(op EndLoop", "0"), words, answer)
        }),
        ("BoundsCheck's operand", |bytes, words, answer| {
            read_as(bytes, &without(bytes, "(op BoundsCheck", "0"), words, answer)
        }),
        ("a word that is not 0 at the end", |bytes, words, answer| {
            let count = right_read(bytes, words, answer);
            answer[7] = 1;
            count
        }),
        ("no instructions in the answer", |bytes, words, answer| {
            let count = right_read(bytes, words, answer);
            answer[2] *= u64::from(answer[0] > 0);
            count
        }),
        ("limit 1 for 1", |bytes, words, answer| {
            let count = right_read(bytes, words, answer);
            if answer[..4] == [2, 0, 0, 1] { give(&[1, 0, 0], answer) } else { count }
        }),
        ("limit 3 for 2", |bytes, words, answer| {
            let count = right_read(bytes, words, answer);
            if answer[..4] == [2, 0, 0, 3] { give(&[2, 0, 0, 2], answer) } else { count }
        }),
        ("a module of a listing that does not read", |bytes, words, answer| {
            let rows = words[Table::Module.count()];
            let count = right_read(bytes, words, answer);
            if answer[0] > 0 {
                words[Table::Module.count()] = rows;
            }
            count
        }),
        ("a line too many", |bytes, words, answer| {
            let count = right_read(bytes, words, answer);
            answer[2] += u64::from(answer[0] == 1);
            count
        }),
    ];
    for (what, read) in wrong {
        assert!(are_found(Calls { read: &read, write: &right_write }), "{what} is not found");
    }
}

// ── Wrong writing ────────────────────────────────────────────────────────────────────────

/// Writing of what no listing gives for this reason all the same.
fn write_despite(causes: &[Cause], words: &Words, out: &mut [u8], answer: &mut AnswerWords) -> usize {
    match words::written(words) {
        Err(cause) if causes.contains(&cause) => write_as(words::lines(words), out, answer),
        said => write_as(said, out, answer),
    }
}

/// Writing of other words.
fn write_changed(words: &Words, change: impl Fn(&mut Words), out: &mut [u8], answer: &mut AnswerWords) -> usize {
    let mut changed = Box::new(*words);
    change(&mut changed);
    write_as(words::written(&changed), out, answer)
}

/// The rows in use, where there are no more than the table has room for.
fn rows(words: &Words, table: Table) -> std::ops::Range<usize> {
    0..(words[table.count()] as usize).min(table.most())
}

fn cut(words: &mut Words, table: Table, word: usize, most: u64) {
    for row in rows(words, table) {
        let at = table.at(row, word);
        words[at] = words[at].min(most);
    }
}

#[test]
fn wrong_writing_is_found() {
    let wrong: [(&str, Write); 11] = [
        ("a byte behind the listing", |words, out, answer| {
            let count = right_write(words, out, answer);
            if answer[0] == 0 && out.len() > answer[1] as usize {
                out[answer[1] as usize] = b'\n';
            }
            count
        }),
        ("a last byte that is not written", |words, out, answer| {
            let last = out.last().copied();
            let count = right_write(words, out, answer);
            if answer[0] == 0 && out.len() == answer[1] as usize {
                out[out.len() - 1] = last.expect("a listing is not empty");
            }
            count
        }),
        ("a buffer that 20 changes", |words, out, answer| {
            let count = right_write(words, out, answer);
            if answer[0] == u64::from(BUFFER_TOO_SHORT) && !out.is_empty() {
                out[0] = b'(';
            }
            count
        }),
        ("a buffer that 1 changes", |words, out, answer| {
            let count = right_write(words, out, answer);
            if answer[0] == 1 && !out.is_empty() {
                out[0] = b'(';
            }
            count
        }),
        ("20 with the buffer's length", |words, out, answer| {
            let count = right_write(words, out, answer);
            if answer[0] == u64::from(BUFFER_TOO_SHORT) {
                answer[2] = out.len() as u64;
            }
            count
        }),
        ("20 where the buffer is exactly as long", |words, out, answer| match words::written(words) {
            Ok(text) if text.len() == out.len() => give(&answer_of_writing(&Ok(text), 0), answer),
            said => write_as(said, out, answer),
        }),
        ("20 before 1", |words, out, answer| match words::lines(words) {
            Ok(text) if text.len() > out.len() => give(&answer_of_writing(&Ok(text), out.len()), answer),
            _ => right_write(words, out, answer),
        }),
        ("a line with 1", |words, out, answer| {
            let count = right_write(words, out, answer);
            answer[2] += u64::from(answer[0] == 1);
            count
        }),
        ("a word too many", |words, out, answer| right_write(words, out, answer) + 1),
        ("tables that are changed", |words, out, answer| {
            let count = right_write(words, out, answer);
            words[words::COUNT - 1] = answer[0];
            count
        }),
        ("a Boxed operand left out", |words, out, answer| {
            let boxed = |line: &str| match line.split_once(" Boxed ") {
                Some((name, _)) => format!("{name} Boxed)\n"),
                None => line.to_string(),
            };
            write_as(words::written(words).map(|text| text.split_inclusive('\n').map(boxed).collect()), out, answer)
        }),
    ];
    for (what, write) in wrong {
        assert!(are_found(Calls { read: &right_read, write: &write }), "{what} is not found");
    }
}

#[test]
fn writing_of_what_no_listing_gives_is_found() {
    let wrong: [(&str, Write); 16] = [
        ("more than 65,536 bytes", |words, out, answer| write_despite(&[Cause::Bytes], words, out, answer)),
        ("I and H equal", |words, out, answer| write_despite(&[Cause::EqualCodes], words, out, answer)),
        ("kind 5 where F is 0", |words, out, answer| write_despite(&[Cause::NoFloats], words, out, answer)),
        ("33 locals", |words, out, answer| write_despite(&[Cause::Locals], words, out, answer)),
        ("a first line of any widths", |words, out, answer| {
            write_despite(&[Cause::Number(Table::Module)], words, out, answer)
        }),
        ("a constant 7", |words, out, answer| write_despite(&[Cause::Number(Table::Const)], words, out, answer)),
        ("an operand that is too great", |words, out, answer| {
            write_despite(&[Cause::Number(Table::Op)], words, out, answer)
        }),
        ("a shape's number that is too great", |words, out, answer| {
            write_despite(&[Cause::Number(Table::Native), Cause::Number(Table::Sig)], words, out, answer)
        }),
        ("no first line", |words, out, answer| write_changed(words, |words| words[0] = 1, out, answer)),
        ("rows past the last", |words, out, answer| {
            let cut = |words: &mut Words| {
                Table::ALL.iter().for_each(|table| words[table.count()] = words[table.count()].min(table.most() as u64))
            };
            write_changed(words, cut, out, answer)
        }),
        ("a slot of 2", |words, out, answer| write_changed(words, |words| cut(words, Table::Slot, 0, 1), out, answer)),
        ("a code past the last", |words, out, answer| {
            let last = words::FORMS.len() as u64 - 1;
            write_changed(words, |words| cut(words, Table::Op, 0, last), out, answer)
        }),
        ("17 parameters", |words, out, answer| {
            let most = (FIXED_SHAPES + MAX_PARAMS) as u64;
            write_changed(words, |words| cut(words, Table::Sig, 0, most), out, answer)
        }),
        ("LOCALS that is cut", |words, out, answer| {
            write_changed(words, |words| cut(words, Table::Chunk, 1, u64::from(MAX_LOCALS)), out, answer)
        }),
        ("a gap before the first chunk", |words, out, answer| {
            let closed =
                |words: &mut Words| words::OF_CHUNKS.iter().for_each(|(_, word)| words[Table::Chunk.at(0, *word)] = 0);
            write_changed(words, closed, out, answer)
        }),
        ("a top with a kind", |words, out, answer| {
            let top = |words: &mut Words| {
                for row in rows(words, Table::Native) {
                    let at = Table::Native.at(row, 1);
                    words[at] *= u64::from(words[at] % 4 > 0);
                }
            };
            write_changed(words, top, out, answer)
        }),
    ];
    for (what, write) in wrong {
        assert!(are_found(Calls { read: &right_read, write: &write }), "{what} is not found");
    }
}

#[test]
fn refusing_what_a_listing_gives_is_found() {
    let refuse_if = |is_refused: bool, words: &mut Words, out: &mut [u8], answer: &mut AnswerWords| match is_refused {
        true => give(&Refusal::line(0).words(), answer),
        false => right_write(words, out, answer),
    };
    let wrong: [(&str, Table, fn(u64) -> bool); 7] = [
        ("a header's row of another count", Table::Module, |count| count != 7),
        ("a shared row of another count", Table::Shared, |count| count != 3),
        ("a private row of another count", Table::Private, |count| count != 2),
        ("an enum row of another count", Table::Enum, |count| count != 1),
        ("a native row of another count", Table::Native, |count| count != 1),
        ("a chunk row of another count", Table::Chunk, |count| count != 1),
        ("a constant's row of another count", Table::Const, |count| count != 1),
    ];
    for (what, table, is_refused) in wrong {
        let write = |words: &mut Words, out: &mut [u8], answer: &mut AnswerWords| {
            let is_refused = rows(words, table).any(|row| is_refused(words[table.at(row, 0)]));
            refuse_if(is_refused, words, out, answer)
        };
        assert!(are_found(Calls { read: &right_read, write: &write }), "{what} is not found");
    }
    let behind_operands = |words: &mut Words, out: &mut [u8], answer: &mut AnswerWords| {
        let is_refused = rows(words, Table::Op).any(|row| words[Table::Op.at(row, 3)] > u64::from(u32::MAX));
        refuse_if(is_refused, words, out, answer)
    };
    assert!(are_found(Calls { read: &right_read, write: &behind_operands }), "words behind operands are not found");
    let nested = |words: &mut Words, out: &mut [u8], answer: &mut AnswerWords| {
        let refused = words::written(words).is_ok_and(|text| crate::whole::check(text.as_bytes()).is_err());
        refuse_if(refused, words, out, answer)
    };
    assert!(are_found(Calls { read: &right_read, write: &nested }), "what the check refuses is not found");
}
