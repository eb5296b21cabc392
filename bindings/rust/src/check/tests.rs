//! The fixed list of crates/replay: calls with what each gives, made by oracle/.

use super::Checker;
use crate::{Accepted, Refusal};
use std::collections::BTreeSet;

const LIST: &str = concat!(env!("CARGO_MANIFEST_DIR"), "/../../crates/replay/stdin");

struct Call {
    listing: Vec<u8>,
    heights: usize,
    blinds: usize,
    answer: Vec<u64>,
    sheets: [Vec<u8>; 2],
}

/// What is left of the list after the line that it gives.
fn line<'a>(list: &mut &'a [u8]) -> &'a str {
    let end = list.iter().position(|byte| *byte == b'\n').expect("a line");
    let line = std::str::from_utf8(&list[..end]).expect("text");
    *list = &list[end + 1..];
    line
}

fn sheet(list: &mut &[u8]) -> Vec<u8> {
    line(list).split(' ').map(|entry| entry.parse().expect("an entry")).collect()
}

fn calls() -> Vec<Call> {
    let list = std::fs::read(LIST).expect("the fixed list");
    let mut rest = &list[..];
    let mut calls = Vec::new();
    while !rest.is_empty() {
        let words: Vec<u64> = line(&mut rest).split(' ').skip(2).map(|word| word.parse().expect("a number")).collect();
        let [bytes, heights, blinds, count, ref answer @ ..] = words[..] else { panic!("an entry's line") };
        assert_eq!(answer.len(), count as usize);
        let (listing, after) = rest.split_at(bytes as usize);
        rest = after;
        let has_sheets = answer[0] == 0 && answer[2] > 0;
        calls.push(Call {
            listing: listing.to_vec(),
            heights: heights as usize,
            blinds: blinds as usize,
            answer: answer.to_vec(),
            sheets: if has_sheets { [sheet(&mut rest), sheet(&mut rest)] } else { [Vec::new(), Vec::new()] },
        });
    }
    calls
}

/// The sheets are those of the entry, which may be too short.
fn made(call: &Call) -> Result<Accepted, Refusal> {
    let mut checker = Checker::new();
    checker.heights = vec![7; call.heights];
    checker.blinds = vec![7; call.blinds];
    checker.check(&call.listing)
}

#[test]
fn every_call_gives_its_answer() {
    let mut met = BTreeSet::new();
    for call in calls() {
        match made(&call) {
            Ok(accepted) => {
                assert_eq!(call.answer, [0, accepted.chunks(), accepted.instructions() as u64]);
                let [heights, blinds] = call.sheets;
                assert_eq!(accepted, Accepted::from_sheets(call.answer[1], &heights, &blinds));
                let given: Vec<u8> =
                    accepted.heights().iter().map(|height| height.map_or(0, |height| height + 1)).collect();
                assert_eq!(given, heights);
                assert_eq!(accepted.blind().iter().map(|mark| u8::from(*mark)).collect::<Vec<u8>>(), blinds);
            }
            Err(refusal) => {
                assert_eq!(refusal.numbers(), call.answer);
                assert_eq!(refusal.number(), call.answer[0]);
                met.insert(kind(&call.answer));
            }
        }
    }
    let limits = (1..=6).map(|limit| (2, limit));
    let reasons = [(18, 1), (18, 2), (18, 3), (18, 4), (19, 1), (19, 2)];
    let others = (1..=17).filter(|number| *number != 2).map(|number| (number, 0));
    assert_eq!(met, limits.chain(reasons).chain(others).collect());
}

/// A refusal's number, with its limit or reason.
fn kind(answer: &[u64]) -> (u64, u64) {
    match answer[0] {
        2 => (2, answer[3]),
        18 | 19 => (answer[0], answer[4]),
        number => (number, 0),
    }
}

#[test]
fn places_are_where_there_is_an_instruction() {
    for call in calls() {
        let Err(refusal) = made(&call) else { continue };
        let (number, detail) = kind(&call.answer);
        let is_placed = !matches!((number, detail), (1 | 4 | 16 | 18 | 19, _) | (2, 1..=3));
        assert_eq!(refusal.chunk(), is_placed.then_some(call.answer[1]));
        assert_eq!(refusal.ip(), is_placed.then_some(call.answer[2]));
    }
}

/// Every value stands in the words, but for the limit and the reasons, which have words of their own.
#[test]
fn words_name_the_values() {
    let mut sentences = BTreeSet::new();
    for call in calls() {
        let Err(refusal) = made(&call) else { continue };
        let words = refusal.to_string();
        let named: BTreeSet<&str> = words.split(|letter: char| !letter.is_ascii_digit()).collect();
        let values = match call.answer[0] {
            2 => &call.answer[2..2],
            18 | 19 => &call.answer[2..4],
            _ => &call.answer[2..],
        };
        for value in values {
            assert!(named.contains(&value.to_string()[..]), "{value} is not in: {words}");
        }
        if refusal.ip().is_some() {
            assert!(
                words.starts_with(&format!("chunk {}, instruction {}: ", call.answer[1], call.answer[2])),
                "{words}"
            );
        }
        // Without its numbers a sentence belongs to one kind.
        let bare: String = words.chars().filter(|letter| !letter.is_ascii_digit()).collect();
        sentences.insert((kind(&call.answer), bare));
    }
    let kinds: BTreeSet<_> = sentences.iter().map(|(kind, _)| kind).collect();
    let bare: BTreeSet<_> = sentences.iter().map(|(_, bare)| bare).collect();
    assert_eq!((sentences.len(), bare.len()), (kinds.len(), kinds.len()));
}

#[test]
fn a_number_that_is_not_known_stays_a_refusal() {
    let later =
        [[21, 1, 2, 3, 0, 0, 0, 0], [2, 0, 0, 7, 0, 0, 0, 0], [18, 0, 1, 1, 0, 0, 0, 0], [19, 0, 1, 1, 9, 0, 0, 0]];
    for words in later {
        let refusal = Refusal::from_words(words);
        assert_eq!(refusal, Refusal::Unknown(words));
        assert_eq!((refusal.number(), refusal.chunk(), refusal.ip()), (words[0], None, None));
    }
}
