//! The listings of examples/ and oracle/cases/, against the stored texts of the program; controllers without floats; and
//! a call in a small thread.

mod common;

use common::{listings, repository};
use stagecheck::{Checker, Refusal, check};

/// The program's text without chunk and index of each instruction, which an acceptance does not have.
fn stored(text: &str) -> Vec<String> {
    let (first, rest) = text.split_once('\n').expect("a line");
    let instructions = rest.lines().map(|line| line.splitn(3, ' ').nth(2).expect("height and mark").to_string());
    std::iter::once(first.to_string()).chain(instructions).collect()
}

fn given(listing: &[u8], checker: &mut Checker) -> Vec<String> {
    let answer = checker.check(listing);
    assert_eq!(answer, check(listing), "a kept checker and a new one differ");
    match answer {
        Ok(accepted) => {
            let first = format!("accepted {} {}", accepted.chunks(), accepted.instructions());
            let lines = accepted.heights().iter().zip(accepted.blind()).map(|(height, blind)| {
                let height = height.map_or("-".to_string(), |height| height.to_string());
                format!("{height} {}", if *blind { "blind" } else { "plain" })
            });
            std::iter::once(first).chain(lines).collect()
        }
        Err(refusal) => {
            let numbers = refusal.numbers().iter().map(u64::to_string).collect::<Vec<_>>();
            vec![format!("refused {}", numbers.join(" "))]
        }
    }
}

#[test]
fn examples_and_cases_are_as_stored() {
    let mut checker = Checker::new();
    for (listing, text) in [listings("examples", "expected"), listings("oracle/cases", "whole")].concat() {
        assert_eq!(given(&listing, &mut checker), stored(&text));
    }
}

#[test]
fn a_refusal_is_an_error() {
    let refusal: Box<dyn std::error::Error> = check(b"").unwrap_err().into();
    assert_eq!(refusal.to_string(), "after 0 lines comes one that cannot follow, or the end is missing");
    assert_eq!(refusal.downcast_ref(), Some(&Refusal::CannotFollow { lines: 0 }));
}

/// The numbers of a refusal; none for an acceptance.
fn numbers(listing: &str) -> Vec<u64> {
    check(listing.as_bytes()).err().map_or(Vec::new(), |refusal| refusal.numbers())
}

/// What kind 5 gives where F is 0, and what the same listing gives where it is 8.
#[test]
fn without_floats_kind_5_is_not_known() {
    let rows: [(&str, &[u64], &[u64]); 5] = [
        ("6 0 0 8 9\n(chunk 0\n(op GetData 0)\n(op GetField Flat 0 5)\n)\n)\n", &[1, 0, 3], &[]),
        ("6 100 0 8 9\n(slot shared)\n(shared 3 5 0)\n)\n", &[16, 0, 0, 3, 0, 100], &[]),
        (
            "6 0 0 8 9\n(native (scalar 5))\n(chunk 0\n(op CallExternalNative 0 0)\n(op GetField Flat 0 3)\n)\n)\n",
            &[],
            &[7, 0, 1],
        ),
        ("6 0 0 8 9\n(chunk 0\n(const 5)\n(op Const 0)\n(op NewComposite Flat 0 1 99)\n)\n)\n", &[], &[8, 0, 1, 99, 8]),
        ("6 0 0 8 9\n(chunk 0\n(op PushImmediate 0)\n(op IntToFloat)\n)\n)\n", &[], &[]),
    ];
    for (rest, without, with) in rows {
        assert_eq!(numbers(&format!("(module 8 0 {rest}")), without, "F is 0: {rest}");
        assert_eq!(numbers(&format!("(module 8 8 {rest}")), with, "F is 8: {rest}");
    }
    assert_eq!(numbers("(module 8 0 6 0 0 8 9\n)\n"), []);
    assert_eq!(numbers("(module 0 0 6 0 0 8 9\n)\n"), [1, 0, 0]);
}

/// The deepest nest of loops, in a thread of 1 MiB.
#[test]
fn one_mebibyte_of_stack_is_enough() {
    let listing = std::fs::read(repository().join("bench/eight_loops.listing")).expect("a listing");
    let thread = std::thread::Builder::new().stack_size(1 << 20);
    let answer = thread.spawn(move || check(&listing)).expect("a thread").join().expect("an answer");
    assert_eq!(answer.expect("it is accepted").instructions(), 33);
}
