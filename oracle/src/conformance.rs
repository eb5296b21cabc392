//! The conformance kit: listings with the whole text that `stagecheck` prints for each. Which listings it has, and
//! whether texts are those of the second walk and, where it has an answer, of the original.

use crate::answer::answer;
use crate::choice::{Choice, Class};
use crate::forms;
use crate::generator::{self, Size};
use crate::listing::{MAX_BYTES, MAX_OPS, OP};
use crate::replay;
use crate::survey::{self, Survey, count};
use crate::whole::{self, whole};
use std::collections::{BTreeMap, BTreeSet};

/// The seed of the generated listings.
const SEED: u64 = 11;
/// Small listings, short ones and, for what is still missing, any are looked for among so many each.
const SMALL_AMONG: u64 = 5_000;
const SHORT_AMONG: u64 = 30_000;
const ANY_AMONG: u64 = 60_000;
/// The most bytes of a short listing.
const SHORT_BYTES: usize = 1_500;
/// What a full survey must reach is reached by so many listings.
const TIMES: usize = 3;
/// A controller is slower than this machine: a walk examines at most so many instructions, all passes together.
pub const MOST_EXAMINED: u64 = 20_000;

/// The listings of the kit: the given ones, the fixed list's, those made by rule, and generated ones.
pub fn chosen(given: &[Vec<u8>]) -> Vec<Vec<u8>> {
    let mut choice = Choice::new(wanted_short, TIMES);
    let mut seen = BTreeSet::new();
    for listing in given.iter().cloned().chain(replay::chosen()).chain(forms::listings()) {
        if is_quick(&listing) && seen.insert(listing.clone()) {
            choice.take(listing);
        }
    }
    let small = (0..SMALL_AMONG).map(|number| generator::listing(SEED, number, Size::Small));
    let any = |among| (0..among).map(|number| generator::listing(SEED, number, Size::Any));
    for listing in small.chain(any(SHORT_AMONG).filter(|listing| listing.len() <= SHORT_BYTES)) {
        if is_quick(&listing) && seen.insert(listing.clone()) {
            choice.offer(listing);
        }
    }
    choice.wanted = wanted_long;
    for listing in any(ANY_AMONG).filter(|listing| (SHORT_BYTES + 1..=MAX_BYTES + 1).contains(&listing.len())) {
        if is_quick(&listing) && seen.insert(listing.clone()) {
            choice.offer(listing);
        }
    }
    assert!(choice.missing.is_empty(), "not reached: {:?}", choice.missing);
    choice.listings
}

/// How many short listings of a class are wanted.
fn wanted_short(class: &Class) -> usize {
    match class {
        Class::Accepted(5) => 120,
        Class::Accepted(20 | 60) => 250,
        Class::Accepted(_) => 40,
        Class::Overfull(_) => 10,
        Class::Refused(kind) if kind == "refused  3" => 120,
        Class::Refused(_) => 50,
    }
}

/// How many of any length.
fn wanted_long(class: &Class) -> usize {
    match class {
        Class::Accepted(MAX_OPS) => 1,
        Class::Accepted(600) => 60,
        Class::Accepted(_) => 3,
        Class::Overfull(OP) => 1,
        Class::Overfull(_) => 2,
        Class::Refused(kind) if kind == "refused  2, limit 1" => 2,
        Class::Refused(_) => 45,
    }
}

/// Whether a controller can be asked to walk it.
pub fn is_quick(listing: &[u8]) -> bool {
    Survey::of(listing).examined() <= MOST_EXAMINED
}

/// The first `count` quick listings of a seed.
pub fn fresh(seed: u64, count: usize) -> impl Iterator<Item = Vec<u8>> {
    (0..).map(move |number| generator::listing(seed, number, Size::Any)).filter(|listing| is_quick(listing)).take(count)
}

// ── Agreement ────────────────────────────────────────────────────────────────────────────

/// So many listings at least have each answer; those with limit 1 are too long to be many.
const LEAST_OF_A_KIND: u64 = 40;

/// What listings with their texts come to.
#[derive(Default)]
pub struct Kit {
    pub bytes: usize,
    pub with_original: u64,
    /// How many listings have each answer, and how many reach what a survey wants.
    pub kinds: BTreeMap<String, u64>,
    reached: BTreeMap<String, u64>,
    pub faults: Vec<String>,
}

impl Kit {
    /// Adds a listing, and its text where it has one.
    pub fn add(&mut self, name: &str, listing: &[u8], text: Option<&[u8]>) {
        self.bytes += listing.len() + text.map_or(0, <[u8]>::len);
        let kind = whole::check(listing).map_or_else(|refusal| refusal.kind(), |_| "accepted".to_string());
        count(&mut self.kinds, &kind);
        let mut survey = Survey::of(listing);
        survey.reached().iter().for_each(|what| count(&mut self.reached, what));
        self.faults.extend(survey.faults.drain(..).map(|fault| format!("{name}: {fault}")));
        if survey.examined() > MOST_EXAMINED {
            self.faults.push(format!("{name}: over {MOST_EXAMINED} instructions are examined"));
        }
        let expected = whole(listing);
        if text != Some(expected.as_bytes()) {
            self.faults.push(format!("{name}: the answer is missing, or not that of the second walk"));
        }
        let answer = answer(listing);
        if answer.words().is_some() && expected.lines().next() != Some(&answer.to_string()) {
            self.faults.push(format!("{name}: the original says {answer}"));
        }
        self.with_original += u64::from(replay::original(listing).is_some());
    }

    /// What the fixed kit must have and these listings do not.
    pub fn missing(&self) -> Vec<String> {
        let times = |what: &String| self.reached.get(what).copied().unwrap_or(0);
        let wanted = survey::wanted(Size::Any);
        let rare = wanted.into_iter().filter(|what| times(what) < TIMES as u64);
        let few = self.kinds.iter().filter(|(kind, times)| **times < LEAST_OF_A_KIND && *kind != "refused  2, limit 1");
        rare.chain(few.map(|(kind, _)| kind.clone())).map(|what| format!("too few: {what}")).collect()
    }
}
