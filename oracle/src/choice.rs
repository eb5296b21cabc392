//! A choice of listings: of each class as many as wanted, and besides all that reach what too few earlier ones do.

use crate::generator::Size;
use crate::listing::MAX_OPS;
use crate::survey::{self, Survey};
use crate::whole;
use crate::words::Table;
use std::collections::BTreeMap;

/// What a listing is counted as.
#[derive(Clone, PartialEq, Eq, PartialOrd, Ord)]
pub enum Class {
    /// Accepted, with at most so many instructions.
    Accepted(usize),
    /// Refused for a table that is overfull: the beginning of its lines.
    Overfull(&'static str),
    /// Refused otherwise, as `Refusal::kind` has it.
    Refused(String),
}

/// The sizes by which accepted listings are counted.
const SIZES: [usize; 6] = [5, 20, 60, 600, MAX_OPS - 1, MAX_OPS];

impl Class {
    pub fn of(bytes: &[u8]) -> Class {
        match whole::check(bytes) {
            Ok(marks) => {
                let instructions: usize = marks.iter().map(Vec::len).sum();
                let size = SIZES.into_iter().find(|most| instructions <= *most);
                Class::Accepted(size.expect("a listing has no more instructions"))
            }
            Err(refusal) if refusal.passed_limit() == Some(2) => Class::Overfull(overfull(bytes)),
            Err(refusal) => Class::Refused(refusal.kind()),
        }
    }
}

/// The table that a listing overfills.
pub fn overfull(bytes: &[u8]) -> &'static str {
    let lines = |table: &Table| {
        bytes.split(|byte| *byte == b'\n').filter(|line| line.starts_with(table.begin().as_bytes())).count()
    };
    let overfull = Table::ALL.into_iter().find(|table| lines(table) > table.most());
    overfull.map_or("parameters", |table| table.begin())
}

pub struct Choice {
    pub listings: Vec<Vec<u8>>,
    /// How many of a class are wanted.
    pub wanted: fn(&Class) -> usize,
    classes: BTreeMap<Class, usize>,
    /// What a full survey must reach and too few listings so far do: how many more must.
    pub missing: BTreeMap<String, usize>,
}

impl Choice {
    /// All that a full survey must reach is to be reached by so many listings.
    pub fn new(wanted: fn(&Class) -> usize, times: usize) -> Choice {
        let missing = survey::wanted(Size::Any).into_iter().map(|what| (what, times)).collect();
        Choice { listings: Vec::new(), wanted, classes: BTreeMap::new(), missing }
    }

    /// Takes the listing where its class has too few, or where it reaches what too few do.
    pub fn offer(&mut self, listing: Vec<u8>) {
        let class = Class::of(&listing);
        let is_wanted = self.classes.get(&class).copied().unwrap_or(0) < (self.wanted)(&class);
        // What a listing reaches is costly to find out.
        if !is_wanted && self.missing.is_empty() {
            return;
        }
        if is_wanted || Survey::of(&listing).reached().iter().any(|what| self.missing.contains_key(what)) {
            self.take(listing);
        }
    }

    /// Takes the listing in any case.
    pub fn take(&mut self, listing: Vec<u8>) {
        *self.classes.entry(Class::of(&listing)).or_default() += 1;
        for what in Survey::of(&listing).reached() {
            if let Some(times) = self.missing.get_mut(&what) {
                *times = times.saturating_sub(1);
            }
        }
        self.missing.retain(|_, times| *times > 0);
        self.listings.push(listing);
    }
}
