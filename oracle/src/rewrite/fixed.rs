//! The fixed list of tables to be written, with the answers of each: `oracle/cases/written`.

use crate::words::{self, Table, Words};

const CASES: &str = include_str!("../../cases/written");

/// One case: lines that tables have room for, words of the tables that are others, and for each length of a buffer the
/// answer.
#[derive(Default)]
pub struct Case {
    pub name: String,
    pub lines: String,
    changes: Vec<(usize, u64)>,
    pub calls: Vec<(usize, Vec<u64>)>,
}

pub fn cases() -> Vec<Case> {
    let mut cases: Vec<Case> = Vec::new();
    for line in CASES.lines().filter(|line| !line.is_empty() && !line.starts_with('#')) {
        if let Some(name) = line.strip_prefix("case ") {
            cases.push(Case { name: name.to_string(), ..Case::default() });
            continue;
        }
        let case = cases.last_mut().expect("a case has its name first");
        let is_read = case.read(line);
        assert!(is_read.is_some(), "{line}: no line of a case");
    }
    cases
}

impl Case {
    fn read(&mut self, line: &str) -> Option<()> {
        if line.starts_with(['(', ')']) {
            let (line, times) = line.split_once(" * ").unwrap_or((line, "1"));
            self.lines.push_str(&format!("{line}\n").repeat(times.parse().ok()?));
        } else if let Some((room, answer)) = line.split_once(" bytes: ") {
            let answer: Option<Vec<u64>> = answer.split(' ').map(|word| word.parse().ok()).collect();
            self.calls.push((room.parse().ok()?, answer?));
        } else {
            let (at, value) = line.split_once(" = ")?;
            self.changes.push((word_at(at)?, value.parse().ok()?));
        }
        Some(())
    }

    /// Puts the case into tables. What is not in use stays.
    pub fn put(&self, words: &mut Words) {
        words::put(&self.lines, words);
        self.changes.iter().for_each(|(at, value)| words[*at] = *value);
    }
}

/// The place that `rows of TABLE` or `TABLE ROW WORD` names.
fn word_at(text: &str) -> Option<usize> {
    let table_of = |name: &str| Table::ALL.into_iter().find(|table| table.begin().strip_prefix('(') == Some(name));
    if let Some(name) = text.strip_prefix("rows of ") {
        return table_of(name).map(Table::count);
    }
    let mut parts = text.split(' ');
    let table = table_of(parts.next()?)?;
    Some(table.at(parts.next()?.parse().ok()?, parts.next()?.parse().ok()?))
}
