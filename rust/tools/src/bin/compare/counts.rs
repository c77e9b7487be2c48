//! How often each entry point gave each answer.

use std::fmt;

use super::call::{Entry, Outcome};

/// Numbers up to 23.
const NUMBERS: usize = 24;
const ENTRIES: [Entry; 7] = [
    Entry::Body,
    Entry::Build,
    Entry::Parse,
    Entry::Many,
    Entry::Verify,
    Entry::Read,
    Entry::Write,
];
/// The answers that a statement of a batch can have.
const STATEMENT: [usize; 9] = [0, 1, 2, 3, 4, 5, 6, 7, 9];

/// For `body`, which has no number, 0 counts bodies and 1 empty stretches. The statements of batches are counted apart.
#[derive(Default)]
pub struct Counts {
    entries: [[u64; NUMBERS]; ENTRIES.len()],
    statements: [u64; NUMBERS],
}

/// The answers that an entry point can give.
fn answers(entry: Entry) -> &'static [usize] {
    match entry {
        Entry::Body => &[0, 1],
        Entry::Build => &[0, 6, 10, 11, 12, 13, 14, 15, 16, 17],
        Entry::Parse => &[0, 1, 2, 3, 4, 5, 6, 7, 8, 9, 10],
        Entry::Many => &[0, 7, 8, 10, 22],
        Entry::Verify => &[0, 1, 4, 7, 9, 10],
        Entry::Read => &[0, 7, 10, 20, 21, 22, 23],
        Entry::Write => &[0, 7, 10, 22],
    }
}

impl Counts {
    pub fn add(&mut self, entry: Entry, outcome: &Outcome) {
        let answer = match entry {
            Entry::Body => (outcome.fields[1] == 0) as usize,
            _ => outcome.fields[0] as usize,
        };
        self.entries[entry as usize][answer] += 1;
        if entry == Entry::Many {
            outcome.answers().for_each(|answer| self.statements[answer[0] as usize] += 1);
        }
    }

    pub fn all(&self) -> u64 {
        self.entries.iter().flatten().sum()
    }

    /// The answers that never came, also of a statement in a batch.
    pub fn missing(&self) -> Vec<(String, usize)> {
        let lacking = |name: String, possible: &[usize], came: &[u64; NUMBERS]| -> Vec<(String, usize)> {
            let absent = possible.iter().filter(|&&answer| came[answer] == 0);
            absent.map(|&answer| (name.clone(), answer)).collect()
        };
        let entries = ENTRIES.map(|entry| lacking(format!("{entry:?}"), answers(entry), &self.entries[entry as usize]));
        let statements = lacking("Statement".to_owned(), &STATEMENT, &self.statements);
        [entries.concat(), statements].concat()
    }
}

/// A row: how often each number came.
fn write_row(out: &mut fmt::Formatter<'_>, name: &str, counts: &[u64; NUMBERS]) -> fmt::Result {
    let came: Vec<String> = (0..NUMBERS)
        .filter(|&number| counts[number] > 0)
        .map(|number| format!("{number}: {}", counts[number]))
        .collect();
    writeln!(out, "{name:10}{:>10}   {}", counts.iter().sum::<u64>(), came.join("  "))
}

impl fmt::Display for Counts {
    fn fmt(&self, out: &mut fmt::Formatter<'_>) -> fmt::Result {
        for entry in ENTRIES {
            write_row(out, &format!("{entry:?}").to_lowercase(), &self.entries[entry as usize])?;
        }
        write_row(out, "statement", &self.statements)
    }
}
