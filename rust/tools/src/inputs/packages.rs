//! Rule packages: good ones, and damage to their records and bytes.

use super::damage::word;
use super::rules::{Rule, RuleSet};
use crate::random::Random;

/// A record as it is written: a kind and the bytes of its body.
#[derive(Clone, Debug, PartialEq, Eq)]
pub struct Record {
    pub kind: u16,
    pub body: Vec<u8>,
}

impl Record {
    pub fn new(kind: u16, words: &[u32]) -> Record {
        let body = words.iter().flat_map(|word| word.to_le_bytes()).collect();
        Record { kind, body }
    }

    /// With a length of any kind before it.
    fn with_length(&self, length: u32) -> Vec<u8> {
        [&length.to_le_bytes()[..], &self.kind.to_le_bytes(), &self.body].concat()
    }

    fn length(&self) -> u32 {
        self.body.len() as u32 + 2
    }

    /// The bytes of an item, in a rule.
    fn item_bytes(&self) -> Option<usize> {
        match self.kind {
            2 => Some(12),
            5 => Some(8),
            _ => None,
        }
    }

    /// The words that the record has once it is read, if it is whole and its body has the right size: those of rules, and those of statements.
    pub fn words(&self) -> (usize, usize) {
        match (self.kind, self.item_bytes()) {
            (_, Some(item)) => (2 + 3 * (self.body.len().saturating_sub(8) / item), 0),
            (3, _) => (0, 1 + self.body.len() / 4),
            _ => (0, 0),
        }
    }
}

/// The records of a good package.
pub fn records(set: &RuleSet, statements: &[Vec<u32>]) -> Vec<Record> {
    records_of(set, statements, |_| false)
}

/// The same with some rules in the old form.
pub fn mixed_records(random: &mut Random, set: &RuleSet, statements: &[Vec<u32>]) -> Vec<Record> {
    let share = random.pick(&[20, 50, 100]);
    records_of(set, statements, |_| random.chance(share))
}

fn records_of(set: &RuleSet, statements: &[Vec<u32>], mut old: impl FnMut(&Rule) -> bool) -> Vec<Record> {
    let rule = |rule: &Rule| match old(rule) {
        true => Record::new(5, &rule.old_words()),
        false => Record::new(2, &rule.words()),
    };
    let statement = |tokens: &Vec<u32>| Record::new(3, tokens);
    let mut records = vec![Record::new(1, &[set.provable, set.logic])];
    records.extend(set.rules.iter().map(rule));
    records.extend(statements.iter().map(statement));
    records.push(Record::new(4, &[]));
    records
}

pub fn bytes(records: &[Record]) -> Vec<u8> {
    records.iter().flat_map(|record| record.with_length(record.length())).collect()
}

/// Statements as they lie in one slice: for each the number of its tokens, then its tokens.
pub fn counted(statements: &[Vec<u32>]) -> Vec<u32> {
    let one = |tokens: &Vec<u32>| [&[tokens.len() as u32][..], tokens].concat();
    statements.iter().flat_map(one).collect()
}

/// Records swapped, dropped, doubled, put in, or of another kind.
pub fn rearrange(random: &mut Random, records: &mut Vec<Record>) {
    if records.is_empty() {
        return records.push(any_record(random));
    }
    let (place, other) = (random.below(records.len()), random.below(records.len()));
    match random.below(5) {
        0 => records.swap(place, other),
        1 => drop(records.remove(place)),
        2 => records.insert(other, records[place].clone()),
        3 => records.insert(place, any_record(random)),
        _ => records[place].kind = any_kind(random),
    }
}

/// Mostly one that there is, or shares a byte with one.
fn any_kind(random: &mut Random) -> u16 {
    let near = [
        0,
        1,
        2,
        3,
        4,
        5,
        6,
        0x0100,
        0x0101,
        0x0201,
        0x0301,
        0x0401,
        0x0402,
        0x0501,
        u16::MAX,
    ];
    if random.chance(90) {
        random.pick(&near)
    } else {
        random.word() as u16
    }
}

fn any_record(random: &mut Random) -> Record {
    let words: Vec<u32> = (0..random.below(6)).map(|_| word(random)).collect();
    let mut record = Record::new(any_kind(random), &words);
    record
        .body
        .truncate(record.body.len().saturating_sub(random.pick(&[0, 0, 0, 1, 2, 3])));
    record
}

/// Nothing but records, most of them of a kind that there is.
pub fn any_records(random: &mut Random) -> Vec<u8> {
    let records: Vec<Record> = (0..random.between(0..=5)).map(|_| any_record(random)).collect();
    bytes(&records)
}

pub fn any_bytes(random: &mut Random) -> Vec<u8> {
    let small = random.chance(50);
    let byte = |random: &mut Random| if small { random.below(5) as u8 } else { random.word() as u8 };
    (0..random.between(0..=60)).map(|_| byte(random)).collect()
}

/// A package with one record's length at an end of its range, or just past it.
pub fn with_length_fault(random: &mut Random, records: &[Record]) -> Vec<u8> {
    let place = random.below(records.len());
    let (before, rest) = records.split_at(place);
    let (record, after) = (&rest[0], bytes(&rest[1..]));
    let (own, left) = (record.length(), record.length() + after.len() as u32);
    let lengths = [
        0,
        1,
        2,
        3,
        own - 1,
        own + 1,
        own - 2,
        own + 4,
        left - 1,
        left,
        left + 1,
        1 << 31,
        u32::MAX - 1,
        u32::MAX,
    ];
    [bytes(before), record.with_length(random.pick(&lengths)), after].concat()
}

/// A package in which one rule says that it has another number of items. Some of these wrap around to the size that the rule has.
pub fn with_item_fault(random: &mut Random, records: &[Record]) -> Option<Vec<u8>> {
    let rules: Vec<usize> = (0..records.len()).filter(|&place| records[place].item_bytes().is_some()).collect();
    if rules.is_empty() {
        return None;
    }
    let mut records = records.to_vec();
    let rule = &mut records[random.pick(&rules)];
    let item = rule.item_bytes()?;
    let items = (rule.body.len() - 8) as u32 / item as u32;
    let wrong = [
        0,
        items.wrapping_sub(1),
        items + 1,
        32,
        33,
        items + (1 << 29),
        items + (1 << 30),
        items + (1 << 31),
        u32::MAX,
    ];
    rule.body[4..8].copy_from_slice(&random.pick(&wrong).to_le_bytes());
    // At times the body is made as long as the number says.
    let said = u32::from_le_bytes([rule.body[4], rule.body[5], rule.body[6], rule.body[7]]);
    if said <= 40 && random.chance(50) {
        rule.body.resize(8 + item * said as usize, 0);
    }
    Some(bytes(&records))
}

/// Changes one byte: to any, by one, or one bit of it.
pub fn change_byte(random: &mut Random, package: &mut [u8], place: usize) {
    let bit = 1 << random.below(8);
    package[place] = match random.below(4) {
        0 => random.word() as u8,
        1 => package[place].wrapping_add(1),
        2 => package[place].wrapping_sub(1),
        _ => package[place] ^ bit,
    };
}
