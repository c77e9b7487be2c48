//! One call of an entry point as plain data, and its run on either side.

use std::fmt;
use std::panic::catch_unwind;

use tools::inputs::damage::garbage;
use tools::inputs::Grammar;
use tools::random::Random;

use super::rooms::Rooms;

#[derive(Clone, Copy, Debug, PartialEq, Eq)]
pub enum Entry {
    Body,
    Build,
    Parse,
    Many,
    Verify,
    Read,
    Write,
}

impl Entry {
    /// The numbers and the slices of a call, in the order of the arguments. The last slices are those lent for writing.
    fn names(self) -> (&'static [&'static str], &'static [&'static str]) {
        match self {
            Entry::Body => (&["provable", "logic", "rule"], &["rules"]),
            Entry::Build => (&["provable", "logic"], &["rules", "commands", "nodes", "edges", "frames"]),
            Entry::Parse => (
                &["provable", "logic", "allowance"],
                &["rules", "nodes", "edges", "tokens", "frames", "list", "work"],
            ),
            Entry::Many => (
                &["provable", "logic", "allowance"],
                &[
                    "rules",
                    "nodes",
                    "edges",
                    "statements",
                    "frames",
                    "list",
                    "work",
                    "answers",
                    "index",
                ],
            ),
            Entry::Verify => (&["provable", "logic"], &["rules", "tokens", "list", "work"]),
            Entry::Read => (&[], &["bytes", "rules", "statements"]),
            Entry::Write => (&["provable", "logic"], &["rules", "statements", "bytes"]),
        }
    }

    /// How many slices are only read.
    fn read(self) -> usize {
        match self {
            Entry::Body | Entry::Read => 1,
            Entry::Build | Entry::Write => 2,
            Entry::Verify => 3,
            Entry::Parse | Entry::Many => 4,
        }
    }

    /// The slice that is of bytes, if one is.
    fn bytes(self) -> Option<usize> {
        match self {
            Entry::Read => Some(0),
            Entry::Write => Some(2),
            _ => None,
        }
    }
}

/// A slice of bytes has a byte in each of its words here.
#[derive(Clone, Debug)]
pub struct Call {
    pub entry: Entry,
    pub numbers: Vec<u32>,
    pub slices: Vec<Vec<u32>>,
}

impl Call {
    pub fn body(grammar: &Grammar, rule: u32) -> Call {
        Call {
            entry: Entry::Body,
            numbers: vec![grammar.provable, grammar.logic, rule],
            slices: vec![grammar.rules.clone()],
        }
    }

    /// Without commands. Room in words.
    pub fn build(random: &mut Random, grammar: &Grammar, nodes: usize, edges: usize) -> Call {
        Call::build_with(random, grammar, &[], [nodes, edges, 0])
    }

    /// Room in words: for nodes, edges, frames.
    pub fn build_with(random: &mut Random, grammar: &Grammar, commands: &[u32], rooms: [usize; 3]) -> Call {
        let read = [&grammar.rules, commands].map(<[u32]>::to_vec);
        let lent = rooms.map(|length| garbage(random, length));
        Call {
            entry: Entry::Build,
            numbers: vec![grammar.provable, grammar.logic],
            slices: read.into_iter().chain(lent).collect(),
        }
    }

    pub fn parse(random: &mut Random, grammar: &Grammar, tokens: &[u32], rooms: Rooms) -> Call {
        let read = [&grammar.rules, &grammar.nodes, &grammar.edges, tokens];
        let lent = [rooms.frames, rooms.list, rooms.work].map(|length| garbage(random, length));
        Call {
            entry: Entry::Parse,
            numbers: vec![grammar.provable, grammar.logic, rooms.allowance],
            slices: read.map(<[u32]>::to_vec).into_iter().chain(lent).collect(),
        }
    }

    /// Further rooms in words: for answers and index.
    pub fn many(random: &mut Random, grammar: &Grammar, statements: &[u32], rooms: Rooms, more: [usize; 2]) -> Call {
        let mut call = Call::parse(random, grammar, statements, rooms);
        call.entry = Entry::Many;
        call.slices.extend(more.map(|length| garbage(random, length)));
        call
    }

    /// Of a batch the parse of one statement, with the list slice without the words used.
    fn alone(&self, tokens: &[u32], used: usize) -> Call {
        let mut slices = self.slices[..7].to_vec();
        slices[3] = tokens.to_vec();
        slices[5].drain(..used);
        Call {
            entry: Entry::Parse,
            numbers: self.numbers.clone(),
            slices,
        }
    }

    pub fn verify(random: &mut Random, grammar: &Grammar, tokens: &[u32], list: &[u32], work: usize) -> Call {
        Call {
            entry: Entry::Verify,
            numbers: vec![grammar.provable, grammar.logic],
            slices: vec![grammar.rules.clone(), tokens.to_vec(), list.to_vec(), garbage(random, work)],
        }
    }

    pub fn read(random: &mut Random, bytes: &[u8], rules: usize, statements: usize) -> Call {
        let bytes = bytes.iter().copied().map(u32::from).collect();
        Call {
            entry: Entry::Read,
            numbers: vec![],
            slices: vec![bytes, garbage(random, rules), garbage(random, statements)],
        }
    }

    pub fn write(random: &mut Random, grammar: &Grammar, statements: &[u32], room: usize) -> Call {
        let mut call = Call {
            entry: Entry::Write,
            numbers: vec![grammar.provable, grammar.logic],
            slices: vec![grammar.rules.clone(), statements.to_vec(), garbage(random, room)],
        };
        call.cut_bytes();
        call
    }

    /// Leaves a byte of each word in the slice that is of bytes.
    pub fn cut_bytes(&mut self) {
        if let Some(place) = self.entry.bytes() {
            self.slices[place].iter_mut().for_each(|word| *word &= 0xff);
        }
    }
}

impl fmt::Display for Call {
    fn fmt(&self, out: &mut fmt::Formatter<'_>) -> fmt::Result {
        let (numbers, slices) = self.entry.names();
        writeln!(out, "{:?}", self.entry)?;
        for (name, number) in numbers.iter().zip(&self.numbers) {
            writeln!(out, "  {name} = {number}")?;
        }
        for (name, slice) in slices.iter().zip(&self.slices) {
            writeln!(out, "  {name} = {slice:?}")?;
        }
        Ok(())
    }
}

/// What stands on both sides of a slice, in words or bytes; whoever writes beyond the slice changes it.
const FENCE: [u32; 3] = [0x5a, 7, 0xf1];

/// A slice between fences. An empty one has none, so that its pointer leads nowhere.
enum Fenced {
    Words(Vec<u32>),
    Bytes(Vec<u8>),
}

/// A slice as it is lent.
enum Lent<'a> {
    Words(&'a mut [u32]),
    Bytes(&'a mut [u8]),
}

impl Fenced {
    fn of(call: &Call) -> Vec<Fenced> {
        let byte = call.entry.bytes();
        let fenced = |(place, slice): (usize, &Vec<u32>)| {
            let fence: &[u32] = if slice.is_empty() { &[] } else { &FENCE };
            let words = [fence, slice, fence].concat();
            match byte == Some(place) {
                true => Fenced::Bytes(words.into_iter().map(|word| word as u8).collect()),
                false => Fenced::Words(words),
            }
        };
        call.slices.iter().enumerate().map(fenced).collect()
    }

    fn inner(&mut self) -> Lent<'_> {
        match self {
            Fenced::Words(words) => Lent::Words(between(words)),
            Fenced::Bytes(bytes) => Lent::Bytes(between(bytes)),
        }
    }

    fn words(self) -> Vec<u32> {
        match self {
            Fenced::Words(words) => words,
            Fenced::Bytes(bytes) => bytes.into_iter().map(u32::from).collect(),
        }
    }
}

fn between<T>(fenced: &mut [T]) -> &mut [T] {
    match fenced.len() {
        0 => fenced,
        length => &mut fenced[FENCE.len()..length - FENCE.len()],
    }
}

/// All that a call gives back: the fields of its result, and every slice at exit with its fences.
#[derive(Clone, Debug, PartialEq, Eq)]
pub struct Outcome {
    pub fields: Vec<u64>,
    slices: Vec<Vec<u32>>,
}

impl Outcome {
    pub fn slice(&self, place: usize) -> &[u32] {
        let words = &self.slices[place];
        if words.is_empty() {
            return words;
        }
        &words[FENCE.len()..words.len() - FENCE.len()]
    }

    /// The list of a parse; empty if it was refused.
    pub fn list(&self) -> Vec<u32> {
        self.slice(5)[..self.fields[2] as usize].to_vec()
    }

    /// The answers of a batch, four words each; none if it was refused.
    pub fn answers(&self) -> impl Iterator<Item = &[u32]> {
        self.slice(7).chunks_exact(4).take(self.fields[2] as usize)
    }

    /// Whether the fences stand and the slices that are only read are as they were.
    pub fn kept(&self, call: &Call) -> bool {
        let fenced = |words: &Vec<u32>| words.is_empty() || (words.starts_with(&FENCE) && words.ends_with(&FENCE));
        let unchanged = (0..call.entry.read()).all(|place| self.slice(place) == call.slices[place]);
        self.slices.iter().all(fenced) && unchanged
    }
}

impl fmt::Display for Outcome {
    fn fmt(&self, out: &mut fmt::Formatter<'_>) -> fmt::Result {
        writeln!(out, "  fields {:?}", self.fields)?;
        for place in 0..self.slices.len() {
            writeln!(out, "  slice {place} {:?}", self.slice(place))?;
        }
        Ok(())
    }
}

/// Both sides have the same functions and fields, and no type in common.
macro_rules! side {
    ($name:ident, $($words:tt)+) => {
        fn $name(call: &Call) -> Outcome {
            use $($words)+ as words;
            use Lent::{Bytes as B, Words as W};
            let mut fenced = Fenced::of(call);
            let mut slices: Vec<Lent> = fenced.iter_mut().map(Fenced::inner).collect();
            let fields = match (call.entry, &call.numbers[..], &mut slices[..]) {
                (Entry::Body, &[provable, logic, rule], [W(rules)]) => {
                    let words::Stretch { start, length } = words::body(provable, logic, rules, rule);
                    [start, length].map(u64::from).to_vec()
                }
                (Entry::Build, &[provable, logic], [W(rules), W(commands), W(nodes), W(edges), W(frames)]) => {
                    let words::Built { number, nodes, edges } = words::build(provable, logic, rules, commands, nodes, edges, frames);
                    [number, nodes, edges].map(u64::from).to_vec()
                }
                (Entry::Parse, &[provable, logic, allowance], [W(rules), W(nodes), W(edges), W(tokens), W(frames), W(list), W(work)]) => {
                    let words::Answer { number, place, length, passes } =
                        words::parse(provable, logic, rules, nodes, edges, tokens, allowance, frames, list, work);
                    [number, place, length, passes].map(u64::from).to_vec()
                }
                (
                    Entry::Many,
                    &[provable, logic, allowance],
                    [W(rules), W(nodes), W(edges), W(statements), W(frames), W(list), W(work), W(answers), W(index)],
                ) => {
                    let batch = words::parse_many(
                        provable, logic, rules, nodes, edges, statements, allowance, frames, list, work, answers, index,
                    );
                    vec![
                        u64::from(batch.number),
                        batch.place as u64,
                        batch.statements as u64,
                        batch.words as u64,
                    ]
                }
                (Entry::Verify, &[provable, logic], [W(rules), W(tokens), W(list), W(work)]) => {
                    let words::Answer { number, place, length, passes } = words::verify(provable, logic, rules, tokens, list, work);
                    [number, place, length, passes].map(u64::from).to_vec()
                }
                (Entry::Read, &[], [B(bytes), W(rules), W(statements)]) => {
                    let read = words::package_read(bytes, rules, statements);
                    let counts = [read.place, read.rules, read.statements, read.words].map(|count| count as u64);
                    [[read.number, read.provable, read.logic].map(u64::from).to_vec(), counts.to_vec()].concat()
                }
                (Entry::Write, &[provable, logic], [W(rules), W(statements), B(bytes)]) => {
                    let written = words::package_write(provable, logic, rules, statements, bytes);
                    vec![u64::from(written.number), written.place as u64, written.length as u64]
                }
                _ => panic!("{call} is not a call"),
            };
            Outcome {
                fields,
                slices: fenced.into_iter().map(Fenced::words).collect(),
            }
        }
    };
}

side!(library, jiehkavon::words);
side!(ordinary, plain::words);

/// What the two sides gave back. The ordinary one may also panic, which is a disagreement like any other.
pub struct Both {
    pub library: Outcome,
    pub ordinary: Option<Outcome>,
}

impl Both {
    pub fn of(call: &Call) -> Both {
        Both {
            library: library(call),
            ordinary: catch_unwind(|| ordinary(call)).ok(),
        }
    }

    pub fn agree(&self, call: &Call) -> bool {
        let alone = call.entry != Entry::Many || self.library.fields[0] != 0 || each_alone(call, &self.library);
        self.ordinary.as_ref() == Some(&self.library) && self.library.kept(call) && alone
    }
}

/// Whether of each statement of a batch the library's single parse says the same, with the part of the list slice that is free by then.
fn each_alone(call: &Call, batch: &Outcome) -> bool {
    let statements = plain::counted(&call.slices[3]).unwrap_or_default();
    let (mut used, mut same) = (0, statements.len() as u64 == batch.fields[2]);
    for (tokens, answer) in statements.into_iter().zip(batch.answers()) {
        let parsed = library(&call.alone(tokens, used));
        let list = parsed.list();
        same &= parsed.fields.iter().copied().eq(answer.iter().map(|&word| u64::from(word)));
        same &= batch.slice(5)[used..].starts_with(&list);
        used += list.len();
    }
    same && used as u64 == batch.fields[3]
}

#[cfg(test)]
mod tests {
    use super::{each_alone, library, ordinary, Call, Entry, FENCE};

    #[test]
    fn writing_where_nothing_was_lent_is_seen() {
        let call = Call {
            entry: Entry::Build,
            numbers: vec![1, 2],
            slices: vec![vec![2, 1, 0, 10, 0], vec![], vec![9; 3], vec![], vec![]],
        };
        let outcome = ordinary(&call);
        assert!(outcome.kept(&call) && outcome.slice(2) == [0; 3]);
        let last = outcome.slices[2].len() - 1;
        for (slice, place, kept) in [(0, FENCE.len(), false), (2, FENCE.len(), true), (2, 0, false), (2, last, false)] {
            let mut changed = outcome.clone();
            changed.slices[slice][place] += 1;
            assert_eq!(changed.kept(&call), kept);
        }
    }

    #[test]
    fn an_answer_that_is_not_the_single_parse_is_seen() {
        let edge = [&[0, 0, 10, 1], &[0; 12][..]].concat();
        let lent = [0, 3, 3, 8, 4].map(|length| vec![9; length]);
        let read = [vec![2, 1, 0, 10, 0], vec![0, 1], edge, vec![2, 1, 10, 3, 1, 10, 10]];
        let call = Call {
            entry: Entry::Many,
            numbers: vec![1, 2, 9],
            slices: read.into_iter().chain(lent).collect(),
        };
        let outcome = library(&call);
        assert!(outcome.kept(&call) && each_alone(&call, &outcome));
        assert_eq!((&outcome.fields[..], outcome.slice(5)), (&[0, 0, 2, 1][..], &[1, 0, 0][..]));
        // a list word, and each word of both answers
        let places = [(5, 0)].into_iter().chain((0..8).map(|word| (7, word)));
        for (slice, word) in places {
            let mut changed = outcome.clone();
            changed.slices[slice][FENCE.len() + word] += 1;
            assert!(!each_alone(&call, &changed), "{slice}: {word}");
        }
        for field in [2, 3] {
            let mut changed = outcome.clone();
            changed.fields[field] -= 1;
            assert!(!each_alone(&call, &changed));
        }
    }

    #[test]
    fn bytes_are_lent_between_fences_too() {
        let call = Call {
            entry: Entry::Write,
            numbers: vec![1, 2],
            slices: vec![vec![], vec![], vec![9; 21]],
        };
        let outcome = ordinary(&call);
        assert!(outcome.kept(&call) && outcome.slice(2).starts_with(&[10, 0, 0, 0, 1, 0, 1]));
        assert_eq!((&outcome.fields[..], outcome.slice(2)[20]), (&[0, 0, 20][..], 0));
        let mut changed = outcome.clone();
        changed.slices[2][FENCE.len() + 21] += 1;
        assert!(!changed.kept(&call));
    }
}
