//! Rule packages: typecodes, rules and statements as one file of records.

use crate::numbers::Refusal;
use crate::rules::{Rules, ITEM};

/// Bytes of a word, which a record's length is too.
const WORD: usize = 4;
/// Bytes of a kind; a record's length counts them.
const KIND: usize = 2;
/// Words of an item in a rule of the old form: no variable.
const OLD_ITEM: usize = 2;

#[derive(Clone, Copy, PartialEq, Eq)]
enum Kind {
    Typecodes = 1,
    Rule = 2,
    Statement = 3,
    End = 4,
    OldRule = 5,
}

impl Kind {
    fn read(bytes: [u8; KIND]) -> Option<Kind> {
        let kinds = [Kind::Typecodes, Kind::Rule, Kind::Statement, Kind::End, Kind::OldRule];
        kinds.into_iter().find(|&kind| (kind as u16).to_le_bytes() == bytes)
    }

    fn has_size_of(self, body: &[u8]) -> bool {
        match self {
            Kind::Typecodes => body.len() == 2 * WORD,
            Kind::Rule => rule_size(body, ITEM) == Some(body.len() as u64),
            Kind::OldRule => rule_size(body, OLD_ITEM) == Some(body.len() as u64),
            Kind::Statement => body.chunks_exact(WORD).remainder().is_empty(),
            Kind::End => body.is_empty(),
        }
    }

    /// The typecodes come first and once, and a rule before all statements.
    fn may_follow(self, last: Option<Kind>) -> bool {
        match (last, self) {
            (None, kind) => kind == Kind::Typecodes,
            (Some(_), Kind::Typecodes) | (Some(Kind::Statement), Kind::Rule | Kind::OldRule) => false,
            _ => true,
        }
    }
}

/// How many bytes a rule has that begins with these, with so many words for an item: its second word says so, whatever it says. Nothing if
/// there is no such word.
fn rule_size(body: &[u8], item: usize) -> Option<u64> {
    let items = words(body).nth(1)?;
    Some(WORD as u64 * (2 + item as u64 * u64::from(items)))
}

/// The words of a rule of the old form, with the variables 1, 2, 3 and so on in its slots.
fn with_variables(body: &[u8]) -> Vec<u32> {
    let (head, items) = body.split_at(2 * WORD);
    let mut rule: Vec<u32> = words(head).collect();
    let mut slots = 0;
    for item in items.chunks_exact(OLD_ITEM * WORD) {
        let slot = words(item).next() == Some(1);
        slots += slot as u32;
        rule.extend(words(item));
        rule.push(if slot { slots } else { 0 });
    }
    rule
}

fn words(bytes: &[u8]) -> impl Iterator<Item = u32> + '_ {
    bytes
        .chunks_exact(WORD)
        .map(|word| u32::from_le_bytes([word[0], word[1], word[2], word[3]]))
}

/// The body and kind of the record that the bytes begin with, and the bytes after it; nothing if it isn't whole.
fn cut(bytes: &[u8]) -> Option<([u8; KIND], &[u8], &[u8])> {
    let (length, rest) = bytes.split_first_chunk::<WORD>()?;
    let length = u32::from_le_bytes(*length) as usize;
    let (record, rest) = (rest.get(..length)?, &rest[length..]);
    let (&kind, body) = record.split_first_chunk::<KIND>()?;
    Some((kind, body, rest))
}

/// What the records of a package say. Its rules may be bad.
#[derive(Clone, Debug, Default, PartialEq, Eq)]
pub struct Contents {
    pub provable: u32,
    pub logic: u32,
    pub rules: Vec<u32>,
    /// Counted words: for each statement the number of its tokens, then its tokens.
    pub statements: Vec<u32>,
    /// How many statements there are.
    pub count: usize,
}

impl Contents {
    pub fn read(bytes: &[u8]) -> Result<Contents, Refusal> {
        let mut contents = Contents::default();
        let mut left = bytes;
        let mut last = None;
        for record in 0.. {
            match (last == Some(Kind::End), left.is_empty()) {
                (true, true) => break,
                (false, false) => {}
                // No byte before the end record, or one after it.
                _ => return Err(Refusal::WrongOrder(record)),
            }
            let (kind, body, rest) = cut(left).ok_or(Refusal::BadLength(record))?;
            let kind = Kind::read(kind).ok_or(Refusal::UnknownKind(record))?;
            if !kind.has_size_of(body) {
                return Err(Refusal::WrongSize(record));
            }
            if !kind.may_follow(last) {
                return Err(Refusal::WrongOrder(record));
            }
            contents.take(kind, body);
            (left, last) = (rest, Some(kind));
        }
        Ok(contents)
    }

    fn take(&mut self, kind: Kind, body: &[u8]) {
        let mut words = words(body);
        match kind {
            Kind::Typecodes => (self.provable, self.logic) = words.next().zip(words.next()).unwrap_or_default(),
            Kind::Rule => self.rules.extend(words),
            Kind::OldRule => self.rules.extend(with_variables(body)),
            Kind::Statement => {
                self.count += 1;
                self.statements.push((body.len() / WORD) as u32);
                self.statements.extend(words);
            }
            Kind::End => {}
        }
    }
}

/// The statements of counted words; if the last is not whole, how many there are before it.
pub fn counted(words: &[u32]) -> Result<Vec<&[u32]>, usize> {
    let mut statements = Vec::new();
    let mut left = words;
    while let Some((&count, rest)) = left.split_first() {
        let statement = rest.get(..count as usize).ok_or(statements.len())?;
        statements.push(statement);
        left = &rest[statement.len()..];
    }
    Ok(statements)
}

/// The bytes of a package, with no rule of the old form; 22 if the statements aren't whole, or one has no length that a record can tell.
pub fn packed(rules: &Rules, rule_words: &[u32], statements: &[u32]) -> Result<Vec<u8>, Refusal> {
    let typecodes = [rules.typecodes.provable.word(), rules.typecodes.logic.word()];
    let statements = counted(statements).map_err(|_| Refusal::WrongSize(0))?;
    let mut package = Vec::new();
    add(&mut package, Kind::Typecodes, &typecodes)?;
    for (_, rule) in rules.numbered() {
        // The result and the length stand before the body.
        add(&mut package, Kind::Rule, &rule_words[rule.start - 2..rule.start + rule.width()])?;
    }
    for statement in statements {
        add(&mut package, Kind::Statement, statement)?;
    }
    add(&mut package, Kind::End, &[])?;
    Ok(package)
}

fn add(package: &mut Vec<u8>, kind: Kind, body: &[u32]) -> Result<(), Refusal> {
    let length = u32::try_from(KIND + WORD * body.len()).map_err(|_| Refusal::WrongSize(0))?;
    package.extend(length.to_le_bytes());
    package.extend((kind as u16).to_le_bytes());
    package.extend(body.iter().flat_map(|word| word.to_le_bytes()));
    Ok(())
}
