//! Packages: rules and statements in one file.

use crate::errors::{ReadError, WriteError};
use crate::numbers::Symbol;
use crate::rules::Rules;
use crate::words;

/// Rules, and statements over them, that travel as one file.
///
/// A rule may be in the old form, without variables. It is read as one whose slots have the variables 1, 2, 3 and so on.
///
/// A package of any length is read and written; the room for both is worked out, so that [`ReadError::RoomTooShort`] and
/// [`WriteError::RoomTooShort`] never come back from here. They are there for callers of [`words`](crate::words) who lend less.
#[derive(Clone, Debug, PartialEq, Eq)]
pub struct Package {
    rules: Rules,
    // for each statement the number of its tokens, then its tokens
    words: Vec<u32>,
    count: usize,
}

impl Package {
    /// The rules, and no statement yet.
    pub fn new(rules: Rules) -> Package {
        Package {
            rules,
            words: Vec::new(),
            count: 0,
        }
    }

    /// A further statement: its tokens, the typecode first. Any words may be tokens, and none at all is a statement too, which a parse refuses.
    ///
    /// A record holds fewer than 2^30 tokens. More are not refused here, but when the package is written.
    pub fn push(&mut self, tokens: &[u32]) {
        // no count that a word can't hold is written, and neither is the greatest word
        self.words.push(u32::try_from(tokens.len()).unwrap_or(u32::MAX));
        self.words.extend_from_slice(tokens);
        self.count += 1;
    }

    /// What the bytes of a file say, or why they are no package.
    pub fn read(bytes: &[u8]) -> Result<Package, ReadError> {
        let (mut rule_words, mut words) = (vec![0; rule_words_of(bytes.len())], vec![0; words_of(bytes.len())]);
        let read = words::package_read(bytes, &mut rule_words, &mut words);
        if let Some(refusal) = ReadError::of(read) {
            return Err(refusal);
        }
        // the counts are at most the room, and only zeros are cut off
        rule_words.truncate(read.rules);
        words.truncate(read.words);
        words.shrink_to_fit();
        Ok(Package {
            rules: rules_of(read.provable, read.logic, &rule_words).ok_or(ReadError::BadRules)?,
            words,
            count: read.statements,
        })
    }

    /// The bytes of the file. Reading them gives this package again. Where `read` gave a package, these are the bytes that were read, unless a rule was in
    /// the old form, without variables: what is written has the new form only.
    pub fn write(&self) -> Result<Vec<u8>, WriteError> {
        let rules = &self.rules;
        let mut bytes = vec![0; self.bytes()];
        let written = words::package_write(
            rules.provable().word(),
            rules.logic().word(),
            rules.words(),
            &self.words,
            &mut bytes,
        );
        match WriteError::of(written) {
            Some(refusal) => Err(refusal),
            None => {
                bytes.truncate(written.length);
                Ok(bytes)
            }
        }
    }

    /// How long the file is: a head of 6 bytes for each record, 4 for each word of a body. The typecodes and the end are a record each, and of a
    /// statement's words the first, the count, is not in its body.
    fn bytes(&self) -> usize {
        let records = 2 + self.rules.len() + self.count;
        let words = 2 + self.rules.words().len() + self.words.len() - self.count;
        HEAD * records + WORD * words
    }

    /// The rules.
    pub fn rules(&self) -> &Rules {
        &self.rules
    }

    /// How many statements there are.
    pub fn len(&self) -> usize {
        self.count
    }

    /// Whether there is no statement.
    pub fn is_empty(&self) -> bool {
        self.count == 0
    }

    /// The tokens of each statement, in order.
    pub fn statements(&self) -> impl Iterator<Item = &[u32]> {
        let mut rest = &self.words[..];
        std::iter::from_fn(move || {
            let (&count, after) = rest.split_first()?;
            let count = usize::try_from(count).ok()?;
            let tokens = after.get(..count)?;
            rest = &after[count..];
            Some(tokens)
        })
    }

    /// The words of all statements: for each the number of its tokens, then its tokens.
    pub fn words(&self) -> &[u32] {
        &self.words
    }
}

/// The bytes of a record's length and kind.
const HEAD: usize = 6;

/// The bytes of a word.
const WORD: usize = 4;

/// Words that are enough for the statements of a package, by its length in bytes. One of k tokens is in a record of 6 + 4k bytes and needs k + 1
/// words, so no word needs less than 4 bytes.
fn words_of(bytes: usize) -> usize {
    bytes / WORD
}

/// Words that are enough for the rules of a package. One of L items needs 2 + 3L words. It is in a record of 14 + 12L bytes, or in the old form of
/// 14 + 8L bytes, so no three words need less than 8 bytes.
fn rule_words_of(bytes: usize) -> usize {
    3 * bytes.div_ceil(8)
}

/// The rules of some words with two typecodes; none if any of these is bad.
fn rules_of(provable: u32, logic: u32, words: &[u32]) -> Option<Rules> {
    Rules::from_words(Symbol::new(provable)?, Symbol::new(logic)?, words).ok()
}
