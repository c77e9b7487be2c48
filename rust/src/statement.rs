//! Statements: a typecode and tokens.

use std::fmt;

use crate::numbers::{write_words, Symbol};

/// A statement: its typecode, then its tokens.
///
/// Its room is kept by [`Statement::clear`], so that one statement can be filled again and again.
#[derive(Clone, Debug, Default, PartialEq, Eq, Hash)]
pub struct Statement {
    words: Vec<u32>,
}

impl Statement {
    /// A statement with no token after its typecode.
    pub fn new(typecode: Symbol) -> Statement {
        Statement {
            words: vec![typecode.word()],
        }
    }

    /// A statement of any words, the typecode first. A word that is no symbol matches nothing.
    pub fn from_words(words: impl Into<Vec<u32>>) -> Statement {
        Statement { words: words.into() }
    }

    /// A further token; into an empty statement, its typecode.
    pub fn push(&mut self, symbol: Symbol) {
        self.push_word(symbol.word());
    }

    /// A further word, symbol or not.
    pub fn push_word(&mut self, word: u32) {
        self.words.push(word);
    }

    /// No token is left, the typecode is gone too.
    pub fn clear(&mut self) {
        self.words.clear();
    }

    /// The words, the typecode among them.
    pub fn words(&self) -> &[u32] {
        &self.words
    }
}

/// The words, the typecode among them.
impl AsRef<[u32]> for Statement {
    fn as_ref(&self) -> &[u32] {
        &self.words
    }
}

/// The words in decimal, the typecode first: `1 5 10 7 11 6`.
impl fmt::Display for Statement {
    fn fmt(&self, f: &mut fmt::Formatter<'_>) -> fmt::Result {
        write_words(f, &self.words)
    }
}

/// The first symbol is the typecode.
impl FromIterator<Symbol> for Statement {
    fn from_iter<I: IntoIterator<Item = Symbol>>(symbols: I) -> Statement {
        Statement {
            words: symbols.into_iter().map(Symbol::word).collect(),
        }
    }
}

impl Extend<Symbol> for Statement {
    fn extend<I: IntoIterator<Item = Symbol>>(&mut self, symbols: I) {
        self.words.extend(symbols.into_iter().map(Symbol::word));
    }
}
