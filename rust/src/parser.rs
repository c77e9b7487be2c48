//! Parsing with buffers that are kept.

use crate::batch::{Batches, ParseMany};
use crate::errors::{ParseError, VerifyError};
use crate::formula::Formula;
use crate::grammar::Grammar;
use crate::limits::MOST_TOKENS;
use crate::statement::Statement;
use crate::words;

/// Passes and room that are always enough for a statement.
///
/// For n tokens after the typecode, and for any tables at all, no parse needs more than 4n passes, n - 1 frames and 18n list entries. These are
/// theorems about the library: `four-n`, `frames-enough` and `list-enough` in `crates/desk/proofs/Theorems/Promises.antt`. By `more_room` there, lending
/// more would change no answer.
#[derive(Clone, Copy, Debug, Default, PartialEq, Eq)]
pub struct Room {
    /// How many passes the walk may take.
    pub allowance: u32,
    /// The length of the frame slice.
    pub frames: usize,
    /// The length of the list slice, and of the work slice.
    pub list: usize,
}

impl Room {
    /// The room for a statement of so many tokens, its typecode counted. One that is too long is refused before it is walked and needs none.
    pub fn for_tokens(tokens: usize) -> Room {
        let after = if tokens <= MOST_TOKENS { tokens.saturating_sub(1) } else { 0 };
        Room {
            allowance: u32::try_from(4 * after).unwrap_or(u32::MAX),
            frames: after.saturating_sub(1),
            list: 18 * after,
        }
    }
}

/// What a parse gave.
#[derive(Clone, Copy, Debug, PartialEq, Eq)]
pub struct Parsed<'p> {
    /// The formula, in the parser's own buffer. It is cloned to be kept.
    pub formula: &'p Formula,
    /// The passes that the walk took.
    pub passes: u32,
}

/// The buffers of a parse. They are sized by [`Room::for_tokens`] and grow with the longest statement so far; after that no call allocates.
///
/// Since the room is always enough, [`ParseError::PassesUsedUp`], [`ParseError::FramesFull`], [`ParseError::ListFull`] and
/// [`VerifyError::WorkTooShort`] never come back from here. They are there for callers of [`words`](crate::words) who lend less.
#[derive(Clone, Debug, Default)]
pub struct Parser {
    pub(crate) frames: Vec<u32>,
    pub(crate) work: Vec<u32>,
    pub(crate) formula: Formula,
    pub(crate) batches: Batches,
}

impl Parser {
    /// A parser with empty buffers.
    pub fn new() -> Parser {
        Parser::default()
    }

    /// The formula of a statement, or why there is none.
    pub fn parse(&mut self, grammar: &Grammar, statement: &Statement) -> Result<Parsed<'_>, ParseError> {
        self.parse_words(grammar, statement.words())
    }

    /// The same for tokens that stand somewhere else, the typecode first.
    pub fn parse_words(&mut self, grammar: &Grammar, tokens: &[u32]) -> Result<Parsed<'_>, ParseError> {
        let (rules, tables) = (grammar.rules(), grammar.tables());
        let room = Room::for_tokens(tokens.len());
        let list = self.formula.words_mut();
        self.frames.resize(room.frames, 0);
        self.work.resize(room.list, 0);
        list.resize(room.list, 0);
        let answer = words::parse(
            rules.provable().word(),
            rules.logic().word(),
            rules.words(),
            tables.node_words(),
            tables.edge_words(),
            tokens,
            room.allowance,
            &mut self.frames,
            list,
            &mut self.work,
        );
        // a refusal has length 0
        list.truncate(usize::try_from(answer.length).unwrap_or(usize::MAX));
        match ParseError::of(answer) {
            Some(refusal) => Err(refusal),
            None => Ok(Parsed {
                formula: &self.formula,
                passes: answer.passes,
            }),
        }
    }

    /// The answers of many statements, in their order: what [`Parser::parse`] says of each. Rules and tables are checked once for many of them, so
    /// this is the faster way where there are more than a few.
    ///
    /// The statements are taken when their answers are asked for, by batches of at most 32,771 words, a word for each token and one for each
    /// statement; that is room for any single statement. So the buffers stay within 16 MiB, however many statements there are, and a night of
    /// 50,000 takes no more than the longest one alone.
    ///
    /// ```
    /// # use jiehkavon::{Grammar, Label, Parser, Rules, Statement, Symbol};
    /// # fn main() -> Result<(), Box<dyn std::error::Error>> {
    /// # let (provable, logic, low) = (Symbol::try_from(1)?, Symbol::try_from(2)?, Symbol::try_from(10)?);
    /// # let mut rules = Rules::new(provable, logic);
    /// # rules.push_numbered(logic, &[Label::Constant(low)]);
    /// # let grammar = Grammar::build(rules)?;
    /// let statements = [vec![1, 10], vec![1, 10, 10], vec![2, 10]].map(Statement::from_words);
    /// let mut parser = Parser::new();
    /// let numbers: Vec<u32> = parser
    ///     .parse_many(&grammar, &statements)
    ///     .map(|answer| answer.map_or_else(|refusal| refusal.number(), |_formula| 0))
    ///     .collect();
    /// assert_eq!(numbers, [0, 2, 0]);
    /// # Ok(())
    /// # }
    /// ```
    pub fn parse_many<'p, I>(&'p mut self, grammar: &'p Grammar, statements: I) -> ParseMany<'p, I::IntoIter>
    where
        I: IntoIterator,
        I::Item: AsRef<[u32]>,
    {
        ParseMany::new(self, grammar, statements.into_iter())
    }

    /// Whether a formula, whoever made it, is a well typed tree of the stated typecode that spells the statement.
    pub fn verify(&mut self, grammar: &Grammar, statement: &Statement, formula: &Formula) -> Result<(), VerifyError> {
        let rules = grammar.rules();
        self.work.resize(formula.len(), 0);
        let answer = words::verify(
            rules.provable().word(),
            rules.logic().word(),
            rules.words(),
            statement.words(),
            formula.words(),
            &mut self.work,
        );
        VerifyError::of(answer).map_or(Ok(()), Err)
    }
}
