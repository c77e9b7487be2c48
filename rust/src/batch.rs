//! Many statements, parsed by batches of bounded size.

use std::fmt;
use std::iter::{FusedIterator, Peekable};

use crate::errors::ParseError;
use crate::formula::Formula;
use crate::grammar::Grammar;
use crate::limits::{ANSWER_WIDTH, MOST_TOKENS};
use crate::parser::{Parsed, Parser, Room};
use crate::words::{self, Answer, Batch};

/// The words of the statements of a batch. Any single statement fits: its count and its tokens, of which no more are written than make it too
/// long.
const MOST_WORDS: usize = 1 + MOST_TOKENS + 1;

/// The buffers of a batch, but for those that a single parse needs too.
#[derive(Clone, Debug, Default)]
pub(crate) struct Batches {
    // for each statement the number of its tokens, then its tokens
    statements: Vec<u32>,
    list: Vec<u32>,
    answers: Vec<u32>,
    index: Vec<u32>,
    // the number of a batch that was refused, else 0
    refused: u32,
    // how many statements there are, how many have been told, and where the next list begins
    count: usize,
    told: usize,
    used: usize,
    // what is enough for each of them alone, and list words for all together
    longest: Room,
    all_lists: usize,
}

impl Batches {
    fn clear(&mut self) {
        self.statements.clear();
        (self.refused, self.count, self.told, self.used) = (0, 0, 0, 0);
        (self.longest, self.all_lists) = (Room::for_tokens(0), 0);
    }

    /// Whether a statement of so many tokens goes into this batch.
    fn fits(&self, tokens: usize) -> bool {
        self.statements.is_empty() || self.statements.len() + 1 + tokens <= MOST_WORDS
    }

    fn push(&mut self, tokens: &[u32]) {
        // one that is too long is refused whatever its tokens are, so the rest of them can be left out
        let tokens = tokens.get(..=MOST_TOKENS).unwrap_or(tokens);
        let room = Room::for_tokens(tokens.len());
        self.statements.push(u32::try_from(tokens.len()).unwrap_or(u32::MAX));
        self.statements.extend_from_slice(tokens);
        self.count += 1;
        self.all_lists += room.list;
        self.longest.allowance = self.longest.allowance.max(room.allowance);
        self.longest.frames = self.longest.frames.max(room.frames);
        self.longest.list = self.longest.list.max(room.list);
    }

    /// The next answer, and its list. A batch is refused by 10 or 8, which a single parse says first too, so each of its statements is.
    fn tell(&mut self) -> (Answer, &[u32]) {
        let refused = [self.refused, 0, 0, 0];
        let words = match self.refused {
            0 => self.answers.get(ANSWER_WIDTH * self.told..).and_then(|rest| rest.first_chunk()),
            _ => Some(&refused),
        };
        // never without: there are four words for each
        let &[number, place, length, passes] = words.unwrap_or(&[u32::MAX, 0, 0, 0]);
        let start = self.used;
        self.told += 1;
        self.used += usize::try_from(length).unwrap_or(0);
        let answer = Answer {
            number,
            place,
            length,
            passes,
        };
        (answer, self.list.get(start..self.used).unwrap_or(&[]))
    }
}

impl Parser {
    /// The answers of the statements that were pushed. Each gets what is enough for it: of passes, frames and work as much as the longest, and of the
    /// list at least its own part, since no list before it is longer than the part of that.
    fn answer_batch(&mut self, grammar: &Grammar) -> Batch {
        let (rules, tables) = (grammar.rules(), grammar.tables());
        let batch = &mut self.batches;
        self.frames.resize(batch.longest.frames, 0);
        self.work.resize(batch.longest.list, 0);
        batch.list.resize(batch.all_lists, 0);
        batch.answers.resize(ANSWER_WIDTH * batch.count, 0);
        batch
            .index
            .resize(rules.len() + tables.node_words().len() + 1 + tables.constants_of_root(), 0);
        words::parse_many(
            rules.provable().word(),
            rules.logic().word(),
            rules.words(),
            tables.node_words(),
            tables.edge_words(),
            &batch.statements,
            batch.longest.allowance,
            &mut self.frames,
            &mut batch.list,
            &mut self.work,
            &mut batch.answers,
            &mut batch.index,
        )
    }
}

/// The answers of many statements, made by [`Parser::parse_many`].
///
/// As an iterator it gives formulas that can be kept. [`ParseMany::next_parsed`] gives the same in the parser's own buffer, with the passes.
pub struct ParseMany<'p, I: Iterator> {
    parser: &'p mut Parser,
    grammar: &'p Grammar,
    ahead: Peekable<I>,
}

impl<'p, I> ParseMany<'p, I>
where
    I: Iterator,
    I::Item: AsRef<[u32]>,
{
    pub(crate) fn new(parser: &'p mut Parser, grammar: &'p Grammar, statements: I) -> ParseMany<'p, I> {
        parser.batches.clear();
        ParseMany {
            parser,
            grammar,
            ahead: statements.peekable(),
        }
    }

    /// The next statement's answer; nothing after the last. Once the buffers have grown, no call allocates.
    pub fn next_parsed(&mut self) -> Option<Result<Parsed<'_>, ParseError>> {
        if self.parser.batches.told == self.parser.batches.count && !self.next_batch() {
            return None;
        }
        let (answer, entries) = self.parser.batches.tell();
        let list = self.parser.formula.words_mut();
        list.clear();
        list.extend_from_slice(entries);
        Some(match ParseError::of(answer) {
            Some(refusal) => Err(refusal),
            None => Ok(Parsed {
                formula: &self.parser.formula,
                passes: answer.passes,
            }),
        })
    }

    /// Whether there was a statement left.
    fn next_batch(&mut self) -> bool {
        let batch = &mut self.parser.batches;
        batch.clear();
        while let Some(next) = self.ahead.next_if(|next| batch.fits(next.as_ref().len())) {
            batch.push(next.as_ref());
        }
        if batch.count == 0 {
            return false;
        }
        self.parser.batches.refused = self.parser.answer_batch(self.grammar).number;
        true
    }
}

/// Without the statements, which may have no text of their own.
impl<I: Iterator> fmt::Debug for ParseMany<'_, I> {
    fn fmt(&self, f: &mut fmt::Formatter<'_>) -> fmt::Result {
        let mut text = f.debug_struct("ParseMany");
        text.field("parser", &self.parser).field("grammar", &self.grammar);
        text.finish_non_exhaustive()
    }
}

impl<I> Iterator for ParseMany<'_, I>
where
    I: Iterator,
    I::Item: AsRef<[u32]>,
{
    type Item = Result<Formula, ParseError>;

    fn next(&mut self) -> Option<Result<Formula, ParseError>> {
        self.next_parsed().map(|answer| answer.map(|parsed| parsed.formula.clone()))
    }

    fn size_hint(&self) -> (usize, Option<usize>) {
        let waiting = self.parser.batches.count - self.parser.batches.told;
        let (least, most) = self.ahead.size_hint();
        (least.saturating_add(waiting), most.and_then(|most| most.checked_add(waiting)))
    }
}

impl<I> FusedIterator for ParseMany<'_, I>
where
    I: FusedIterator,
    I::Item: AsRef<[u32]>,
{
}
