//! Sets of a seed, with statements, as the comparisons name them.

use crate::grown::{grow_garden, grow_set, Sentences, Set};
use crate::oracle::Asked;
use crate::random::Random;

/// The sets of a seed.
#[derive(Clone, Copy)]
pub struct Sets {
    grow: fn(u64, u64) -> (Set, Random),
    seed: u64,
    pub count: u64,
    statements: u64,
}

pub fn number(word: &str) -> Result<u64, String> {
    word.parse().map_err(|_| format!("no number: {word}"))
}

impl Sets {
    pub fn read(kind: &str, [seed, sets, statements]: [&str; 3]) -> Result<Sets, String> {
        let grow = match kind {
            "rules" => grow_set,
            "gardens" => grow_garden,
            _ => return Err(format!("no kind of sets: {kind}")),
        };
        Ok(Sets {
            grow,
            seed: number(seed)?,
            count: number(sets)?,
            statements: number(statements)?,
        })
    }

    pub fn asked(self, number: u64) -> Asked {
        let (set, mut luck) = (self.grow)(self.seed, number);
        let sentences = Sentences::of(&set);
        let statements = (0..self.statements).map(|_| sentences.grow(&mut luck)).collect();
        Asked { set, statements }
    }

    /// The name of a set, told before its questions and answers so that the two can't get out of step.
    pub fn name(self, number: u64) -> String {
        format!("set {number} of seed {}", self.seed)
    }
}
