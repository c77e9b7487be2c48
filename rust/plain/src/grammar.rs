//! Rules and tables made ready once, for any number of statements.

use crate::numbers::Refusal;
use crate::rows::Tables;
use crate::rules::Rules;
use crate::walk::{Rooms, Walk, Walked};

#[derive(Clone, Debug)]
pub struct Grammar {
    pub rules: Rules,
    pub tables: Tables,
}

impl Grammar {
    /// 10 before 8.
    pub fn read(provable: u32, logic: u32, rules: &[u32], nodes: &[u32], edges: &[u32]) -> Result<Grammar, Refusal> {
        let rules = Rules::read(provable, logic, rules).ok_or(Refusal::BadRules)?;
        let tables = Tables::read(&rules, nodes, edges).ok_or(Refusal::BadTables)?;
        Ok(Grammar { rules, tables })
    }

    pub fn parse(&self, tokens: &[u32], rooms: Rooms) -> Walked {
        match Walk::start(self, tokens, rooms) {
            Ok(walk) => walk.run(),
            Err(refusal) => Walked::before_any_pass(refusal),
        }
    }

    /// One after the other. Each has the list room that is left, but no more than `work`, and all of the other rooms.
    pub fn parse_many(&self, statements: &[&[u32]], rooms: Rooms, work: usize) -> Vec<Walked> {
        let mut left = rooms.list;
        let mut one = |tokens: &&[u32]| {
            let list = left.min(work);
            let walked = self.parse(tokens, Rooms { list, ..rooms });
            left -= walked.list.as_ref().map_or(0, Vec::len);
            walked
        };
        statements.iter().map(&mut one).collect()
    }
}

impl Walked {
    pub fn before_any_pass(refusal: Refusal) -> Walked {
        Walked {
            list: Err(refusal),
            passes: 0,
        }
    }
}
