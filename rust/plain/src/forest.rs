//! Reducing, and the postfix list.

use std::ops::Range;

use crate::numbers::{Refusal, RuleNo};
use crate::rows::Reduce;
use crate::rules::Rules;

struct Tree {
    rule: RuleNo,
    /// Its children, as a stretch of the forest's `children`.
    children: Range<usize>,
}

/// The trees of a walk. A tree is its number in `made`; none is ever thrown away, so that `made` is as long as the postfix list of all.
pub struct Forest<'a> {
    rules: &'a Rules,
    room: usize,
    made: Vec<Tree>,
    children: Vec<usize>,
    standing: Vec<usize>,
}

impl<'a> Forest<'a> {
    pub fn new(rules: &'a Rules, room: usize) -> Forest<'a> {
        Forest {
            rules,
            room,
            made: Vec::new(),
            children: Vec::new(),
            standing: Vec::new(),
        }
    }

    pub fn reduce(&mut self, reduce: Reduce) -> Result<(), Refusal> {
        let slots = self.rules.rule(reduce.rule).slots;
        let first = self
            .standing
            .len()
            .checked_sub(reduce.offset as usize + slots)
            .ok_or(Refusal::NoTree)?;
        if self.made.len() >= self.room {
            return Err(Refusal::ListFull);
        }
        let start = self.children.len();
        self.children.extend(self.standing.drain(first..first + slots));
        self.standing.insert(first, self.made.len());
        self.made.push(Tree {
            rule: reduce.rule,
            children: start..self.children.len(),
        });
        Ok(())
    }

    /// The list of the one tree that stands; nothing if more or fewer stand.
    pub fn list(&self) -> Option<Vec<u32>> {
        let &[tree] = &self.standing[..] else { return None };
        Some(self.postfix(tree))
    }

    /// Roots before children and children from the right gives the list backwards, without recursion.
    fn postfix(&self, tree: usize) -> Vec<u32> {
        let mut list = Vec::new();
        let mut waiting = vec![tree];
        while let Some(tree) = waiting.pop() {
            let Tree { rule, children } = &self.made[tree];
            list.push(rule.word());
            waiting.extend_from_slice(&self.children[children.clone()]);
        }
        list.reverse();
        list
    }
}
