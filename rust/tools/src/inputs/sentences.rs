//! Statements: grown from the rules, damaged, noise, and grown from the answers of a parser.

use std::collections::HashMap;

use super::rules::{Item, RuleSet};
use crate::random::Random;

/// A statement and the list that it was grown by.
#[derive(Clone, Debug, Default, PartialEq, Eq)]
pub struct Sentence {
    pub tokens: Vec<u32>,
    pub list: Vec<u32>,
}

/// Grows statements by random derivation.
pub struct Grower<'a> {
    set: &'a RuleSet,
    /// The rules with a result, by their places, the lowest trees first. Rules that no tree ends are left out.
    by_result: HashMap<u32, Vec<usize>>,
}

impl<'a> Grower<'a> {
    pub fn new(set: &'a RuleSet) -> Grower<'a> {
        let mut by_result: HashMap<u32, Vec<usize>> = HashMap::new();
        for place in by_height(set) {
            by_result.entry(set.rules[place].result).or_default().push(place);
        }
        Grower { set, by_result }
    }

    /// A statement of a typecode, with at most about `size` rules; nothing if no tree has that typecode.
    pub fn sentence(&self, random: &mut Random, typecode: u32, size: usize) -> Option<Sentence> {
        let mut sentence = Sentence::default();
        sentence
            .tokens
            .push(if typecode == self.set.logic { self.set.provable } else { typecode });
        let mut left = size;
        self.grow(random, typecode, &mut left, &mut sentence)?;
        Some(sentence)
    }

    /// Past the size only the rule with the lowest tree is taken, so that growing ends.
    fn grow(&self, random: &mut Random, typecode: u32, left: &mut usize, sentence: &mut Sentence) -> Option<()> {
        let rules = self.by_result.get(&typecode)?;
        let place = if *left == 0 { rules[0] } else { random.pick(rules) };
        *left = left.saturating_sub(1);
        for &item in &self.set.rules[place].body {
            match item {
                Item::Constant(symbol) => sentence.tokens.push(symbol),
                Item::Slot(typecode) => self.grow(random, typecode, left, sentence)?,
            }
        }
        sentence.list.push(place as u32 + 1);
        Some(())
    }
}

/// The places of the rules that some tree has at its root, in the order of the lowest such tree.
fn by_height(set: &RuleSet) -> Vec<usize> {
    let mut places: Vec<usize> = Vec::new();
    loop {
        let filled = |item: &Item| match *item {
            Item::Constant(_) => true,
            Item::Slot(typecode) => places.iter().any(|&place| set.rules[place].result == typecode),
        };
        let ready = |place: &usize| !places.contains(place) && set.rules[*place].body.iter().all(filled);
        let more: Vec<usize> = (0..set.rules.len()).filter(ready).collect();
        if more.is_empty() {
            return places;
        }
        places.extend(more);
    }
}

/// Constants of the rules in any order.
pub fn noise(random: &mut Random, set: &RuleSet, length: usize) -> Vec<u32> {
    let constants = set.constants();
    let first = if random.chance(70) {
        set.provable
    } else {
        random.pick(&set.typecodes())
    };
    [first].into_iter().chain((0..length).map(|_| random.pick(&constants))).collect()
}

/// Tokens that lead a walk as far as can be: `answer` gives a parse's number and place; where tokens ended one is added, and where one did
/// not fit it is changed. So tables that nobody built are walked far too.
pub fn guided(random: &mut Random, first: u32, constants: &[u32], most: usize, mut answer: impl FnMut(&[u32]) -> (u32, u32)) -> Vec<u32> {
    let mut tokens = vec![first, random.pick(constants)];
    for _ in 0..4 * most {
        match answer(&tokens) {
            (3, _) if tokens.len() < most => tokens.push(random.pick(constants)),
            (2, place) => tokens[place as usize] = random.pick(constants),
            _ => break,
        }
    }
    tokens
}
