//! Rule slice access and the rule check.

use std::collections::HashSet;

use crate::numbers::{RuleNo, Symbol, ITEM_LIMIT, RULE_LIMIT, VARIABLE_LIMIT};

/// Words of an item in a rule: its kind, its symbol, and a slot's variable.
pub const ITEM: usize = 3;

/// The two typecodes that come with the rules at every call.
#[derive(Clone, Copy, Debug, PartialEq, Eq)]
pub struct Typecodes {
    pub provable: Symbol,
    pub logic: Symbol,
}

impl Typecodes {
    pub fn read(provable: u32, logic: u32) -> Option<Typecodes> {
        let (provable, logic) = (Symbol::read(provable)?, Symbol::read(logic)?);
        (provable != logic).then_some(Typecodes { provable, logic })
    }

    /// The typecode that a statement's tree must have. A first token outside the symbols is no tree's typecode.
    pub fn wanted(self, first_token: u32) -> Option<Symbol> {
        match Symbol::read(first_token) {
            Some(typecode) if typecode == self.provable => Some(self.logic),
            other => other,
        }
    }
}

/// One item of a body, and the key of an edge at its node; constants are less than slots. A slot's variable is looked at when rules are read,
/// and matters nowhere else.
#[derive(Clone, Copy, Debug, PartialEq, Eq, PartialOrd, Ord, Hash)]
pub enum Item {
    Constant(Symbol),
    Slot(Symbol),
}

impl Item {
    pub fn read(kind: u32, symbol: u32) -> Option<Item> {
        let symbol = Symbol::read(symbol)?;
        match kind {
            0 => Some(Item::Constant(symbol)),
            1 => Some(Item::Slot(symbol)),
            _ => None,
        }
    }

    /// The least one and the greatest.
    pub(crate) fn ends() -> (Item, Item) {
        (Item::Constant(Symbol::LEAST), Item::Slot(Symbol::GREATEST))
    }

    pub fn words(self) -> [u32; 2] {
        match self {
            Item::Constant(symbol) => [0, symbol.word()],
            Item::Slot(symbol) => [1, symbol.word()],
        }
    }
}

/// The items of a body; nothing if one is bad, or if two slots have one variable.
fn items(words: &[u32]) -> Option<Vec<Item>> {
    let mut named = HashSet::new();
    let item = |words: &[u32]| {
        let (item, variable) = (Item::read(words[0], words[1])?, words[2]);
        let good = match item {
            Item::Constant(_) => variable == 0,
            Item::Slot(_) => (1..=VARIABLE_LIMIT).contains(&variable) && named.insert(variable),
        };
        good.then_some(item)
    };
    words.chunks_exact(ITEM).map(item).collect()
}

#[derive(Clone, Debug, PartialEq, Eq)]
pub struct Rule {
    pub result: Symbol,
    pub body: Vec<Item>,
    /// How many items are slots: a reduce of the rule takes as many trees.
    pub slots: usize,
    /// Where in the rule slice the body's first word stands.
    pub start: usize,
}

impl Rule {
    /// The rule whose words begin at `place`; the rest of the slice is not looked at.
    fn read(words: &[u32], place: usize) -> Option<Rule> {
        let (&[result, length], rest) = words.get(place..)?.split_first_chunk()?;
        if !(1..=ITEM_LIMIT).contains(&length) {
            return None;
        }
        let body = items(rest.get(..ITEM * length as usize)?)?;
        Some(Rule {
            result: Symbol::read(result)?,
            slots: body.iter().filter(|item| matches!(item, Item::Slot(_))).count(),
            start: place + 2,
            body,
        })
    }

    /// How many words the body takes.
    pub fn width(&self) -> usize {
        ITEM * self.body.len()
    }

    /// The typecode that a conversion converts from; nothing for other rules.
    pub fn converts(&self) -> Option<Symbol> {
        match self.body[..] {
            [Item::Slot(from)] => Some(from),
            _ => None,
        }
    }
}

/// A conversion, as growing and walking use it.
#[derive(Clone, Copy, Debug, PartialEq, Eq)]
pub struct Conversion {
    pub rule: RuleNo,
    pub from: Symbol,
    pub to: Symbol,
}

/// Rules that passed the rule check.
#[derive(Clone, Debug, PartialEq, Eq)]
pub struct Rules {
    pub typecodes: Typecodes,
    rules: Vec<Rule>,
    conversions: Vec<Conversion>,
}

impl Rules {
    /// Nothing where the paper says 10.
    pub fn read(provable: u32, logic: u32, words: &[u32]) -> Option<Rules> {
        let typecodes = Typecodes::read(provable, logic)?;
        let mut rules = Vec::new();
        let mut place = 0;
        while place < words.len() {
            let rule = Rule::read(words, place)?;
            if rules.len() == RULE_LIMIT || rule.result == typecodes.provable || rule.converts() == Some(rule.result) {
                return None;
            }
            place = rule.start + rule.width();
            rules.push(rule);
        }
        let conversions = conversions(&rules);
        Some(Rules {
            typecodes,
            rules,
            conversions,
        })
    }

    /// The rule that a word names, if it names one.
    pub fn named(&self, word: u32) -> Option<RuleNo> {
        (1..=self.rules.len()).contains(&(word as usize)).then_some(RuleNo(word))
    }

    pub fn rule(&self, rule: RuleNo) -> &Rule {
        &self.rules[rule.index()]
    }

    pub fn numbered(&self) -> impl Iterator<Item = (RuleNo, &Rule)> {
        numbered(&self.rules)
    }

    pub fn conversions(&self) -> &[Conversion] {
        &self.conversions
    }
}

fn numbered(rules: &[Rule]) -> impl Iterator<Item = (RuleNo, &Rule)> {
    (1..).map(RuleNo).zip(rules)
}

fn conversions(rules: &[Rule]) -> Vec<Conversion> {
    let conversion = |(rule, body): (RuleNo, &Rule)| {
        body.converts().map(|from| Conversion {
            rule,
            from,
            to: body.result,
        })
    };
    numbered(rules).filter_map(conversion).collect()
}
