//! One type for each kind of number, so that an edge's target can't be taken for a rule.

use std::error::Error;
use std::fmt;
use std::num::NonZeroU16;

use crate::limits::{ITEM_WIDTH, LABEL_WIDTH};

/// A symbol or a typecode: 1 to 65,535.
#[derive(Clone, Copy, Debug, PartialEq, Eq, PartialOrd, Ord, Hash)]
pub struct Symbol(NonZeroU16);

impl Symbol {
    /// The symbol of a word, if the word is 1 to 65,535.
    pub fn new(word: u32) -> Option<Symbol> {
        u16::try_from(word).ok().and_then(NonZeroU16::new).map(Symbol)
    }

    /// The word that stands for the symbol in a table or a statement.
    pub fn word(self) -> u32 {
        u32::from(self.0.get())
    }
}

impl TryFrom<u32> for Symbol {
    type Error = NotASymbol;

    fn try_from(word: u32) -> Result<Symbol, NotASymbol> {
        Symbol::new(word).ok_or(NotASymbol(word))
    }
}

impl fmt::Display for Symbol {
    fn fmt(&self, f: &mut fmt::Formatter<'_>) -> fmt::Result {
        self.0.fmt(f)
    }
}

/// A word that is no symbol: 0, or more than 65,535.
#[derive(Clone, Copy, Debug, PartialEq, Eq)]
pub struct NotASymbol(pub u32);

impl fmt::Display for NotASymbol {
    fn fmt(&self, f: &mut fmt::Formatter<'_>) -> fmt::Result {
        write!(f, "{} is no symbol: symbols are 1 to 65,535", self.0)
    }
}

impl Error for NotASymbol {}

/// A slot's variable, by a number that a symbol can have: 1 to 65,535. Numbers belong to a rule; in another rule the same one is another variable.
#[derive(Clone, Copy, Debug, PartialEq, Eq, PartialOrd, Ord, Hash)]
pub struct Variable(pub Symbol);

impl Variable {
    /// The variable of a word, if the word is 1 to 65,535.
    pub fn new(word: u32) -> Option<Variable> {
        Symbol::new(word).map(Variable)
    }

    /// The word that stands for the variable in a rule.
    pub fn word(self) -> u32 {
        self.0.word()
    }

    /// The variable of the slot that is the `count`th of its rule. Where there are no more numbers it is the last; no body that long is good.
    fn counted(count: usize) -> Variable {
        let number = u16::try_from(count).ok().and_then(NonZeroU16::new);
        Variable(Symbol(number.unwrap_or(NonZeroU16::MAX)))
    }
}

impl fmt::Display for Variable {
    fn fmt(&self, f: &mut fmt::Formatter<'_>) -> fmt::Result {
        self.0.fmt(f)
    }
}

/// A rule's number, counted from 1. Any word can be one: whether there is such a rule is a question to the rules.
#[derive(Clone, Copy, Debug, PartialEq, Eq, PartialOrd, Ord, Hash)]
pub struct RuleNo(pub u32);

impl fmt::Display for RuleNo {
    fn fmt(&self, f: &mut fmt::Formatter<'_>) -> fmt::Result {
        self.0.fmt(f)
    }
}

/// A node's number, counted from 0, the root. Any word can be one: whether there is such a node is a question to the tables.
#[derive(Clone, Copy, Debug, PartialEq, Eq, PartialOrd, Ord, Hash)]
pub struct NodeNo(pub u32);

impl NodeNo {
    /// Where every walk begins.
    pub const ROOT: NodeNo = NodeNo(0);
}

impl fmt::Display for NodeNo {
    fn fmt(&self, f: &mut fmt::Formatter<'_>) -> fmt::Result {
        self.0.fmt(f)
    }
}

/// One place of a rule's body.
#[derive(Clone, Copy, Debug, PartialEq, Eq, PartialOrd, Ord, Hash)]
pub enum Item {
    /// This very symbol.
    Constant(Symbol),
    /// Any expression of a typecode.
    Slot {
        /// The typecode.
        typecode: Symbol,
        /// The variable that stands there in the rule. A rule that has one variable in two slots is bad, since both would have to get the same expression.
        variable: Variable,
    },
}

impl Item {
    /// The item of three words, a kind, a symbol and a slot's variable or 0, if there is such an item.
    pub fn from_words([kind, symbol, variable]: [u32; ITEM_WIDTH]) -> Option<Item> {
        match (Label::from_words([kind, symbol])?, Variable::new(variable)) {
            (Label::Constant(symbol), None) if variable == 0 => Some(Item::Constant(symbol)),
            (Label::Slot(typecode), Some(variable)) => Some(Item::Slot { typecode, variable }),
            _ => None,
        }
    }

    /// The words of the item: 0, a constant and 0, or 1, a slot's typecode and its variable.
    pub fn words(self) -> [u32; ITEM_WIDTH] {
        let [kind, symbol] = self.label().words();
        match self {
            Item::Constant(_) => [kind, symbol, 0],
            Item::Slot { variable, .. } => [kind, symbol, variable.word()],
        }
    }

    /// The item without its variable, which is all that a tree knows of it.
    pub fn label(self) -> Label {
        match self {
            Item::Constant(symbol) => Label::Constant(symbol),
            Item::Slot { typecode, .. } => Label::Slot(typecode),
        }
    }
}

/// An item without a variable: what an edge is labelled with, and what garden paths are made of.
#[derive(Clone, Copy, Debug, PartialEq, Eq, PartialOrd, Ord, Hash)]
pub enum Label {
    /// This very symbol.
    Constant(Symbol),
    /// Any expression of this typecode.
    Slot(Symbol),
}

impl Label {
    /// The label of two words, a kind and a symbol, if there is such a kind and such a symbol.
    pub fn from_words([kind, symbol]: [u32; LABEL_WIDTH]) -> Option<Label> {
        let symbol = Symbol::new(symbol)?;
        match kind {
            0 => Some(Label::Constant(symbol)),
            1 => Some(Label::Slot(symbol)),
            _ => None,
        }
    }

    /// The words of the label: 0 and a constant, or 1 and a slot's typecode.
    pub fn words(self) -> [u32; LABEL_WIDTH] {
        match self {
            Label::Constant(symbol) => [0, symbol.word()],
            Label::Slot(typecode) => [1, typecode.word()],
        }
    }

    /// The labels as items, whose slots have the variables 1, 2, 3 and so on.
    pub(crate) fn numbered(labels: &[Label]) -> Vec<Item> {
        let mut slots = 0;
        let item = |label: &Label| match *label {
            Label::Constant(symbol) => Item::Constant(symbol),
            Label::Slot(typecode) => {
                slots += 1;
                let variable = Variable::counted(slots);
                Item::Slot { typecode, variable }
            }
        };
        labels.iter().map(item).collect()
    }
}

/// Words with one space between them, as statements and lists are printed.
pub(crate) fn write_words(f: &mut fmt::Formatter<'_>, words: &[u32]) -> fmt::Result {
    words.iter().enumerate().try_for_each(|(at, word)| {
        let space = if at == 0 { "" } else { " " };
        write!(f, "{space}{word}")
    })
}
