//! Formulas: the list of rules in postfix order, and the tree that it stands for.

use std::fmt;
use std::ops::Range;
use std::slice;

use crate::numbers::{write_words, Item, RuleNo, Symbol};
use crate::rules::Rules;

/// The numbers of a formula's rules in postfix order, children left to right.
///
/// One that a parse gave is well typed and spells its statement. One that was put together by hand may be anything; the check says what it is.
#[derive(Clone, Debug, Default, PartialEq, Eq, Hash)]
pub struct Formula {
    words: Vec<u32>,
}

impl Formula {
    /// A list of any words.
    pub fn from_words(words: impl Into<Vec<u32>>) -> Formula {
        Formula { words: words.into() }
    }

    /// The words of the list.
    pub fn words(&self) -> &[u32] {
        &self.words
    }

    /// The room that a parse writes its list to.
    pub(crate) fn words_mut(&mut self) -> &mut Vec<u32> {
        &mut self.words
    }

    /// The entries in postfix order.
    pub fn entries(&self) -> impl Iterator<Item = RuleNo> + '_ {
        self.words.iter().map(|&word| RuleNo(word))
    }

    /// How many entries there are.
    pub fn len(&self) -> usize {
        self.words.len()
    }

    /// Whether there is no entry. Such a list is no formula.
    pub fn is_empty(&self) -> bool {
        self.words.is_empty()
    }

    /// The list as a tree: none if an entry is no rule, if it has too few entries before it to fill its slots, or if other than one tree comes
    /// out. Typecodes are not compared: for that there is the check.
    pub fn tree<'r>(&self, rules: &'r Rules) -> Option<Tree<'r>> {
        let mut tree = Tree {
            entries: Vec::with_capacity(self.len()),
            children: Vec::with_capacity(self.len()),
            root: 0,
        };
        let mut roots = Vec::new();
        for rule in self.entries() {
            let entry = tree.adopt(rule, rules, &mut roots)?;
            roots.push(tree.entries.len());
            tree.entries.push(entry);
        }
        tree.root = roots.pop()?;
        roots.is_empty().then_some(tree)
    }
}

/// The rule numbers in decimal, in the list's order: `1 2 7`.
impl fmt::Display for Formula {
    fn fmt(&self, f: &mut fmt::Formatter<'_>) -> fmt::Result {
        write_words(f, &self.words)
    }
}

impl FromIterator<RuleNo> for Formula {
    fn from_iter<I: IntoIterator<Item = RuleNo>>(entries: I) -> Formula {
        Formula {
            words: entries.into_iter().map(|rule| rule.0).collect(),
        }
    }
}

/// What is known of one entry.
#[derive(Clone, Debug)]
struct Entry<'r> {
    rule: RuleNo,
    result: Symbol,
    items: &'r [Item],
    children: Range<usize>,
}

/// A formula as a tree: which entries of its list fill the slots of which.
#[derive(Clone, Debug)]
pub struct Tree<'r> {
    entries: Vec<Entry<'r>>,
    // the places of all children, entry after entry
    children: Vec<usize>,
    root: usize,
}

impl<'r> Tree<'r> {
    /// An entry for `rule`, with as many of the last roots for children as it has slots.
    fn adopt(&mut self, rule: RuleNo, rules: &'r Rules, roots: &mut Vec<usize>) -> Option<Entry<'r>> {
        let items = rules.items(rule)?;
        let slots = items.iter().filter(|item| matches!(item, Item::Slot { .. })).count();
        let start = self.children.len();
        self.children.extend(roots.drain(roots.len().checked_sub(slots)?..));
        Some(Entry {
            rule,
            result: rules.result(rule)?,
            items,
            children: start..self.children.len(),
        })
    }

    /// The whole tree, as the part below its last entry.
    pub fn root(&self) -> Subtree<'_> {
        Subtree {
            tree: self,
            place: self.root,
        }
    }

    /// The parts below each entry, in the list's order.
    pub fn subtrees(&self) -> impl Iterator<Item = Subtree<'_>> {
        (0..self.entries.len()).map(move |place| Subtree { tree: self, place })
    }

    /// The items of an entry and the places of its children.
    fn parts(&self, place: usize) -> (slice::Iter<'r, Item>, slice::Iter<'_, usize>) {
        let entry = &self.entries[place];
        (entry.items.iter(), self.children[entry.children.clone()].iter())
    }
}

/// A part of a tree: one entry and all below it.
#[derive(Clone, Copy, Debug)]
pub struct Subtree<'t> {
    tree: &'t Tree<'t>,
    place: usize,
}

impl<'t> Subtree<'t> {
    /// Where the entry stands in the list, from 0.
    pub fn place(&self) -> usize {
        self.place
    }

    /// The entry's rule.
    pub fn rule(&self) -> RuleNo {
        self.tree.entries[self.place].rule
    }

    /// The typecode that the rule results in.
    pub fn result(&self) -> Symbol {
        self.tree.entries[self.place].result
    }

    /// The rule's items.
    pub fn items(&self) -> &'t [Item] {
        self.tree.entries[self.place].items
    }

    /// What fills the rule's slots, from left to right.
    pub fn children(&self) -> impl DoubleEndedIterator<Item = Subtree<'t>> {
        let tree = self.tree;
        tree.parts(self.place).1.map(move |&place| Subtree { tree, place })
    }

    /// This part and all below it, each before its children, with its depth: 0 here, one more for each step down. A list may be deeper than
    /// the machine's stack, so a tree is better gone through with this than by a function that calls itself.
    pub fn preorder(&self) -> Preorder<'t> {
        Preorder { ahead: vec![(0, *self)] }
    }

    /// The tokens that it spells. Those of the root are the statement after its typecode.
    pub fn tokens(&self) -> Vec<Symbol> {
        let mut tokens = Vec::new();
        // a stack of its own, since a list may be deeper than the machine's stack
        let mut open = vec![self.tree.parts(self.place)];
        while let Some((items, children)) = open.last_mut() {
            match items.next() {
                Some(Item::Constant(symbol)) => tokens.push(*symbol),
                Some(Item::Slot { .. }) => {
                    let child = children.next().map(|&place| self.tree.parts(place));
                    open.extend(child);
                }
                None => open.truncate(open.len() - 1),
            }
        }
        tokens
    }
}

/// The parts of a tree from the top, see [`Subtree::preorder`].
#[derive(Clone, Debug)]
pub struct Preorder<'t> {
    // what is still to come, the next one last
    ahead: Vec<(usize, Subtree<'t>)>,
}

impl<'t> Iterator for Preorder<'t> {
    type Item = (usize, Subtree<'t>);

    fn next(&mut self) -> Option<(usize, Subtree<'t>)> {
        let (depth, part) = self.ahead.pop()?;
        self.ahead.extend(part.children().rev().map(|child| (depth + 1, child)));
        Some((depth, part))
    }
}
