//! Rules: what is pushed, and the words that it makes.

use crate::errors::BuildError;
use crate::limits::ITEM_WIDTH;
use crate::numbers::{Item, Label, RuleNo, Symbol};
use crate::words;

/// A rule as it was pushed: its result, and where its items begin among all items.
#[derive(Clone, Copy, Debug, PartialEq, Eq)]
struct Head {
    result: Symbol,
    start: usize,
}

/// A set of rules with its two special typecodes.
///
/// Nothing that is pushed is refused here. The library knows which rules are bad, and says so when it is asked for something.
#[derive(Clone, Debug, PartialEq, Eq)]
pub struct Rules {
    provable: Symbol,
    logic: Symbol,
    heads: Vec<Head>,
    items: Vec<Item>,
    words: Vec<u32>,
}

impl Rules {
    /// No rules yet. A statement of the typecode `provable` is parsed as one of the typecode `logic`; the two have to differ.
    pub fn new(provable: Symbol, logic: Symbol) -> Rules {
        Rules {
            provable,
            logic,
            heads: Vec::new(),
            items: Vec::new(),
            words: Vec::new(),
        }
    }

    /// The rules that some words say, or [`BuildError::BadRules`] if the library calls the words bad.
    pub fn from_words(provable: Symbol, logic: Symbol, words: &[u32]) -> Result<Rules, BuildError> {
        let mut rules = Rules::new(provable, logic);
        let mut rest = words;
        if rules_are_bad(provable, logic, words) {
            return Err(BuildError::BadRules);
        }
        while !rest.is_empty() {
            rest = rules.push_words(rest).ok_or(BuildError::BadRules)?;
        }
        Ok(rules)
    }

    /// A further rule, and its number. A variable has a rule whose body is one constant, the variable's own symbol; a conversion is a rule whose
    /// body is one slot.
    ///
    /// ```
    /// use jiehkavon::{BuildError, Grammar, Item, Rules, Symbol, Variable};
    ///
    /// # fn main() -> Result<(), Box<dyn std::error::Error>> {
    /// let symbol = |word: u32| Symbol::try_from(word);
    /// let (wff, implies) = (symbol(2)?, Item::Constant(symbol(7)?));
    /// let [p, q] = [symbol(20)?, symbol(21)?].map(|variable| Item::Slot { typecode: wff, variable: Variable(variable) });
    ///
    /// let mut rules = Rules::new(symbol(1)?, wff);
    /// rules.push(wff, &[p, implies, q]);
    /// assert!(Grammar::build(rules.clone()).is_ok());
    ///
    /// // in p -> p both places have to get the same expression, which no tree can see to
    /// rules.push(wff, &[p, implies, p]);
    /// assert_eq!(Grammar::build(rules).unwrap_err().why(), BuildError::BadRules);
    /// # Ok(())
    /// # }
    /// ```
    pub fn push(&mut self, result: Symbol, items: &[Item]) -> RuleNo {
        self.heads.push(Head {
            result,
            start: self.items.len(),
        });
        self.items.extend_from_slice(items);
        // no length that a word can't hold is good, and neither is the greatest word
        self.words.extend([result.word(), u32::try_from(items.len()).unwrap_or(u32::MAX)]);
        self.words.extend(items.iter().flat_map(|item| item.words()));
        RuleNo(u32::try_from(self.heads.len()).unwrap_or(u32::MAX))
    }

    /// A further rule whose slots are for different variables, no matter which: they get the variables 1, 2, 3 and so on.
    pub fn push_numbered(&mut self, result: Symbol, labels: &[Label]) -> RuleNo {
        self.push(result, &Label::numbered(labels))
    }

    /// The rule at the front of `words` is pushed; what follows it is given back.
    fn push_words<'w>(&mut self, words: &'w [u32]) -> Option<&'w [u32]> {
        let (&result, words) = words.split_first()?;
        let (&length, words) = words.split_first()?;
        let size = usize::try_from(length).ok()?.checked_mul(ITEM_WIDTH)?;
        let items: Option<Vec<Item>> = words
            .get(..size)?
            .chunks_exact(ITEM_WIDTH)
            .map(|words| Item::from_words([words[0], words[1], words[2]]))
            .collect();
        self.push(Symbol::new(result)?, &items?);
        words.get(size..)
    }

    /// The typecode of statements that are asserted.
    pub fn provable(&self) -> Symbol {
        self.provable
    }

    /// The typecode that an asserted statement is parsed as.
    pub fn logic(&self) -> Symbol {
        self.logic
    }

    /// How many rules there are.
    pub fn len(&self) -> usize {
        self.heads.len()
    }

    /// Whether there is no rule. An empty set is allowed.
    pub fn is_empty(&self) -> bool {
        self.heads.is_empty()
    }

    /// The numbers of all rules, in order.
    pub fn numbers(&self) -> impl Iterator<Item = RuleNo> {
        (1..).map(RuleNo).take(self.len())
    }

    /// The words that are lent to the library: for each rule its result, the length of its body and its items.
    pub fn words(&self) -> &[u32] {
        &self.words
    }

    /// The typecode that a rule results in.
    pub fn result(&self, rule: RuleNo) -> Option<Symbol> {
        self.heads.get(index(rule)?).map(|head| head.result)
    }

    /// The items of a rule, as they were pushed, bad or not.
    pub fn items(&self, rule: RuleNo) -> Option<&[Item]> {
        let at = index(rule)?;
        let head = self.heads.get(at)?;
        let end = self.heads.get(at + 1).map_or(self.items.len(), |next| next.start);
        self.items.get(head.start..end)
    }

    /// The body of a rule as the library finds it: a stretch of [`Rules::words`], or none if there is no such rule or any rule is bad. Each call
    /// goes through all words; [`Rules::items`] does not.
    pub fn body(&self, rule: RuleNo) -> Option<&[u32]> {
        let stretch = words::body(self.provable.word(), self.logic.word(), &self.words, rule.0);
        let start = usize::try_from(stretch.start).ok()?;
        let length = usize::try_from(stretch.length).ok()?;
        self.words.get(start..start.checked_add(length)?).filter(|body| !body.is_empty())
    }
}

/// Rules are numbered from 1.
fn index(rule: RuleNo) -> Option<usize> {
    usize::try_from(rule.0.checked_sub(1)?).ok()
}

/// A build without any room looks at the rules and at nothing else.
fn rules_are_bad(provable: Symbol, logic: Symbol, rules: &[u32]) -> bool {
    let built = words::build(provable.word(), logic.word(), rules, &[], &mut [], &mut [], &mut []);
    BuildError::of(built) == Some(BuildError::BadRules)
}
