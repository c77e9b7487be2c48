//! Rule sets and calls that the tests share.

use jiehkavon::words::{self, Answer};
use jiehkavon::{Grammar, Label, Rules, Statement, Symbol};

pub fn symbol(word: u32) -> Symbol {
    Symbol::new(word).expect("a symbol")
}

pub fn c(word: u32) -> Label {
    Label::Constant(symbol(word))
}

pub fn s(word: u32) -> Label {
    Label::Slot(symbol(word))
}

/// Rules over provable 1 and logic 2. Slots have the variables 1, 2, 3 and so on in each.
pub fn rules(list: &[(u32, &[Label])]) -> Rules {
    let mut rules = Rules::new(symbol(1), symbol(2));
    for (result, labels) in list {
        rules.push_numbered(symbol(*result), labels);
    }
    rules
}

/// `2 c5 s3; 3 c7` is a rule with result 2 and a body of constant 5 and slot 3, and another.
pub fn rules_of(text: &str) -> Rules {
    let mut rules = Rules::new(symbol(1), symbol(2));
    for rule in text.split(';').filter(|rule| !rule.trim().is_empty()) {
        let mut words = rule.split_whitespace();
        let result = number(words.next().expect("a result"));
        let labels: Vec<Label> = words.map(label_of).collect();
        rules.push_numbered(symbol(result), &labels);
    }
    rules
}

fn label_of(text: &str) -> Label {
    let (kind, word) = text.split_at(1);
    match kind {
        "c" => c(number(word)),
        _ => s(number(word)),
    }
}

fn number(text: &str) -> u32 {
    text.parse().expect("a number")
}

pub fn set_s() -> Rules {
    rules(&[
        (2, &[c(10)]),
        (2, &[c(11)]),
        (3, &[c(12)]),
        (4, &[c(13)]),
        (3, &[s(4)]),
        (2, &[c(14), s(2)]),
        (2, &[c(5), s(2), c(7), s(2), c(6)]),
        (2, &[s(3), c(8), s(3)]),
        (2, &[s(3), c(9), s(3)]),
    ])
}

pub fn set_s10() -> Rules {
    let mut rules = set_s();
    rules.push_numbered(symbol(2), &[s(4), c(15), s(4)]);
    rules
}

pub fn set_t() -> Rules {
    rules(&[(20, &[c(30)]), (21, &[s(20)]), (22, &[s(21)]), (2, &[c(31), s(22)])])
}

/// A chain of conversions from typecode 20 up to 20 + `links`, the last link first, into the slot of `c31 s`.
pub fn chain(links: u32) -> Rules {
    let mut rules = rules(&[(20, &[c(30)]), (2, &[c(31), s(20 + links)])]);
    for link in (0..links).rev() {
        rules.push_numbered(symbol(21 + link), &[s(20 + link)]);
    }
    rules
}

pub fn grammar(rules: Rules) -> Grammar {
    Grammar::build(rules).expect("a tree")
}

pub fn statement(words: &[u32]) -> Statement {
    Statement::from_words(words)
}

/// The sentence of ten passes under set S.
pub const TEN_PASSES: [u32; 6] = [1, 5, 10, 7, 11, 6];

/// `count` prefixes c14 before one c10, after the provable typecode.
pub fn prefixes(count: usize) -> Vec<u32> {
    [vec![1], vec![14; count], vec![10]].concat()
}

/// What was lent to a parse, to be looked at afterwards.
pub struct Lent {
    pub frames: Vec<u32>,
    pub list: Vec<u32>,
    pub work: Vec<u32>,
}

impl Lent {
    /// Slices with garbage in them.
    pub fn garbage(frames: usize, list: usize, work: usize) -> Lent {
        Lent {
            frames: vec![0xdead_beef; frames],
            list: vec![7; list],
            work: vec![u32::MAX; work],
        }
    }
}

/// A parse of any words with any room.
pub fn parse(grammar: &Grammar, tokens: &[u32], allowance: u32, lent: &mut Lent) -> Answer {
    let (rules, tables) = (grammar.rules(), grammar.tables());
    words::parse(
        rules.provable().word(),
        rules.logic().word(),
        rules.words(),
        tables.node_words(),
        tables.edge_words(),
        tokens,
        allowance,
        &mut lent.frames,
        &mut lent.list,
        &mut lent.work,
    )
}

/// A random number for each call, the same ones for the same seed (splitmix64).
pub struct Random(pub u64);

impl Random {
    pub fn below(&mut self, bound: usize) -> usize {
        self.0 = self.0.wrapping_add(0x9e37_79b9_7f4a_7c15);
        let z = (self.0 ^ (self.0 >> 30)).wrapping_mul(0xbf58_476d_1ce4_e5b9);
        let z = (z ^ (z >> 27)).wrapping_mul(0x94d0_49bb_1331_11eb);
        ((z ^ (z >> 31)) % bound as u64) as usize
    }

    pub fn pick(&mut self, from: &[u32]) -> u32 {
        from[self.below(from.len())]
    }
}
