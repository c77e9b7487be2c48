//! Rule sets and statements grown from a seed.
//!
//! The same seed always gives the same sets, on any machine, so that a set can be named by its seed and its number. Sets are grown so that most
//! of them build: a body that collides is drawn again, and most conversions run downwards along the typecodes. A few sets are spoilt on
//! purpose, each in one way.

use self::Item::{Constant, Slot};
use crate::bodies::numbered;
use crate::inputs::commands::{words, Command};
use crate::inputs::gardens::garden;
use crate::random::Random;
use std::collections::BTreeMap;
use std::ops::RangeInclusive;

/// The generator of set `number` of a seed.
fn random_of(seed: u64, number: u64) -> Random {
    let start = Random::new(seed).number();
    Random::new(start ^ number.wrapping_mul(0xD1B5_4A32_D192_ED03))
}

#[derive(Clone, Copy, Debug, PartialEq, Eq)]
pub enum Item {
    Constant(u32),
    Slot(u32),
}

impl Item {
    fn of(pair: [u32; 2]) -> Item {
        match pair {
            [0, symbol] => Constant(symbol),
            [_, typecode] => Slot(typecode),
        }
    }

    pub fn pair(self) -> [u32; 2] {
        match self {
            Constant(symbol) => [0, symbol],
            Slot(typecode) => [1, typecode],
        }
    }
}

#[derive(Clone, Debug, PartialEq, Eq)]
pub struct Rule {
    pub result: u32,
    pub body: Vec<Item>,
    /// Put to the Rust as a `$f` and not as an axiom; the library knows no such difference.
    pub float: bool,
}

impl Rule {
    /// The typecode that a conversion converts from.
    pub fn converts(&self) -> Option<u32> {
        match self.body[..] {
            [Slot(from)] => Some(from),
            _ => None,
        }
    }

    pub fn slots(&self) -> impl Iterator<Item = u32> + '_ {
        self.body.iter().filter_map(|item| match *item {
            Slot(typecode) => Some(typecode),
            Constant(_) => None,
        })
    }
}

#[derive(Clone, Debug, Default, PartialEq, Eq)]
pub struct Set {
    pub provable: u32,
    pub logic: u32,
    pub rules: Vec<Rule>,
    pub commands: Vec<Command>,
    /// In which order the Rust is told the symbols; 0 is that of their first use. It must not matter.
    pub shuffle: u64,
}

impl Set {
    /// The rule table. The Rust is told no variables, and here it is 1, 2, 3 and so on in each rule.
    pub fn words(&self) -> Vec<u32> {
        let pairs = |rule: &Rule| rule.body.iter().map(|item| item.pair()).collect::<Vec<_>>();
        self.rules.iter().flat_map(|rule| numbered(rule.result, &pairs(rule))).collect()
    }

    pub fn command_words(&self) -> Vec<u32> {
        words(&self.commands)
    }

    /// Bodies that are placed in the tree: all but those of conversions.
    pub fn placed(&self) -> impl Iterator<Item = &Rule> {
        self.rules.iter().filter(|rule| rule.converts().is_none())
    }
}

/// Whether one body equals or begins the other.
pub fn collide(a: &[Item], b: &[Item]) -> bool {
    a.iter().zip(b).all(|(x, y)| x == y)
}

/// The symbols of a set. The provable typecode is first, the logic one second.
struct Palette {
    typecodes: Vec<u32>,
    constants: Vec<u32>,
}

/// What a body begins with.
#[derive(Clone, Copy)]
enum Style {
    Prefix,
    Infix,
    Slots,
    Free,
}

/// Set `number` of a seed, and the generator for its statements.
pub fn grow_set(seed: u64, number: u64) -> (Set, Random) {
    let mut seed = random_of(seed, number);
    if seed.below(4_000) == 0 {
        return (giant_set(&mut seed), seed);
    }
    let set = match seed.below(100) {
        0..=1 => chain_set(&mut seed),
        2 => spoilt_set(&mut seed),
        3 => float_twice(&mut seed),
        4..=6 => wild_set(&mut seed),
        7 => big_set(&mut seed),
        8..=17 => ending_set(&mut seed),
        _ => ordinary_set(&mut seed),
    };
    (set, seed)
}

/// Set `number` of a seed, with commands, and the generator for its statements.
pub fn grow_garden(seed: u64, number: u64) -> (Set, Random) {
    let mut seed = random_of(seed, number);
    let garden = garden(&mut seed);
    let rule = |rule: &crate::inputs::rules::Rule| rule_of(rule.result, rule.body.iter().map(|item| Item::of(item.pair())).collect());
    let set = Set {
        provable: garden.set.provable,
        logic: garden.set.logic,
        rules: garden.set.rules.iter().map(rule).collect(),
        commands: garden.commands,
        shuffle: seed.below(4) as u64,
    };
    (set, seed)
}

fn palette(seed: &mut Random, typecodes: usize, constants: usize) -> Palette {
    let mut numbers: Vec<u32> = match seed.below(10) {
        0..=6 => (1..=typecodes as u32).chain(10..10 + constants as u32).collect(),
        _ => spread(seed, typecodes + constants),
    };
    let mut constants = numbers.split_off(typecodes);
    if seed.chance(10) {
        let at = seed.below(constants.len());
        constants[at] = seed.pick(&numbers);
    }
    Palette {
        typecodes: numbers,
        constants,
    }
}

/// Different symbols from the whole range, both its ends often among them.
fn spread(seed: &mut Random, count: usize) -> Vec<u32> {
    let mut numbers = Vec::new();
    while numbers.len() < count {
        let number = match seed.below(20) {
            0 => 1,
            1 => 65_535,
            _ => seed.between(1..=65_535) as u32,
        };
        if !numbers.contains(&number) {
            numbers.push(number);
        }
    }
    numbers
}

fn set_of(palette: &Palette, rules: Vec<Rule>, seed: &mut Random) -> Set {
    let shuffle = seed.below(4) as u64;
    let mut set = Set {
        provable: palette.typecodes[0],
        logic: palette.typecodes[1],
        rules,
        commands: Vec::new(),
        shuffle,
    };
    feed_floats(&mut set, seed);
    set
}

fn small_palette(seed: &mut Random) -> Palette {
    let (typecodes, constants) = (seed.between(2..=5) + 1, seed.between(3..=8));
    palette(seed, typecodes, constants)
}

fn ordinary_set(seed: &mut Random) -> Set {
    let palette = small_palette(seed);
    let count = seed.between(1..=12).max(seed.between(0..=12));
    let conversions = conversions(seed, &palette);
    careful_set(seed, &palette, conversions, count)
}

fn big_set(seed: &mut Random) -> Set {
    let palette = palette(seed, 9, 24);
    let count = seed.between(13..=60);
    let conversions = conversions(seed, &palette);
    careful_set(seed, &palette, conversions, count)
}

/// As many rules as the rule table takes, or one more, or somewhat fewer. Among so many, conversions nearly always meet a leaf, so most sets
/// have none.
fn giant_set(seed: &mut Random) -> Set {
    let palette = palette(seed, 6, 300);
    let count = match seed.below(4) {
        0 => 2_048,
        1 => 2_049,
        _ => seed.between(300..=2_000),
    };
    let conversions = if seed.chance(20) { conversions(seed, &palette) } else { Vec::new() };
    careful_set(seed, &palette, conversions, count)
}

/// Conversions as given, and placed bodies that don't collide.
fn careful_set(seed: &mut Random, palette: &Palette, conversions: Vec<Rule>, count: usize) -> Set {
    let mut rules = conversions;
    rules.truncate(count / 2);
    let style = [Style::Prefix, Style::Prefix, Style::Infix, Style::Slots, Style::Free][seed.below(5)];
    let leaves = seed.between(1..=palette.typecodes.len() - 1);
    let mut placed: Vec<Rule> = Vec::new();
    for at in 0..4 * (count - rules.len()) {
        let rule = if at < leaves {
            leaf(seed, palette, at + 1)
        } else {
            compound(seed, palette, style, &placed)
        };
        let free = !placed.iter().any(|earlier| collide(&earlier.body, &rule.body));
        if free && placed.len() + rules.len() < count {
            placed.push(rule);
        }
    }
    rules.append(&mut placed);
    seed.shuffle(&mut rules);
    if seed.chance(1) {
        rules.clear();
    }
    set_of(palette, rules, seed)
}

/// No care taken: bodies collide, conversions run in circles.
fn wild_set(seed: &mut Random) -> Set {
    let palette = small_palette(seed);
    let mut rules = Vec::new();
    for _ in 0..seed.between(1..=12) {
        let rule = if seed.chance(30) {
            any_conversion(seed, &palette)
        } else {
            compound(seed, &palette, Style::Free, &rules)
        };
        rules.push(rule);
    }
    set_of(&palette, rules, seed)
}

/// A chain of three to six conversions into a slot, its links in any order but often the last one first.
fn chain_set(seed: &mut Random) -> Set {
    let links = seed.between(3..=6);
    let palette = palette(seed, links + 3, 4);
    let chain = &palette.typecodes[2..];
    let mut rules: Vec<Rule> = chain.windows(2).map(|t| rule_of(t[0], vec![Slot(t[1])])).collect();
    if seed.chance(40) {
        seed.shuffle(&mut rules);
    }
    rules.push(rule_of(chain[links], vec![Constant(palette.constants[0])]));
    rules.push(rule_of(palette.typecodes[1], vec![Constant(palette.constants[1]), Slot(chain[0])]));
    for _ in 0..seed.below(3) {
        let more = compound(seed, &palette, Style::Prefix, &rules);
        if !rules.iter().any(|earlier| collide(&earlier.body, &more.body)) {
            rules.push(more);
        }
    }
    set_of(&palette, rules, seed)
}

/// Rules that end in a slot which only several conversions lead to, mostly the first link first, so that one edge doesn't take them all: where
/// a statement ends, its last tree has to be converted while frames are left.
fn ending_set(seed: &mut Random) -> Set {
    let links = seed.between(2..=4);
    let palette = palette(seed, links + 3, 6);
    let chain = &palette.typecodes[2..];
    let mut rules: Vec<Rule> = chain.windows(2).map(|t| rule_of(t[1], vec![Slot(t[0])])).collect();
    if seed.chance(20) {
        rules.push(any_conversion(seed, &palette));
    }
    if seed.chance(40) {
        seed.shuffle(&mut rules);
    }
    rules.push(rule_of(chain[0], vec![Constant(palette.constants[0])]));
    for _ in 0..seed.between(1..=5) {
        let more = ending_rule(seed, &palette);
        if !rules.iter().any(|earlier| collide(&earlier.body, &more.body)) {
            rules.push(more);
        }
    }
    set_of(&palette, rules, seed)
}

/// A constant or two, mostly a slot of the chain behind them, and seldom something more.
fn ending_rule(seed: &mut Random, palette: &Palette) -> Rule {
    let mut body = vec![Constant(seed.pick(&palette.constants[1..]))];
    if seed.chance(30) {
        body.push(slot_of(seed, palette));
    }
    if seed.chance(90) {
        body.push(Slot(seed.pick(&palette.typecodes[3..])));
    }
    if seed.chance(25) {
        body.push(Constant(seed.pick(&palette.constants)));
    }
    let result = if seed.chance(40) {
        1
    } else {
        seed.between(1..=palette.typecodes.len() - 1)
    };
    rule_of(palette.typecodes[result], body)
}

/// A set that breaks one number of the rule table.
fn spoilt_set(seed: &mut Random) -> Set {
    let mut set = ordinary_set(seed);
    if set.rules.is_empty() {
        set.provable = set.logic;
        return set;
    }
    let at = seed.below(set.rules.len());
    let (provable, logic) = (set.provable, set.logic);
    let rule = &mut set.rules[at];
    rule.float &= seed.chance(50);
    match seed.below(6) {
        0 => *rule = rule_of(rule.result, vec![]),
        1 => rule.result = provable,
        2 => *rule = rule_of(rule.result, vec![Slot(rule.result)]),
        3 => *rule = rule_of(rule.result, vec![Constant([0, 65_536, 100_000][seed.below(3)])]),
        4 => *rule = rule_of(rule.result, vec![Constant(logic); 33]),
        _ => set.logic = provable,
    }
    set
}

/// One symbol declared as a variable by two rules.
fn float_twice(seed: &mut Random) -> Set {
    let mut set = ordinary_set(seed);
    let typecodes: Vec<u32> = set.rules.iter().map(|rule| rule.result).collect();
    let Some(at) = set.rules.iter().position(|rule| rule.float) else {
        return set;
    };
    let twin = Rule {
        result: seed.pick(&typecodes),
        ..set.rules[at].clone()
    };
    set.rules.push(twin);
    set
}

fn rule_of(result: u32, body: Vec<Item>) -> Rule {
    Rule {
        result,
        body,
        float: false,
    }
}

fn leaf(seed: &mut Random, palette: &Palette, typecode: usize) -> Rule {
    rule_of(palette.typecodes[typecode], vec![Constant(seed.pick(&palette.constants))])
}

/// Conversions that mostly run downwards along the typecodes, at most one from each: such sets seldom copy a node to itself.
fn conversions(seed: &mut Random, palette: &Palette) -> Vec<Rule> {
    let mut rules = Vec::new();
    let share = [0, 40, 70, 100][seed.below(4)];
    for from in 2..palette.typecodes.len() {
        if seed.chance(share) {
            let to = if seed.chance(60) { from - 1 } else { seed.between(1..=from - 1) };
            rules.push(rule_of(palette.typecodes[to], vec![Slot(palette.typecodes[from])]));
        }
    }
    if seed.chance(5) {
        rules.push(any_conversion(seed, palette));
    }
    rules
}

fn any_conversion(seed: &mut Random, palette: &Palette) -> Rule {
    let to = seed.between(1..=palette.typecodes.len() - 1);
    let from = (to + seed.between(1..=palette.typecodes.len() - 1)) % palette.typecodes.len();
    rule_of(palette.typecodes[to], vec![Slot(palette.typecodes[from])])
}

/// A rule of two to five items, or with luck of one; its head is often that of an earlier rule.
fn compound(seed: &mut Random, palette: &Palette, style: Style, earlier: &[Rule]) -> Rule {
    let result = if seed.chance(50) {
        1
    } else {
        seed.between(1..=palette.typecodes.len() - 1)
    };
    let mut body = Vec::new();
    if !earlier.is_empty() && seed.chance(35) {
        let model = &earlier[seed.below(earlier.len())].body;
        body.extend_from_slice(&model[..seed.below(model.len())]);
    }
    let length = seed.between(body.len() + 1..=5).max(2);
    while body.len() < length {
        let slot = match (style, body.len()) {
            (Style::Prefix, 0) => seed.chance(10),
            (Style::Prefix, _) => seed.chance(55),
            (Style::Infix, at) => seed.chance(if at % 2 == 0 { 85 } else { 15 }),
            (Style::Slots, _) => seed.chance(75),
            (Style::Free, _) => seed.chance(50),
        };
        body.push(if slot {
            slot_of(seed, palette)
        } else {
            Constant(seed.pick(&palette.constants))
        });
    }
    rule_of(palette.typecodes[result], body)
}

/// A slot, now and then of the provable typecode, which no rule results in.
fn slot_of(seed: &mut Random, palette: &Palette) -> Item {
    let first = usize::from(!seed.chance(2));
    Slot(seed.pick(&palette.typecodes[first..]))
}

/// Half of the rules that can be, are fed as variables: those of one constant that has no other role.
fn feed_floats(set: &mut Set, seed: &mut Random) {
    let rules = set.rules.clone();
    for (at, rule) in set.rules.iter_mut().enumerate() {
        let [Constant(symbol)] = rule.body[..] else { continue };
        let elsewhere = |other: &Rule| other.result == symbol || other.body.iter().any(|item| item.pair()[1] == symbol);
        let taken = [set.provable, set.logic, rule.result].contains(&symbol)
            || rules.iter().enumerate().any(|(i, other)| i != at && elsewhere(other));
        rule.float = !taken && seed.chance(50);
    }
}

/// Grows statements for one set.
pub struct Sentences<'a> {
    set: &'a Set,
    /// How high the lowest tree of each rule is; none if it has no finite tree.
    heights: Vec<Option<usize>>,
    /// For each typecode that has a sentence, the rule on top of its lowest tree.
    lowest: BTreeMap<u32, usize>,
    typecodes: Vec<u32>,
    tokens: Vec<u32>,
}

impl<'a> Sentences<'a> {
    pub fn of(set: &'a Set) -> Self {
        let mut typecodes = vec![set.provable, set.logic];
        let mut tokens = vec![9, 0, 65_536, u32::MAX];
        for rule in &set.rules {
            typecodes.push(rule.result);
            typecodes.extend(rule.slots());
            tokens.extend(rule.body.iter().map(|item| item.pair()[1]));
        }
        // A rule's own symbols come up more often than those that match nothing.
        for _ in 0..3 {
            tokens.extend_from_within(4..);
        }
        let mut sentences = Sentences {
            set,
            heights: vec![None; set.rules.len()],
            lowest: BTreeMap::new(),
            typecodes,
            tokens,
        };
        let mut height = 1;
        while sentences.raise(height) {
            height += 1;
        }
        sentences
    }

    /// Gives this height to the rules whose slots all have a lower tree; says whether there was one.
    fn raise(&mut self, height: usize) -> bool {
        let lower = self.lowest.clone();
        let mut raised = false;
        for (at, rule) in self.set.rules.iter().enumerate() {
            if self.heights[at].is_none() && rule.slots().all(|t| lower.contains_key(&t)) {
                self.heights[at] = Some(height);
                self.lowest.entry(rule.result).or_insert(at);
                raised = true;
            }
        }
        raised
    }

    pub fn grow(&self, seed: &mut Random) -> Vec<u32> {
        match seed.below(1000) {
            0..=9 => self.noise(seed, 0, 1),
            10..=99 => self.noise(seed, 2, 12),
            100..=199 => self.cut(seed),
            200..=399 => self.damaged(seed),
            400..=404 => self.sentence(seed, 20..=40, 1500),
            405..=449 => [self.sentence(seed, 1..=2, 12), self.sentence(seed, 1..=2, 12)[1..].to_vec()].concat(),
            _ => self.sentence(seed, 1..=6, 40),
        }
    }

    fn noise(&self, seed: &mut Random, shortest: usize, longest: usize) -> Vec<u32> {
        let mut statement = Vec::new();
        for at in 0..seed.between(shortest..=longest) {
            statement.push(seed.pick(if at == 0 { &self.typecodes } else { &self.tokens }));
        }
        statement
    }

    fn cut(&self, seed: &mut Random) -> Vec<u32> {
        let mut statement = self.sentence(seed, 1..=5, 30);
        statement.truncate(seed.between(2..=statement.len().max(2)));
        statement
    }

    fn damaged(&self, seed: &mut Random) -> Vec<u32> {
        let mut statement = self.sentence(seed, 1..=5, 30);
        for _ in 0..seed.between(1..=3) {
            let at = seed.below(statement.len());
            match seed.below(4) {
                0 if statement.len() > 2 => drop(statement.remove(at)),
                1 => statement.insert(at, seed.pick(&self.tokens)),
                2 => statement[at] = seed.pick(&self.tokens),
                _ => statement.swap(at, 0),
            }
        }
        statement
    }

    /// A typecode and a sentence of it, no higher than drawn from `heights` if that can be, and with no choice left once it is longer than
    /// `longest`. Where the typecode has no sentence, noise.
    fn sentence(&self, seed: &mut Random, heights: RangeInclusive<usize>, longest: usize) -> Vec<u32> {
        let mut typecode = if seed.chance(50) {
            self.set.provable
        } else {
            seed.pick(&self.typecodes)
        };
        for _ in 0..3 {
            if !self.lowest.contains_key(&self.wanted(typecode)) {
                typecode = seed.pick(&self.typecodes);
            }
        }
        let mut statement = vec![typecode];
        let height = seed.between(heights.clone());
        if !self.lowest.contains_key(&self.wanted(typecode)) {
            statement.extend(self.noise(seed, 1, 8));
        } else {
            self.tree(seed, self.wanted(typecode), height, longest, &mut statement);
        }
        statement
    }

    fn wanted(&self, typecode: u32) -> u32 {
        if typecode == self.set.provable {
            self.set.logic
        } else {
            typecode
        }
    }

    /// Only typecodes that have a sentence come here.
    fn tree(&self, seed: &mut Random, typecode: u32, height: usize, longest: usize, statement: &mut Vec<u32>) {
        let fits = |at: &usize| self.set.rules[*at].result == typecode && self.heights[*at].is_some_and(|h| h <= height);
        let mut choice: Vec<usize> = (0..self.set.rules.len()).filter(fits).collect();
        let upwards = if height > 6 { 95 } else { 60 };
        if seed.chance(upwards) && choice.iter().any(|&at| self.heights[at] > Some(1)) {
            choice.retain(|&at| self.heights[at] > Some(1));
        }
        let at = if choice.is_empty() || statement.len() > longest {
            self.lowest[&typecode]
        } else {
            choice[seed.below(choice.len())]
        };
        for item in &self.set.rules[at].body {
            match *item {
                Constant(symbol) => statement.push(symbol),
                Slot(below) => self.tree(seed, below, height.saturating_sub(1), longest, statement),
            }
        }
    }
}
