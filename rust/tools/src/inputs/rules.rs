//! Random rule sets: few symbols, so that bodies collide, share beginnings and can be spelled, all of it often.

use crate::random::Random;

#[derive(Clone, Copy, Debug, PartialEq, Eq)]
pub enum Item {
    Constant(u32),
    Slot(u32),
}

impl Item {
    pub fn pair(&self) -> [u32; 2] {
        match *self {
            Item::Constant(symbol) => [0, symbol],
            Item::Slot(typecode) => [1, typecode],
        }
    }
}

/// The third words of a body's items, whatever the body is.
#[derive(Clone, Copy, Debug, PartialEq, Eq)]
pub struct Variables {
    /// Of the first slot; each further one has more by the step.
    first: u32,
    step: u32,
    /// An item with another third word.
    fault: Option<(usize, u32)>,
}

/// 1, 2, 3 and so on.
const COUNTED: Variables = Variables {
    first: 1,
    step: 1,
    fault: None,
};

impl Variables {
    /// Of items of these kinds.
    fn words(self, kinds: impl Iterator<Item = u32>) -> Vec<u32> {
        let mut slots = 0;
        let mut words: Vec<u32> = kinds
            .map(|kind| {
                slots += kind;
                kind * self.first.wrapping_add(self.step.wrapping_mul(slots.wrapping_sub(1)))
            })
            .collect();
        if let Some((place, word)) = self.fault {
            words.get_mut(place).into_iter().for_each(|third| *third = word);
        }
        words
    }

    /// Different ones for the slots of any body.
    fn any(random: &mut Random) -> Variables {
        let [first, step] = random.pick(&[[1, 1], [2, 1], [60, 2_000], [65_535 - 31, 1], [65_535, u32::MAX], [32, u32::MAX]]);
        Variables { first, step, fault: None }
    }
}

#[derive(Clone, Debug, PartialEq, Eq)]
pub struct Rule {
    pub result: u32,
    pub body: Vec<Item>,
    variables: Variables,
}

impl Rule {
    pub fn new(result: u32, body: &[Item]) -> Rule {
        Rule {
            result,
            body: body.to_vec(),
            variables: COUNTED,
        }
    }

    /// An item's kind, symbol and variable.
    pub fn words(&self) -> Vec<u32> {
        let kinds = self.body.iter().map(|item| item.pair()[0]);
        let mut words = vec![self.result, self.body.len() as u32];
        for (item, variable) in self.body.iter().zip(self.variables.words(kinds)) {
            words.extend(item.pair());
            words.push(variable);
        }
        words
    }

    /// The words that it had when items had no variables.
    pub fn old_words(&self) -> Vec<u32> {
        let pairs = self.body.iter().flat_map(Item::pair);
        [self.result, self.body.len() as u32].into_iter().chain(pairs).collect()
    }

    fn slots(&self) -> Vec<usize> {
        let slot = |place: &usize| matches!(self.body[*place], Item::Slot(_));
        (0..self.body.len()).filter(slot).collect()
    }

    fn is_conversion(&self) -> bool {
        matches!(self.body[..], [Item::Slot(_)])
    }

    /// Conversions are not placed in the tree, and so collide with nothing.
    pub fn collides(&self, other: &Rule) -> bool {
        let common = self.body.starts_with(&other.body) || other.body.starts_with(&self.body);
        common && !self.is_conversion() && !other.is_conversion()
    }
}

#[derive(Clone, Debug, PartialEq, Eq)]
pub struct RuleSet {
    pub provable: u32,
    pub logic: u32,
    pub rules: Vec<Rule>,
}

impl RuleSet {
    pub fn words(&self) -> Vec<u32> {
        self.rules.iter().flat_map(Rule::words).collect()
    }

    /// How many items all bodies have: no tree of the set has more nodes behind node 0.
    pub fn items(&self) -> usize {
        self.rules.iter().map(|rule| rule.body.len()).sum()
    }

    /// Every constant that a body has, each once; never none, so that one can be picked.
    pub fn constants(&self) -> Vec<u32> {
        let constant = |&item: &Item| match item {
            Item::Constant(symbol) => Some(symbol),
            Item::Slot(_) => None,
        };
        sorted(self.rules.iter().flat_map(|rule| &rule.body).filter_map(constant).chain([10]))
    }

    /// Every typecode that a result or a slot has, and the logic one.
    pub fn typecodes(&self) -> Vec<u32> {
        let slot = |&item: &Item| match item {
            Item::Constant(_) => None,
            Item::Slot(typecode) => Some(typecode),
        };
        let slots = self.rules.iter().flat_map(|rule| &rule.body).filter_map(slot);
        sorted(self.rules.iter().map(|rule| rule.result).chain(slots).chain([self.logic]))
    }
}

fn sorted(symbols: impl Iterator<Item = u32>) -> Vec<u32> {
    let mut symbols: Vec<u32> = symbols.collect();
    symbols.sort_unstable();
    symbols.dedup();
    symbols
}

/// What the rules of one set are made of. The first typecode is the logic one.
struct Palette {
    provable: u32,
    typecodes: Vec<u32>,
    constants: Vec<u32>,
    /// The next typecode that nothing uses yet.
    fresh: u32,
}

impl Palette {
    fn new(random: &mut Random, size: usize) -> Palette {
        let typecodes = random.between(1..=5) as u32;
        let constants = random.between(3..=5 + size) as u32;
        // Constants may share their numbers with typecodes, and symbols may be the highest.
        let [low, high] = if random.chance(20) { [65_535 - constants, 60_000] } else { [10, 2] };
        let low = if random.chance(15) { high } else { low };
        Palette {
            provable: if random.chance(90) { 1 } else { 65_535 },
            typecodes: (high..high + typecodes).collect(),
            constants: (low..low + constants).collect(),
            fresh: 50_000,
        }
    }

    fn constant(&self, random: &mut Random) -> Item {
        Item::Constant(random.pick(&self.constants))
    }

    fn slot(&self, random: &mut Random) -> Item {
        // A slot may have the provable typecode; nothing ever fills it.
        Item::Slot(if random.chance(1) {
            self.provable
        } else {
            random.pick(&self.typecodes)
        })
    }

    fn item(&self, random: &mut Random) -> Item {
        if random.chance(50) {
            self.constant(random)
        } else {
            self.slot(random)
        }
    }

    fn fresh(&mut self) -> u32 {
        self.fresh += 1;
        self.fresh
    }
}

/// About `size` rules, with conversions among them.
pub fn rule_set(random: &mut Random, size: usize) -> RuleSet {
    let mut palette = Palette::new(random, size);
    let careful = random.chance(90);
    let mut rules: Vec<Rule> = Vec::new();
    for turn in 0..size {
        let mut new = next_rules(random, &mut palette, &rules, turn);
        new.retain(|rule| !(careful && rules.iter().any(|earlier| rule.collides(earlier))));
        rules.extend(new);
    }
    if random.chance(30) {
        random.shuffle(&mut rules);
    }
    RuleSet {
        provable: palette.provable,
        logic: palette.typecodes[0],
        rules,
    }
}

/// Mostly one rule; a chain or ring of conversions at times. The first turns give each typecode something to end with.
fn next_rules(random: &mut Random, palette: &mut Palette, earlier: &[Rule], turn: usize) -> Vec<Rule> {
    if let Some(&result) = palette.typecodes.get(turn) {
        return vec![Rule::new(result, &[palette.constant(random)])];
    }
    match random.weighted(&[88, 8, 3, 1]) {
        0 => one_rule(random, palette, earlier),
        1 => conversions(random, palette, 1),
        2 => chain(random, palette),
        _ => ring(random, palette),
    }
}

/// None where it would be a slot of the result's own typecode alone: bad rules come by damage.
fn one_rule(random: &mut Random, palette: &Palette, earlier: &[Rule]) -> Vec<Rule> {
    let result = random.pick(&palette.typecodes);
    let body = body(random, palette, earlier);
    if body == [Item::Slot(result)] {
        return Vec::new();
    }
    vec![Rule::new(result, &body)]
}

fn body(random: &mut Random, palette: &Palette, earlier: &[Rule]) -> Vec<Item> {
    let [open, mid, close] = [(); 3].map(|()| palette.constant(random));
    let [left, right] = [(); 2].map(|()| palette.slot(random));
    match random.weighted(&[15, 20, 10, 20, 15, 5, 5, 10, 10, 15, 1]) {
        0 => vec![open],
        1 => vec![open, left],
        2 => vec![open, left, right],
        3 => vec![left, mid, right],
        4 => vec![open, left, mid, right, close],
        5 => vec![left, close],
        6 => vec![left, right, close],
        7 => items(random, palette, 6),
        8 => shared_beginning(random, palette, earlier),
        9 => twin(random, palette, earlier),
        _ => items(random, palette, 32),
    }
}

/// An earlier body with other typecodes in some slots, and another end: where a conversion joins the two, edges are copied.
fn twin(random: &mut Random, palette: &Palette, earlier: &[Rule]) -> Vec<Item> {
    let mut body = any_body(random, earlier);
    for item in &mut body {
        if matches!(item, Item::Slot(_)) && random.chance(60) {
            *item = palette.slot(random);
        }
    }
    body.pop();
    body.push(palette.item(random));
    body
}

fn any_body(random: &mut Random, earlier: &[Rule]) -> Vec<Item> {
    match earlier.len() {
        0 => Vec::new(),
        count => earlier[random.below(count)].body.clone(),
    }
}

fn items(random: &mut Random, palette: &Palette, most: usize) -> Vec<Item> {
    (0..random.between(1..=most)).map(|_| palette.item(random)).collect()
}

/// A part of an earlier body, and then something else.
fn shared_beginning(random: &mut Random, palette: &Palette, earlier: &[Rule]) -> Vec<Item> {
    let mut body = any_body(random, earlier);
    body.truncate(random.below(body.len() + 1).min(28));
    body.extend(items(random, palette, 4));
    body
}

/// Conversions along a path of typecodes that starts at a used one. Typecodes in use are picked at times, else fresh ones are taken.
fn conversions(random: &mut Random, palette: &mut Palette, links: usize) -> Vec<Rule> {
    let fresh = random.chance(60);
    let mut path = vec![random.pick(&palette.typecodes)];
    for _ in 0..links {
        let next = if fresh { palette.fresh() } else { random.pick(&palette.typecodes) };
        path.push(next);
    }
    let mut rules = links_of(&path);
    // Twice the same conversion: a finish takes the first.
    if random.chance(15) {
        rules.extend(rules.first().cloned());
    }
    // With a constant of its own, the far end can occur in a statement.
    if fresh && random.chance(70) {
        let end = path[path.len() - 1];
        palette.typecodes.push(end);
        rules.push(Rule::new(end, &[palette.constant(random)]));
    }
    rules
}

/// The conversions from each typecode of the path to the one before it; none between equals.
fn links_of(path: &[u32]) -> Vec<Rule> {
    let distinct = path.windows(2).filter(|pair| pair[0] != pair[1]);
    distinct.map(|pair| Rule::new(pair[0], &[Item::Slot(pair[1])])).collect()
}

/// Last link first, which is how all of them get onto one edge; or the other way round.
fn chain(random: &mut Random, palette: &mut Palette) -> Vec<Rule> {
    let links = random.between(2..=7);
    let mut rules = conversions(random, palette, links);
    if random.chance(30) {
        rules.reverse();
    }
    rules
}

fn ring(random: &mut Random, palette: &mut Palette) -> Vec<Rule> {
    let mut path: Vec<u32> = (0..random.between(1..=3)).map(|_| palette.fresh()).collect();
    let start = if random.chance(50) {
        random.pick(&palette.typecodes)
    } else {
        palette.fresh()
    };
    path.push(start);
    path.insert(0, start);
    let mut rules = links_of(&path);
    rules.push(Rule::new(start, &[palette.constant(random)]));
    rules
}

/// Other variables in the slots of each rule, still different ones.
pub fn rename(random: &mut Random, set: &mut RuleSet) {
    set.rules.iter_mut().for_each(|rule| rule.variables = Variables::any(random));
}

/// One variable in two slots, if a rule has two.
fn same_variable(random: &mut Random, set: &mut RuleSet) {
    let mut rules: Vec<&mut Rule> = set.rules.iter_mut().filter(|rule| rule.slots().len() > 1).collect();
    if rules.is_empty() {
        return;
    }
    let place = random.below(rules.len());
    let rule = &mut rules[place];
    let slots = rule.slots();
    let (one, other) = (random.below(slots.len()), random.below(slots.len() - 1));
    let other = if other < one { other } else { other + 1 };
    let word = rule.words()[2 + 3 * slots[one] + 2];
    rule.variables.fault = Some((slots[other], word));
}

/// The ends of the range of variables, and past them.
const VARIABLES: [u32; 5] = [0, 1, 65_535, 65_536, u32::MAX];

/// Sets one number of one rule to an end of its range, or just past it; or has one variable in two slots.
pub fn rule_fault(random: &mut Random, set: &mut RuleSet) {
    if set.rules.is_empty() {
        return;
    }
    if random.chance(15) {
        return same_variable(random, set);
    }
    let (provable, place) = (set.provable, random.below(set.rules.len()));
    let rule = &mut set.rules[place];
    let item = random.below(rule.body.len());
    let symbol = random.pick(&[0, 1, 65_535, 65_536]);
    match random.below(8) {
        0 => rule.result = random.pick(&[0, 65_535, 65_536, provable]),
        1 => rule.body[item] = Item::Constant(symbol),
        2 => rule.body[item] = Item::Slot(symbol),
        3 => rule.body = vec![Item::Slot(rule.result)],
        4 => rule.body.clear(),
        5 => rule.variables.fault = Some((item, random.pick(&VARIABLES))),
        6 => rule.variables.fault = rule.slots().first().map(|&slot| (slot, random.pick(&VARIABLES))),
        _ => rule.body = vec![rule.body[item]; random.between(31..=33)],
    }
}
