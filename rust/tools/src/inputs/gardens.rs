//! Rule sets with commands: grown so that paths lead somewhere, and made on purpose.

use super::commands::{Command, Ground, Pair};
use super::rules::{Item, Rule, RuleSet};
use super::samples::edit;
use crate::random::Random;

#[derive(Clone, Debug, PartialEq, Eq)]
pub struct Garden {
    pub set: RuleSet,
    pub commands: Vec<Command>,
}

/// A random one, or a changed sample.
pub fn garden(random: &mut Random) -> Garden {
    if random.chance(15) {
        return edited_garden(random);
    }
    let mut set = small_set(random);
    let (commands, bodies) = ground(&set).commands(random);
    for body in bodies {
        let rule = Rule::new(random.pick(&[2, 2, 3, 4]), &body.iter().map(item).collect::<Vec<_>>());
        add(&mut set.rules, rule);
    }
    if random.chance(20) {
        random.shuffle(&mut set.rules);
    }
    Garden { set, commands }
}

fn item(pair: &Pair) -> Item {
    match *pair {
        [0, symbol] => Item::Constant(symbol),
        [_, typecode] => Item::Slot(typecode),
    }
}

/// The bodies that are placed, never none, and the conversions.
pub fn ground(set: &RuleSet) -> Ground {
    let mut ground = Ground::default();
    for rule in &set.rules {
        match rule.body[..] {
            [Item::Slot(from)] => ground.conversions.push([from, rule.result]),
            _ => ground.bodies.push(rule.body.iter().map(Item::pair).collect()),
        }
    }
    if ground.bodies.is_empty() {
        ground.bodies.push(vec![[0, 10]]);
    }
    ground
}

/// Unless it is a conversion with equal ends, or collides with an earlier one.
fn add(rules: &mut Vec<Rule>, rule: Rule) {
    let equal_ends = rule.body == [Item::Slot(rule.result)];
    if !equal_ends && !rules.iter().any(|earlier| rule.collides(earlier)) {
        rules.push(rule);
    }
}

/// Few symbols and short bodies, so that one body's beginning is often found within another.
fn small_set(random: &mut Random) -> RuleSet {
    let typecodes: Vec<u32> = (2..=random.between(2..=4) as u32).collect();
    let constants: Vec<u32> = (10..=random.between(11..=15) as u32).collect();
    let mut rules = Vec::new();
    for _ in 0..random.weighted(&[50, 40, 10]) {
        let [from, to] = [(); 2].map(|()| random.pick(&typecodes));
        add(&mut rules, Rule::new(to, &[Item::Slot(from)]));
    }
    let share = random.pick(&[40, 70]);
    let [first, last] = [(); 2].map(|()| Item::Constant(random.pick(&constants)));
    // What a path can begin at.
    let begin = [first, Item::Slot(random.pick(&typecodes)), last];
    rules.push(Rule::new(random.pick(&typecodes), &begin));
    for _ in 0..random.between(1..=6) {
        let item = |random: &mut Random| match random.chance(share) {
            true => Item::Constant(random.pick(&constants)),
            false => Item::Slot(random.pick(&typecodes)),
        };
        let body: Vec<Item> = (0..random.between(1..=4)).map(|_| item(random)).collect();
        add(&mut rules, Rule::new(random.pick(&typecodes), &body));
    }
    RuleSet {
        provable: 1,
        logic: 2,
        rules,
    }
}

/// Rules and commands as they are written down: a rule's result and its items; a path's two lists, or `conversions`.
type Sample = (&'static str, &'static str);

const SAMPLES: [Sample; 12] = [
    // A branch is copied; conversions; a second place that is a leaf.
    (
        "3 c20; 2 c21; 2 s3 c8 s3; 3 c5 s3 c9 s3 c6; 2 c5 s2 c7 s2 c6; 4 c22; 3 s4; 3 c5 s4 c8 s3 c10 s3 c6",
        "c5 s3 => c5 s2; conversions; c5 s4 c8 s3 => c5 s2",
    ),
    // A conflict, and a stored reduce.
    (
        "3 c20; 4 c22; 3 s4; 3 c5 s3 c6; 3 c7 s3 c8 s3 c9; 3 c5 c7 s4 c8 s4 c9 c11 s3 c6",
        "conversions; c5 c7 => c5 s3",
    ),
    ("2 c10 s2 s2; 2 c10 c11 c10; 2 c11; 2 c12", "c10 c11 => c10 s2"),
    ("2 c10 s2 c11; 2 c12; 2 c10 c12 c11 c10", "c10 c12 => c10 s2"),
    // All rows are skipped.
    ("2 c10 s2; 2 c10 c10 c10", "c10 c10 c10 => c10 s2"),
    ("2 c10 c10 c10; 2 c10 s3 c10; 3 c11", "c10 c10 => c10 s3"),
    // Reduced too late.
    (
        "2 c10; 3 c11; 2 s3; 2 c5 s2 c6; 2 c7 s2 s2; 2 c5 c7 c7 s3 c6; 2 c7 c7 c10",
        "conversions; c7 c7 => c7 s2; c5 c7 => c5 s2",
    ),
    // A copy that copies itself.
    ("2 c10 c10 s2; 2 c10 c10 c10 s2", "c10 c10 c10 => c10 c10 s2"),
    // Six reduces in a list that no row takes.
    (
        "3 s4 c8; 2 c5 s3 c9; 2 c5 s24 c8 c9; 4 s20; 20 s21; 21 s22; 22 s23; 23 s24",
        "conversions; c5 s24 => c5 s3",
    ),
    // An offset past 255.
    (
        "2 s2 s2; 2 c10 s2 c11; 2 s4; 2 c10 c10 s4 c12",
        "conversions; c10 s4 => c10 s2; c10 c10 s4 => c10 s2",
    ),
    // A circle in the source and in the copy.
    (
        "2 s2 c11; 2 c10 s2 s2; 2 s4; 2 c10 c10 s2 s2",
        "conversions; c10 s4 => c10 s2; c10 c10 s4 => c10 c10 s2; c10 c10 s2 => c10 s2",
    ),
    // The rest of the prefix begins at node 0 and is not there.
    ("2 c10 s2; 2 s3 s2; 2 c10 s3 s3 c10", "c10 s3 s3 => c10 s2"),
];

fn pair(text: &str) -> Pair {
    let (kind, symbol) = text.split_at(1);
    [(kind == "s") as u32, symbol.parse().expect("a number")]
}

fn pairs(text: &str) -> Vec<Pair> {
    text.split_whitespace().map(pair).collect()
}

fn rule(text: &str) -> Rule {
    let (result, body) = text.trim().split_once(' ').expect("a result and a body");
    Rule::new(result.parse().expect("a number"), &pairs(body).iter().map(item).collect::<Vec<_>>())
}

fn command(text: &str) -> Command {
    match text.split_once("=>") {
        Some((prefix, shadow)) => Command::Path {
            prefix: pairs(prefix),
            shadow: pairs(shadow),
        },
        None => Command::Conversions,
    }
}

pub fn samples() -> Vec<Garden> {
    let garden = |(rules, commands): Sample| Garden {
        set: RuleSet {
            provable: 1,
            logic: 2,
            rules: rules.split(';').map(rule).collect(),
        },
        commands: commands.split(';').map(command).collect(),
    };
    SAMPLES.into_iter().map(garden).collect()
}

/// A sample with up to three edits of its rules or commands.
fn edited_garden(random: &mut Random) -> Garden {
    let samples = samples();
    let mut garden = samples[random.below(samples.len())].clone();
    for _ in 0..random.between(0..=3) {
        match random.chance(50) && !garden.set.rules.is_empty() {
            true => edit(random, &mut garden.set),
            false => ground(&garden.set).edit(random, &mut garden.commands),
        }
    }
    garden
}
