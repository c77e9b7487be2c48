//! Tables: built ones, built ones rearranged, and ones that nobody built. All pass the table check; damage is done elsewhere.

use super::rules::{Item, Rule, RuleSet};
use super::Grammar;
use crate::random::Random;

/// Words in an edge row.
pub const ROW: usize = 16;

pub type Row = [u32; ROW];

/// Room in which sets of the size that [`super::rules`] makes build: nodes and edge rows.
pub fn ample_room(set: &RuleSet) -> (usize, usize) {
    (set.items() + 2, 6 * set.items() + 40)
}

/// The set with its own tables, if it builds.
pub fn built(set: &RuleSet) -> Option<Grammar> {
    let (nodes, edges) = ample_room(set);
    let (mut nodes, mut edges) = (vec![0; nodes], vec![0; ROW * edges]);
    let rules = set.words();
    let built = plain::build(set.provable, set.logic, &rules, &[], &mut nodes, &mut edges, &mut []);
    nodes.truncate(built.nodes as usize);
    edges.truncate(ROW * built.edges as usize);
    (built.number == 0).then(|| with_tables(set, nodes, edges))
}

pub fn with_tables(set: &RuleSet, nodes: Vec<u32>, edges: Vec<u32>) -> Grammar {
    Grammar {
        provable: set.provable,
        logic: set.logic,
        rules: set.words(),
        nodes,
        edges,
    }
}

/// A row without its last zeros.
pub fn row(words: &[u32]) -> Row {
    let mut row = [0; ROW];
    row[..words.len()].copy_from_slice(words);
    row
}

/// The rows in the order of their keys; of those with one key the first stays.
fn in_order(mut rows: Vec<&[u32]>) -> Vec<u32> {
    rows.sort_by_key(|row| &row[..3]);
    rows.dedup_by_key(|row| &row[..3]);
    rows.concat()
}

/// Edges between any nodes, with any reduces.
pub fn hand_made(random: &mut Random, set: &RuleSet) -> Grammar {
    let mut nodes = vec![0; random.between(1..=10)];
    for node in &mut nodes[1..] {
        *node = if random.chance(55) { 0 } else { any_rule(random, set) };
    }
    let rows: Vec<Row> = (0..random.between(0..=30)).filter_map(|_| any_row(random, set, &nodes)).collect();
    with_tables(set, nodes, in_order(rows.iter().map(|row| &row[..]).collect()))
}

/// Built tables with rows put in (for others with the same key, at times), taken out, and leaves with other rules.
pub fn rearranged(random: &mut Random, set: &RuleSet, built: &Grammar) -> Grammar {
    let mut nodes = built.nodes.clone();
    let mut rows: Vec<&[u32]> = built.edges.chunks_exact(ROW).collect();
    if !rows.is_empty() && random.chance(30) {
        rows.swap_remove(random.below(rows.len()));
    }
    let leaves: Vec<usize> = (0..nodes.len()).filter(|&node| nodes[node] != 0).collect();
    if !leaves.is_empty() && random.chance(50) {
        nodes[random.pick(&leaves)] = random.between(1..=set.rules.len()) as u32;
    }
    let new: Vec<Row> = (0..random.between(1..=6)).filter_map(|_| any_row(random, set, &nodes)).collect();
    for row in &new {
        rows.insert(random.below(rows.len() + 1), row);
    }
    with_tables(set, nodes, in_order(rows))
}

/// The number of some rule; 0 if there are none.
fn any_rule(random: &mut Random, set: &RuleSet) -> u32 {
    match set.rules.len() {
        0 => 0,
        count => random.between(1..=count) as u32,
    }
}

/// An edge that passes the table check, unless there is no node to lead to.
fn any_row(random: &mut Random, set: &RuleSet, nodes: &[u32]) -> Option<Row> {
    let is_branch = |&node: &usize| nodes[node] == 0;
    let branches: Vec<usize> = (0..nodes.len()).filter(is_branch).collect();
    let from = if random.chance(30) { 0 } else { random.pick(&branches) };
    let variable = random.chance(40);
    let symbol = random.pick(&if variable { set.typecodes() } else { set.constants() });
    let allowed = |node: &usize| is_branch(node) || !(from == 0 && variable);
    let targets: Vec<usize> = (1..nodes.len()).filter(allowed).collect();
    if targets.is_empty() {
        return None;
    }
    let mut row = row(&[from as u32, variable as u32, symbol, random.pick(&targets) as u32]);
    add_reduces(random, set, &mut row);
    Some(row)
}

fn add_reduces(random: &mut Random, set: &RuleSet, row: &mut Row) {
    if set.rules.is_empty() {
        return;
    }
    let count = random.weighted(&[60, 20, 10, 5, 3, 2]);
    row[4] = count as u32;
    for pair in row[5..5 + 2 * count].chunks_exact_mut(2) {
        pair[0] = any_rule(random, set);
        pair[1] = match random.weighted(&[70, 20, 9, 1]) {
            0 => 0,
            1 => 1,
            2 => random.below(5) as u32,
            _ => random.below(256) as u32,
        };
    }
}

/// A token that joins trees: how far below the top, and how often.
struct Join {
    offset: usize,
    times: usize,
}

impl Join {
    /// How many trees are left of `trees` and the token's own; nothing if there are too few.
    fn left(&self, trees: usize) -> Option<usize> {
        (trees >= self.offset + self.times).then(|| trees + 1 - self.times)
    }
}

/// Tables that pile up trees and join them far below the top, and a statement that they accept unless chance leaves too many trees.
///
/// Rule 1 is a constant, rule 2 joins two trees, rule 3 is the last constant; each further rule is the constant of a join. Joining
/// neighbours keeps the spelling, so that even offsets of 255 lead to a well typed tree.
pub fn piled(random: &mut Random) -> (Grammar, Vec<u32>) {
    let joins = some_joins(random);
    let set = piled_rules(&joins);
    let mut rows = vec![row(&[0, 0, 10, 1, 1, 1]), row(&[1, 0, 10, 1, 1, 1]), row(&[1, 0, 12, 2, 1, 3])];
    rows.extend(joins.iter().zip(0..).map(|(join, number)| join_row(join, number)));
    let grammar = with_tables(&set, vec![0, 0, 2], rows.concat());
    let trees = random.between(1..=280);
    (grammar, piled_tokens(random, &joins, trees))
}

fn some_joins(random: &mut Random) -> Vec<Join> {
    let mut joins = vec![Join { offset: 0, times: 2 }];
    for _ in 0..random.between(1..=6) {
        let most = random.pick(&[1, 4, 20, 255]);
        joins.push(Join {
            offset: random.between(0..=most),
            times: random.between(1..=4),
        });
    }
    joins
}

fn piled_rules(joins: &[Join]) -> RuleSet {
    let constant = |symbol: u32| Rule::new(2, &[Item::Constant(symbol)]);
    let mut rules = vec![constant(10), Rule::new(2, &[Item::Slot(2), Item::Slot(2)]), constant(12)];
    rules.extend((0..joins.len() as u32).map(|number| constant(20 + number)));
    RuleSet {
        provable: 1,
        logic: 2,
        rules,
    }
}

fn join_row(join: &Join, number: u32) -> Row {
    let mut words = vec![1, 0, 20 + number, 1, 1 + join.times as u32, 4 + number, 0];
    words.extend([2, join.offset as u32].repeat(join.times));
    row(&words)
}

/// The constant so many times, then joins until one tree is left, then the last constant.
fn piled_tokens(random: &mut Random, joins: &[Join], trees: usize) -> Vec<u32> {
    let mut tokens = [vec![1], vec![10; trees]].concat();
    let mut trees = trees;
    while trees > 1 && tokens.len() < 900 {
        let fitting: Vec<(u32, usize)> = (20..)
            .zip(joins)
            .filter_map(|(token, join)| Some((token, join.left(trees)?)))
            .collect();
        let (token, left) = random.pick(&fitting);
        tokens.push(token);
        trees = left;
    }
    tokens.push(12);
    tokens
}
