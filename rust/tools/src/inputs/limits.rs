//! Inputs that end exactly at a limit or one past it.

use super::rules::{Item, Rule, RuleSet};
use super::tables::{row, with_tables, ROW};
use super::Grammar;

fn set(rules: Vec<Rule>) -> RuleSet {
    RuleSet {
        provable: 1,
        logic: 2,
        rules,
    }
}

fn constants(symbols: impl Iterator<Item = u32>) -> Vec<Rule> {
    symbols.map(|symbol| Rule::new(2, &[Item::Constant(symbol)])).collect()
}

/// So many rules, each of one constant.
pub fn many_rules(count: u32) -> RuleSet {
    set(constants(1..=count))
}

/// Statements of so many tokens, the first nested as deep as they are long, and a set that spells them.
pub fn many_tokens(count: usize) -> (RuleSet, Vec<Vec<u32>>) {
    let [one, two] = [2, 3].map(Item::Slot);
    let mut rules = constants([10].into_iter());
    rules.push(Rule::new(2, &[Item::Constant(14), one]));
    rules.push(Rule::new(2, &[two, Item::Constant(15), one]));
    rules.push(Rule::new(3, &[Item::Constant(16)]));
    let from_the_right = |block: &[u32]| {
        let body: Vec<u32> = block.iter().copied().cycle().take(count - 2).collect();
        [vec![1], body, vec![10]].concat()
    };
    (
        set(rules),
        vec![from_the_right(&[14]), from_the_right(&[14, 16, 15]), from_the_right(&[10])],
    )
}

/// A set whose tree has exactly so many nodes, at least 8,000 of them.
pub fn tree_of_nodes(nodes: u32) -> RuleSet {
    let fork = |symbol: u32, items: u32| Rule::new(2, &vec![Item::Constant(symbol); items as usize]);
    let mut rules: Vec<Rule> = (1..=600).map(|symbol| fork(symbol, 13)).collect();
    let missing = nodes - 1 - 600 * 13;
    rules.extend((0..missing / 25).map(|number| fork(1_000 + number, 25)));
    rules.extend((0..missing % 25).map(|number| fork(2_000 + number, 1)));
    set(rules)
}

/// A set whose tree has 16,383 edges and `more`: fifteen conversions that each copy 1,022 edges.
pub fn tree_of_edges(more: u32) -> RuleSet {
    let copied = (1..=1_022).map(|symbol| Rule::new(2, &[Item::Slot(3), Item::Constant(symbol)]));
    let receivers = (100..115).map(|typecode| Rule::new(2, &[Item::Slot(typecode), Item::Constant(2_000)]));
    let conversions = (100..115).map(|typecode| Rule::new(3, &[Item::Slot(typecode)]));
    let single = constants(3_000..3_000 + more);
    set(copied.chain(receivers).chain(conversions).chain(single).collect())
}

/// Statements that the two tables below accept, if they are not too long.
pub const ACCEPTED: [&[u32]; 2] = [&[1, 10, 11], &[1, 12]];

fn two_rules() -> RuleSet {
    let [ten, eleven, twelve] = [10, 11, 12].map(Item::Constant);
    set(vec![Rule::new(2, &[ten, eleven]), Rule::new(2, &[twelve])])
}

/// A node table of so many rows; one way leads over the last.
pub fn many_nodes(count: usize) -> Grammar {
    let mut nodes = vec![0; count];
    nodes[1..3].copy_from_slice(&[1, 2]);
    let last = count as u32 - 1;
    let rows = [row(&[0, 0, 10, last]), row(&[0, 0, 12, 2]), row(&[last, 0, 11, 1])];
    with_tables(&two_rules(), nodes, rows.concat())
}

/// An edge table of so many rows; one way leads over the last.
pub fn many_edges(count: usize) -> Grammar {
    let mut rows: Vec<[u32; ROW]> = (1..count as u32).map(|symbol| row(&[0, 0, symbol, 2])).collect();
    rows[9] = row(&[0, 0, 10, 3]);
    rows.push(row(&[3, 0, 11, 1]));
    with_tables(&two_rules(), vec![0, 1, 2, 0], rows.concat())
}

/// Rules, a statement of one symbol, and a list that goes so often round a ring of conversions.
pub fn long_list(rounds: usize) -> (RuleSet, Vec<u32>, Vec<u32>) {
    let mut rules = constants([10].into_iter());
    rules.push(Rule::new(3, &[Item::Slot(2)]));
    rules.push(Rule::new(2, &[Item::Slot(3)]));
    let list = [vec![1], [2, 3].repeat(rounds)].concat();
    (set(rules), vec![1, 10], list)
}
