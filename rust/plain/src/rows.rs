//! Node and edge rows, look-up, the table check, and reduce lists.

use std::collections::HashMap;

use crate::numbers::{NodeNo, Refusal, RuleNo, Symbol, EDGE_LIMIT, NODE_LIMIT, OFFSET_LIMIT, REDUCE_LIMIT, ROOT};
use crate::rules::{Item, Rules};

/// Words in an edge row.
pub const ROW: usize = 16;
/// Where in a row the reduce pairs begin.
const PAIRS: usize = 5;
/// The last word of a row, always 0.
const LAST: usize = ROW - 1;

#[derive(Clone, Copy, Debug, PartialEq, Eq)]
pub struct Reduce {
    pub rule: RuleNo,
    pub offset: u32,
}

impl Reduce {
    /// Of the trees on top.
    pub fn whole(rule: RuleNo) -> Reduce {
        Reduce { rule, offset: 0 }
    }

    fn read(pair: &[u32], rules: &Rules) -> Option<Reduce> {
        let rule = rules.named(pair[0])?;
        (pair[1] <= OFFSET_LIMIT).then_some(Reduce { rule, offset: pair[1] })
    }
}

/// The lists one behind the other; 14 if they are more than an edge takes.
pub fn joined(lists: &[&[Reduce]]) -> Result<Vec<Reduce>, Refusal> {
    let reduces = lists.concat();
    if reduces.len() > REDUCE_LIMIT {
        return Err(Refusal::SixthReduce);
    }
    Ok(reduces)
}

/// The list as it has to be behind one more item: behind a slot one more tree lies on top. 15 if an offset can't be raised.
pub fn behind(item: Item, reduces: &[Reduce]) -> Result<Vec<Reduce>, Refusal> {
    let raised = |reduce: &Reduce| match item {
        Item::Constant(_) => Ok(*reduce),
        Item::Slot(_) if reduce.offset == OFFSET_LIMIT => Err(Refusal::OffsetPastLimit),
        Item::Slot(_) => Ok(Reduce {
            offset: reduce.offset + 1,
            ..*reduce
        }),
    };
    reduces.iter().map(raised).collect()
}

/// Where an edge leads and what is reduced on the way.
#[derive(Clone, Debug, PartialEq, Eq)]
pub struct Edge {
    pub to: NodeNo,
    pub reduces: Vec<Reduce>,
}

/// What a row is found by. Rows stand in the order of their keys: from, then kind, then symbol, as numbers.
pub type Key = (NodeNo, Item);

/// An edge with its key.
#[derive(Clone, Debug, PartialEq, Eq)]
pub struct Row {
    pub from: NodeNo,
    pub item: Item,
    pub edge: Edge,
}

impl Row {
    /// The row that sixteen words write, if each number in it is within its own bounds and both ends are among `nodes` nodes.
    fn read(words: &[u32; ROW], rules: &Rules, nodes: usize) -> Option<Row> {
        let node = |word: u32| ((word as usize) < nodes).then_some(NodeNo(word));
        let count = words[4] as usize;
        if count > REDUCE_LIMIT {
            return None;
        }
        let (used, unused) = words[PAIRS..LAST].split_at(2 * count);
        if words[LAST] != 0 || unused.iter().any(|&word| word != 0) {
            return None;
        }
        let reduces = used.chunks_exact(2).map(|pair| Reduce::read(pair, rules)).collect::<Option<_>>()?;
        Some(Row {
            from: node(words[0])?,
            item: Item::read(words[1], words[2])?,
            edge: Edge {
                to: node(words[3])?,
                reduces,
            },
        })
    }

    fn key(&self) -> Key {
        (self.from, self.item)
    }
}

/// The row of an edge.
pub fn row_words((from, item): Key, edge: &Edge) -> [u32; ROW] {
    let mut words = [0; ROW];
    let [kind, symbol] = item.words();
    words[..PAIRS].copy_from_slice(&[from.word(), kind, symbol, edge.to.word(), edge.reduces.len() as u32]);
    for (pair, reduce) in words[PAIRS..LAST].chunks_exact_mut(2).zip(&edge.reduces) {
        pair.copy_from_slice(&[reduce.rule.word(), reduce.offset]);
    }
    words
}

#[derive(Clone, Debug, PartialEq, Eq)]
pub enum Node {
    Branch(HashMap<Item, Edge>),
    Leaf(RuleNo),
}

/// Tables that passed the table check.
#[derive(Clone, Debug, PartialEq, Eq)]
pub struct Tables {
    nodes: Vec<Node>,
}

impl Tables {
    /// Nothing where the paper says 8.
    pub fn read(rules: &Rules, nodes: &[u32], edges: &[u32]) -> Option<Tables> {
        let rows = edges.chunks_exact(ROW);
        if nodes.len() > NODE_LIMIT || rows.len() > EDGE_LIMIT || !rows.remainder().is_empty() {
            return None;
        }
        let mut tables = Tables {
            nodes: nodes.iter().map(|&word| read_node(word, rules)).collect::<Option<_>>()?,
        };
        if !matches!(tables.nodes.first(), Some(Node::Branch(_))) {
            return None;
        }
        let mut before = None;
        for words in rows {
            let row = Row::read(words.try_into().ok()?, rules, nodes.len())?;
            let key = row.key();
            if before.replace(key).is_some_and(|before| before >= key) {
                return None;
            }
            tables.add(row)?;
        }
        Some(tables)
    }

    fn add(&mut self, row: Row) -> Option<()> {
        let to_leaf = matches!(self.nodes[row.edge.to.index()], Node::Leaf(_));
        if row.edge.to == ROOT || (row.from == ROOT && matches!(row.item, Item::Slot(_)) && to_leaf) {
            return None;
        }
        match &mut self.nodes[row.from.index()] {
            Node::Branch(edges) => edges.insert(row.item, row.edge),
            Node::Leaf(_) => return None,
        };
        Some(())
    }

    pub fn node(&self, node: NodeNo) -> &Node {
        &self.nodes[node.index()]
    }

    /// The edge by which a tree of this typecode leaves the node.
    pub fn variable_edge(&self, node: NodeNo, typecode: Symbol) -> Option<&Edge> {
        match self.node(node) {
            Node::Branch(edges) => edges.get(&Item::Slot(typecode)),
            Node::Leaf(_) => None,
        }
    }
}

fn read_node(word: u32, rules: &Rules) -> Option<Node> {
    if word == 0 {
        return Some(Node::Branch(HashMap::new()));
    }
    rules.named(word).map(Node::Leaf)
}
