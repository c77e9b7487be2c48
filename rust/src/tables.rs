//! The tree's two tables, as words and as what the words say.

use crate::errors::KeyTwice;
use crate::limits::{MOST_REDUCES, ROW_WIDTH};
use crate::numbers::{Label, NodeNo, RuleNo, Symbol};

/// Nodes and edges of a tree, made by a build or brought from outside. The rows of the edges rise by their keys: the node that an edge leaves, then
/// the label, constants before slots.
#[derive(Clone, Debug, PartialEq, Eq)]
pub struct Tables {
    nodes: Vec<u32>,
    edges: Vec<u32>,
}

/// What a node is.
#[derive(Clone, Copy, Debug, PartialEq, Eq, Hash)]
pub enum Node {
    /// Edges may leave it.
    Branch,
    /// A rule's body ends here.
    Leaf(RuleNo),
}

/// A rule that is reduced under the topmost `offset` trees.
#[derive(Clone, Copy, Debug, PartialEq, Eq, Hash)]
pub struct Reduce {
    /// The rule.
    pub rule: RuleNo,
    /// How many trees stay on top of it.
    pub offset: u32,
}

/// A row of the edge table.
#[derive(Clone, Debug, PartialEq, Eq, Hash)]
pub struct Edge {
    /// The node that it leaves.
    pub from: NodeNo,
    /// What has to be met for it to be followed.
    pub label: Label,
    /// The node that it leads to.
    pub to: NodeNo,
    /// What is reduced when it is followed, in order.
    pub reduces: Vec<Reduce>,
}

impl Tables {
    /// Tables from outside, of any words. The rows of the edges may stand in any order and are put in that of their keys; two rows with one key are
    /// refused here, and all else that tables can be refused for with 8 is found by whoever parses with them.
    pub fn from_words(nodes: impl Into<Vec<u32>>, edges: impl Into<Vec<u32>>) -> Result<Tables, KeyTwice> {
        let edges = in_order(&edges.into())?;
        Ok(Tables::built(nodes.into(), edges))
    }

    /// Tables whose rows are in order.
    pub(crate) fn built(nodes: Vec<u32>, edges: Vec<u32>) -> Tables {
        Tables { nodes, edges }
    }

    /// The words of the nodes, one for each.
    pub fn node_words(&self) -> &[u32] {
        &self.nodes
    }

    /// The words of the edges, [`ROW_WIDTH`] for each.
    pub fn edge_words(&self) -> &[u32] {
        &self.edges
    }

    /// A node; none if there is no such node.
    pub fn node(&self, node: NodeNo) -> Option<Node> {
        match *self.nodes.get(usize::try_from(node.0).ok()?)? {
            0 => Some(Node::Branch),
            rule => Some(Node::Leaf(RuleNo(rule))),
        }
    }

    /// How many words a table of the constants that leave node 0 has: one for each number up to the greatest. Bad tables may name none that is one.
    pub(crate) fn constants_of_root(&self) -> usize {
        let rows = self.edges.chunks_exact(ROW_WIDTH).take_while(|row| row.starts_with(&[0, 0]));
        let greatest = rows.last().and_then(|row| Symbol::new(*row.get(2)?));
        greatest.map_or(0, |symbol| 1 + usize::try_from(symbol.word()).unwrap_or(0))
    }

    /// The edges in row order, up to the first row whose words say none.
    pub fn edges(&self) -> impl Iterator<Item = Edge> + '_ {
        self.edges.chunks_exact(ROW_WIDTH).map_while(edge)
    }
}

/// From, kind and symbol, as numbers.
fn key(row: &[u32]) -> Option<&[u32]> {
    row.get(..3)
}

/// The rows in the order of their keys, and behind them what is no whole row. Rows whose words say no label may have one key: they are bad anyway.
fn in_order(edges: &[u32]) -> Result<Vec<u32>, KeyTwice> {
    let rows = edges.chunks_exact(ROW_WIDTH);
    let rest = rows.remainder();
    let mut rows: Vec<(usize, &[u32])> = rows.enumerate().collect();
    // rows with one key stay as they stood
    rows.sort_by_key(|(_, row)| key(row));
    let twice = rows.windows(2).find_map(|pair| match *pair {
        [(first, row), (second, other)] if key(row) == key(other) => key_twice(row, [first, second]),
        _ => None,
    });
    match twice {
        Some(twice) => Err(twice),
        None => Ok(rows.iter().flat_map(|(_, row)| *row).chain(rest).copied().collect()),
    }
}

fn key_twice(row: &[u32], rows: [usize; 2]) -> Option<KeyTwice> {
    let &[from, kind, symbol, ..] = row else { return None };
    Some(KeyTwice {
        from: NodeNo(from),
        label: Label::from_words([kind, symbol])?,
        rows,
    })
}

/// The edge of a row: from, kind, symbol, to, the count of reduces, then a rule and an offset for each.
fn edge(row: &[u32]) -> Option<Edge> {
    let &[from, kind, symbol, to, count, ref pairs @ ..] = row else {
        return None;
    };
    let count = usize::try_from(count).ok().filter(|&count| count <= MOST_REDUCES)?;
    Some(Edge {
        from: NodeNo(from),
        label: Label::from_words([kind, symbol])?,
        to: NodeNo(to),
        reduces: pairs
            .chunks_exact(2)
            .take(count)
            .map(|pair| Reduce {
                rule: RuleNo(pair[0]),
                offset: pair[1],
            })
            .collect(),
    })
}
