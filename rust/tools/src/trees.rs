//! Whether two trees are the same.

use std::collections::BTreeMap;

use crate::oracle::{Edge, Node, Tree};

#[derive(Clone, Copy, Debug, PartialEq, Eq)]
pub enum Relation {
    Equal,
    /// Equal but for the numbers of nodes: the Rust numbers copied ones in the order of its maps.
    Renumbered,
    /// Renumbered, and with higher offsets in the first tree: the Rust doesn't raise them on a copied variable edge.
    Raised,
    Other,
}

pub fn relation(ours: &Tree, theirs: &Tree) -> Relation {
    if ours == theirs {
        return Relation::Equal;
    }
    match (by_reach(ours), by_reach(theirs)) {
        (Some(ours), Some(theirs)) if ours == theirs => Relation::Renumbered,
        (Some(ours), Some(theirs)) if is_raised(&ours, &theirs) => Relation::Raised,
        _ => Relation::Other,
    }
}

/// The tree with its nodes numbered as they are first reached from node 0, edges in the order of their keys. Two trees are equal but for
/// numbers if and only if these are equal. None if some node isn't reached, or an edge leads nowhere.
pub fn by_reach(tree: &Tree) -> Option<Tree> {
    let mut leaving: BTreeMap<u32, Vec<&Edge>> = BTreeMap::new();
    for edge in &tree.edges {
        leaving.entry(edge.from).or_default().push(edge);
    }
    let mut numbers = BTreeMap::from([(0, 0)]);
    let mut reached = vec![0];
    let mut edges = Vec::new();
    let mut next = 0;
    while let Some(&node) = reached.get(next) {
        for edge in leaving.get(&node).into_iter().flatten() {
            let to = *numbers.entry(edge.to).or_insert_with(|| {
                reached.push(edge.to);
                reached.len() as u32 - 1
            });
            edges.push(Edge {
                from: next as u32,
                to,
                ..(*edge).clone()
            });
        }
        next += 1;
    }
    if reached.len() != tree.nodes.len() || edges.len() != tree.edges.len() {
        return None;
    }
    let nodes: Option<Vec<Node>> = reached.iter().map(|&node| tree.nodes.get(node as usize).cloned()).collect();
    Some(Tree { nodes: nodes?, edges })
}

fn is_raised(ours: &Tree, theirs: &Tree) -> bool {
    let raised = |(one, other): (&Edge, &Edge)| {
        let same_key = (one.from, one.kind, one.symbol, one.to) == (other.from, other.kind, other.symbol, other.to);
        let reduces = one.reduces.iter().zip(&other.reduces);
        let higher = reduces.into_iter().all(|(one, other)| one.0 == other.0 && one.1 >= other.1);
        same_key && one.reduces.len() == other.reduces.len() && higher
    };
    ours.nodes == theirs.nodes && ours.edges.len() == theirs.edges.len() && ours.edges.iter().zip(&theirs.edges).all(raised)
}

#[cfg(test)]
mod tests {
    use super::{relation, Relation};
    use crate::oracle::{Edge, Node, Tree};

    /// Each edge: from, symbol, to, offset of a reduce of rule 1.
    fn tree(nodes: &[u32], edges: &[[u32; 4]]) -> Tree {
        let node = |&rule: &u32| match rule {
            0 => Node::Branch,
            rule => Node::Leaf {
                rule,
                typecode: 2,
                slots: 0,
            },
        };
        let edge = |&[from, symbol, to, offset]: &[u32; 4]| Edge {
            from,
            kind: 0,
            symbol,
            to,
            reduces: vec![(1, offset)],
        };
        let mut edges: Vec<Edge> = edges.iter().map(edge).collect();
        edges.sort();
        Tree {
            nodes: nodes.iter().map(node).collect(),
            edges,
        }
    }

    #[test]
    fn numbers_of_nodes_do_not_matter() {
        let one = tree(&[0, 0, 1, 2], &[[0, 10, 1, 0], [1, 10, 2, 0], [1, 11, 3, 0]]);
        let other = tree(&[0, 2, 0, 1], &[[0, 10, 2, 0], [2, 10, 3, 0], [2, 11, 1, 0]]);
        assert_eq!(relation(&one, &one), Relation::Equal);
        assert_eq!(relation(&one, &other), Relation::Renumbered);
        let swapped = tree(&[0, 2, 0, 1], &[[0, 10, 2, 0], [2, 10, 1, 0], [2, 11, 3, 0]]);
        assert_eq!(relation(&one, &swapped), Relation::Other);
    }

    #[test]
    fn offsets_may_be_higher_and_not_lower() {
        let one = tree(&[0, 1], &[[0, 10, 1, 1]]);
        let other = tree(&[0, 1], &[[0, 10, 1, 0]]);
        assert_eq!(relation(&one, &other), Relation::Raised);
        assert_eq!(relation(&other, &one), Relation::Other);
    }

    #[test]
    fn shared_nodes_are_not_twins() {
        let shared = tree(&[0, 1, 1], &[[0, 10, 1, 0], [0, 11, 1, 0]]);
        let twins = tree(&[0, 1, 1], &[[0, 10, 1, 0], [0, 11, 2, 0]]);
        assert_eq!(relation(&shared, &twins), Relation::Other);
    }
}
