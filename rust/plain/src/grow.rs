//! Growing the tree: rules first, then commands, conversions among them or last.

use std::collections::BTreeMap;

use crate::garden::{Command, Taken};
use crate::numbers::{NodeNo, Refusal, RuleNo, ROOT};
use crate::rows::{behind, joined, Edge, Key, Reduce};
use crate::rules::{Conversion, Item, Rules};

/// How many rows may be made, and how many clones may have begun and not be done.
#[derive(Clone, Copy, Debug)]
pub struct Room {
    pub nodes: usize,
    pub edges: usize,
    pub frames: usize,
}

/// A tree in the making.
#[derive(Clone, Debug)]
pub struct Tree {
    /// A leaf's rule, or nothing for a branch.
    pub nodes: Vec<Option<RuleNo>>,
    /// The edges by their keys, in the order of the keys.
    pub rows: BTreeMap<Key, Edge>,
    /// For each garden path so far, what it took up.
    pub taken: Vec<Taken>,
    pub(crate) room: Room,
}

/// The whole tree, or the first refusal.
pub fn grow(rules: &Rules, commands: &[u32], room: Room) -> Result<Tree, Refusal> {
    let mut tree = Tree::empty(room);
    tree.grow(rules, commands)?;
    Ok(tree)
}

impl Tree {
    pub fn empty(room: Room) -> Tree {
        Tree {
            nodes: Vec::new(),
            rows: BTreeMap::new(),
            taken: Vec::new(),
            room,
        }
    }

    /// Of a refused tree what stood then is left.
    pub fn grow(&mut self, rules: &Rules, commands: &[u32]) -> Result<(), Refusal> {
        self.add_node(None)?;
        for (rule, placed) in rules.numbered().filter(|(_, rule)| rule.converts().is_none()) {
            self.place(rule, &placed.body)?;
        }
        let converted = self.run(rules, commands)?;
        if converted {
            return Ok(());
        }
        self.convert_all(rules)
    }

    /// Each command is read when the one before it is done. Says whether one was the conversions.
    fn run(&mut self, rules: &Rules, commands: &[u32]) -> Result<bool, Refusal> {
        let mut converted = false;
        let mut left = commands;
        while !left.is_empty() {
            let (command, rest) = Command::read(left).ok_or(Refusal::BadCommand)?;
            match command {
                Command::Path { prefix, shadow } => self.garden_path(&prefix, &shadow)?,
                Command::Conversions => {
                    self.convert_all(rules)?;
                    converted = true;
                }
            }
            left = rest;
        }
        Ok(converted)
    }

    fn convert_all(&mut self, rules: &Rules) -> Result<(), Refusal> {
        rules.conversions().iter().try_for_each(|&conversion| self.convert(conversion))
    }

    /// What leaves a node now, in the order of the keys. An edge that stands is never changed, so what is made later doesn't show in it.
    pub(crate) fn leaving(&self, node: NodeNo) -> Vec<(Item, Edge)> {
        let (first, last) = Item::ends();
        let rows = self.rows.range((node, first)..=(node, last));
        rows.map(|(&(_, item), edge)| (item, edge.clone())).collect()
    }

    pub(crate) fn edge(&self, from: NodeNo, item: Item) -> Option<&Edge> {
        self.rows.get(&(from, item))
    }

    pub(crate) fn is_leaf(&self, node: NodeNo) -> bool {
        self.nodes[node.index()].is_some()
    }

    pub(crate) fn add_node(&mut self, leaf: Option<RuleNo>) -> Result<NodeNo, Refusal> {
        if self.nodes.len() >= self.room.nodes {
            return Err(Refusal::NodesFull);
        }
        let node = NodeNo(self.nodes.len() as u32);
        self.nodes.push(leaf);
        Ok(node)
    }

    pub(crate) fn add_row(&mut self, from: NodeNo, item: Item, edge: Edge) -> Result<(), Refusal> {
        if self.rows.len() >= self.room.edges {
            return Err(Refusal::EdgesFull);
        }
        self.rows.insert((from, item), edge);
        Ok(())
    }

    /// A new node behind a new edge without reduces.
    fn extend(&mut self, from: NodeNo, item: Item, leaf: Option<RuleNo>) -> Result<NodeNo, Refusal> {
        let to = self.add_node(leaf)?;
        let reduces = Vec::new();
        self.add_row(from, item, Edge { to, reduces })?;
        Ok(to)
    }

    fn place(&mut self, rule: RuleNo, body: &[Item]) -> Result<(), Refusal> {
        let Some((&last, before)) = body.split_last() else { return Ok(()) };
        let mut node = ROOT;
        for &item in before {
            node = match self.edge(node, item).map(|edge| edge.to) {
                // An earlier body ends here, and this one continues it.
                Some(to) if self.is_leaf(to) => return Err(Refusal::BodiesCollide),
                Some(to) => to,
                None => self.extend(node, item, None)?,
            };
        }
        // An earlier body equals this one or goes on where it ends.
        if self.edge(node, last).is_some() {
            return Err(Refusal::BodiesCollide);
        }
        self.extend(node, last, Some(rule)).map(|_| ())
    }

    fn convert(&mut self, conversion: Conversion) -> Result<(), Refusal> {
        for node in (0..self.nodes.len() as u32).map(NodeNo) {
            self.convert_at(node, conversion)?;
        }
        Ok(())
    }

    fn convert_at(&mut self, node: NodeNo, conversion: Conversion) -> Result<(), Refusal> {
        let Some(edge) = self.edge(node, Item::Slot(conversion.to)) else {
            return Ok(());
        };
        let to = edge.to;
        if let Some(onto) = self.edge(node, Item::Slot(conversion.from)).map(|edge| edge.to) {
            return self.copy_branches(to, onto, conversion.rule);
        }
        let reduces = joined(&[&[Reduce::whole(conversion.rule)], &edge.reduces])?;
        self.add_row(node, Item::Slot(conversion.from), Edge { to, reduces })
    }

    /// 16 if rows can't be copied between the two.
    pub(crate) fn may_copy(&self, from: NodeNo, onto: NodeNo) -> Result<(), Refusal> {
        if from == onto {
            return Err(Refusal::CopiedToItself);
        }
        if self.is_leaf(from) || self.is_leaf(onto) {
            return Err(Refusal::LeafCopied);
        }
        Ok(())
    }

    fn copy_branches(&mut self, from: NodeNo, onto: NodeNo, rule: RuleNo) -> Result<(), Refusal> {
        self.may_copy(from, onto)?;
        for (item, edge) in self.leaving(from) {
            self.copy_row(item, &edge, onto, rule)?;
        }
        Ok(())
    }

    fn copy_row(&mut self, item: Item, edge: &Edge, onto: NodeNo, rule: RuleNo) -> Result<(), Refusal> {
        if self.edge(onto, item).is_some() {
            return Ok(());
        }
        let first = behind(item, &[Reduce::whole(rule)])?;
        let reduces = joined(&[&first, &edge.reduces])?;
        self.add_row(onto, item, Edge { to: edge.to, reduces })
    }
}
