//! Garden paths: where a prefix that rules share hides that its beginning is a formula already, the tree is copied behind it.

use crate::grow::Tree;
use crate::numbers::{NodeNo, Refusal, ROOT, TAKEN_LIMIT};
use crate::rows::{behind, joined, Edge, Reduce};
use crate::rules::Item;

/// Words of a frame that is lent for a clone.
pub const FRAME: usize = 16;

/// What can be asked for after the rules.
#[derive(Clone, Debug, PartialEq, Eq)]
pub enum Command {
    Path { prefix: Vec<Item>, shadow: Vec<Item> },
    Conversions,
}

impl Command {
    /// The command that the words begin with, and the words after it; nothing if they begin with none.
    pub fn read(words: &[u32]) -> Option<(Command, &[u32])> {
        match words {
            [2, rest @ ..] => Some((Command::Conversions, rest)),
            [1, prefix, shadow, rest @ ..] => {
                let (prefix, rest) = items(*prefix, rest)?;
                let (shadow, rest) = items(*shadow, rest)?;
                Some((Command::Path { prefix, shadow }, rest))
            }
            _ => None,
        }
    }
}

/// Two words each: in a path a slot has no variable.
fn items(count: u32, words: &[u32]) -> Option<(Vec<Item>, &[u32])> {
    let width = 2 * count as usize;
    let pairs = words.get(..width)?.chunks_exact(2);
    let items = pairs.map(|pair| Item::read(pair[0], pair[1])).collect::<Option<_>>()?;
    Some((items, &words[width..]))
}

/// What a garden path took up.
#[derive(Clone, Copy, Debug, Default, PartialEq, Eq)]
pub struct Taken {
    pub edges: usize,
    /// The most clones that had begun and were not done.
    pub deepest: usize,
}

/// A clone that has begun: rows of `from` that stood then, copied to `to`.
struct Cloning {
    from: NodeNo,
    to: NodeNo,
    rows: std::vec::IntoIter<(Item, Edge)>,
    /// What has to be reduced once the copied body is whole.
    stored: Vec<Reduce>,
}

/// From where, to where, and what is stored.
type Begun = (NodeNo, NodeNo, Vec<Reduce>);

/// The target's reduces beside those of the source: the source's that the target lacks. 16 if the target has others. Offsets are not
/// compared.
fn diff_extend(source: &[Reduce], target: &[Reduce]) -> Result<Vec<Reduce>, Refusal> {
    let mut target = target.iter().peekable();
    let mut missing = Vec::new();
    for reduce in source {
        if target.next_if(|other| other.rule == reduce.rule).is_none() {
            missing.push(*reduce);
        }
    }
    match target.next() {
        Some(_) => Err(Refusal::BadPath),
        None => Ok(missing),
    }
}

impl Tree {
    pub(crate) fn garden_path(&mut self, prefix: &[Item], shadow: &[Item]) -> Result<(), Refusal> {
        self.taken.push(Taken::default());
        let common = prefix
            .iter()
            .zip(shadow)
            .position(|(one, other)| one != other)
            .ok_or(Refusal::BadPath)?;
        let parting = self.common_part(&prefix[..common])?;
        let shadowed = self.shadowed(parting, shadow[common])?;
        let (first, second, stored) = self.two_places(parting, &prefix[common..])?;
        match self.nodes[second.index()] {
            Some(rule) => {
                self.may_copy(shadowed, first)?;
                let list = joined(&[&stored, &[Reduce::whole(rule)]])?;
                self.copy_with(shadowed, first, &list)
            }
            None => self.clone_branches(second, first, stored, shadowed),
        }
    }

    /// The node that constants alone lead to.
    fn common_part(&self, items: &[Item]) -> Result<NodeNo, Refusal> {
        let mut node = ROOT;
        for item in items {
            node = match item {
                Item::Constant(_) => self.edge(node, *item).ok_or(Refusal::BadPath)?.to,
                Item::Slot(_) => return Err(Refusal::BadPath),
            };
        }
        Ok(node)
    }

    /// The node behind the slot by which the shadow parts from the prefix.
    fn shadowed(&self, parting: NodeNo, item: Item) -> Result<NodeNo, Refusal> {
        match (item, self.edge(parting, item)) {
            (Item::Slot(_), Some(edge)) => Ok(edge.to),
            _ => Err(Refusal::BadPath),
        }
    }

    /// Where the rest of the prefix leads from its place in the tree and from node 0, and the reduces that the first way lacks.
    fn two_places(&self, parting: NodeNo, rest: &[Item]) -> Result<(NodeNo, NodeNo, Vec<Reduce>), Refusal> {
        let (mut first, mut second, mut stored) = (parting, ROOT, Vec::new());
        for &item in rest {
            let target = self.edge(first, item).ok_or(Refusal::BadPath)?;
            let source = self.edge(second, item).ok_or(Refusal::NoSecondEdge)?;
            let missing = diff_extend(&source.reduces, &target.reduces)?;
            stored = joined(&[&behind(item, &stored)?, &missing])?;
            (first, second) = (target.to, source.to);
        }
        Ok((first, second, stored))
    }

    /// Copies the rows of a node to another, with a list behind the reduces of each.
    fn copy_with(&mut self, from: NodeNo, to: NodeNo, list: &[Reduce]) -> Result<(), Refusal> {
        for (item, edge) in self.leaving(from) {
            if self.edge(to, item).is_none() {
                let reduces = joined(&[&edge.reduces, &behind(item, list)?])?;
                self.add_row(to, item, Edge { to: edge.to, reduces })?;
            }
        }
        Ok(())
    }

    /// A body that ends in the copied part goes on in the shadowed node. The clones that have begun lie on a stack, the last on top.
    fn clone_branches(&mut self, from: NodeNo, to: NodeNo, stored: Vec<Reduce>, shadowed: NodeNo) -> Result<(), Refusal> {
        let mut clones = Vec::new();
        self.begin(&mut clones, from, to, stored)?;
        while let Some(clone) = clones.last_mut() {
            let Some((item, edge)) = clone.rows.next() else {
                clones.pop();
                continue;
            };
            self.take_up()?;
            if let Some((from, to, stored)) = self.clone_row(item, edge, clone, shadowed)? {
                self.begin(&mut clones, from, to, stored)?;
            }
        }
        Ok(())
    }

    /// 6 if there is no frame for it.
    fn begin(&mut self, clones: &mut Vec<Cloning>, from: NodeNo, to: NodeNo, stored: Vec<Reduce>) -> Result<(), Refusal> {
        if clones.len() >= self.room.frames {
            return Err(Refusal::FramesFull);
        }
        let rows = self.leaving(from).into_iter();
        clones.push(Cloning { from, to, rows, stored });
        if let Some(taken) = self.taken.last_mut() {
            taken.deepest = taken.deepest.max(clones.len());
        }
        Ok(())
    }

    fn take_up(&mut self) -> Result<(), Refusal> {
        match self.taken.last_mut() {
            Some(taken) if taken.edges < TAKEN_LIMIT => taken.edges += 1,
            _ => return Err(Refusal::TooManyTaken),
        }
        Ok(())
    }

    /// One row of a clone; the clone that it leads to, if it does.
    fn clone_row(&mut self, item: Item, edge: Edge, clone: &Cloning, shadowed: NodeNo) -> Result<Option<Begun>, Refusal> {
        if edge.to == clone.to {
            return Ok(None);
        }
        self.is_target(clone)?;
        match self.nodes[edge.to.index()] {
            Some(rule) => {
                let there = self.edge(clone.to, item).map(|edge| edge.to);
                if let Some(node) = there {
                    self.may_copy(shadowed, node)?;
                }
                let reduces = joined(&[&edge.reduces, &behind(item, &clone.stored)?, &[Reduce::whole(rule)]])?;
                match there {
                    Some(node) => self.copy_with(shadowed, node, &reduces)?,
                    None => self.add_row(clone.to, item, Edge { to: shadowed, reduces })?,
                }
                Ok(None)
            }
            None => {
                let (node, stored) = self.clone_branch(item, &edge, clone)?;
                Ok(Some((edge.to, node, stored)))
            }
        }
    }

    /// 16 if rows can't be cloned to where they should be.
    fn is_target(&self, clone: &Cloning) -> Result<(), Refusal> {
        if self.is_leaf(clone.to) || clone.from == clone.to {
            return Err(Refusal::BadClone);
        }
        Ok(())
    }

    /// The branch that a row's branch is cloned to, which may be there already, and what is stored on the way to it.
    fn clone_branch(&mut self, item: Item, edge: &Edge, clone: &Cloning) -> Result<(NodeNo, Vec<Reduce>), Refusal> {
        let stored = behind(item, &clone.stored)?;
        let Some(there) = self.edge(clone.to, item).cloned() else {
            let to = self.add_node(None)?;
            let reduces = edge.reduces.clone();
            self.add_row(clone.to, item, Edge { to, reduces })?;
            return Ok((to, stored));
        };
        let stored = match there.reduces == edge.reduces {
            true => stored,
            false => joined(&[&stored, &edge.reduces])?,
        };
        Ok((there.to, stored))
    }
}
