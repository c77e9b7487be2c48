//! Passes and the walk.

use std::collections::HashMap;

use crate::check::{check, count_tokens};
use crate::forest::Forest;
use crate::grammar::Grammar;
use crate::numbers::{NodeNo, Refusal, RuleNo, Symbol, ROOT};
use crate::rows::{Edge, Node, Reduce};
use crate::rules::{Conversion, Item};

/// What a walk may use up.
#[derive(Clone, Copy, Debug)]
pub struct Rooms {
    pub allowance: u32,
    pub frames: usize,
    pub list: usize,
}

/// How a walk ended, and how many passes it took.
#[derive(Clone, Debug, PartialEq, Eq)]
pub struct Walked {
    pub list: Result<Vec<u32>, Refusal>,
    pub passes: u32,
}

#[derive(PartialEq, Eq)]
enum Turn {
    On,
    Finish,
}

pub struct Walk<'a> {
    grammar: &'a Grammar,
    rooms: Rooms,
    tokens: &'a [u32],
    /// The typecode wanted without frames.
    wanted: Option<Symbol>,
    node: NodeNo,
    next: usize,
    noted: usize,
    frames: Vec<NodeNo>,
    forest: Forest<'a>,
    passes: u32,
}

impl<'a> Walk<'a> {
    /// 1 and 9 come before any pass.
    pub fn start(grammar: &'a Grammar, tokens: &'a [u32], rooms: Rooms) -> Result<Walk<'a>, Refusal> {
        count_tokens(tokens)?;
        Ok(Walk {
            grammar,
            rooms,
            tokens,
            wanted: grammar.rules.typecodes.wanted(tokens[0]),
            node: ROOT,
            next: 1,
            noted: 0,
            frames: Vec::new(),
            forest: Forest::new(&grammar.rules, rooms.list),
            passes: 0,
        })
    }

    pub fn run(mut self) -> Walked {
        let list = self.passes();
        Walked { list, passes: self.passes }
    }

    fn passes(&mut self) -> Result<Vec<u32>, Refusal> {
        loop {
            if self.passes == self.rooms.allowance {
                return Err(Refusal::PassesUsedUp);
            }
            self.passes += 1;
            if self.pass()? == Turn::Finish {
                return self.finish();
            }
        }
    }

    fn pass(&mut self) -> Result<Turn, Refusal> {
        let grammar = self.grammar;
        match grammar.tables.node(self.node) {
            Node::Branch(edges) => self.branch(edges),
            Node::Leaf(rule) => self.leaf(*rule),
        }
    }

    fn branch(&mut self, edges: &'a HashMap<Item, Edge>) -> Result<Turn, Refusal> {
        let Some(&token) = self.tokens.get(self.next) else {
            return Err(Refusal::TokensEnded(self.tokens.len() - 1));
        };
        self.noted = self.next;
        if let Some(edge) = Symbol::read(token).and_then(|symbol| edges.get(&Item::Constant(symbol))) {
            let turn = self.follow(edge)?;
            self.next += 1;
            return Ok(turn);
        }
        if self.node == ROOT || edges.is_empty() {
            return Err(Refusal::Unparseable(self.next));
        }
        self.push_frame()
    }

    fn push_frame(&mut self) -> Result<Turn, Refusal> {
        if self.frames.len() >= self.rooms.frames {
            return Err(Refusal::FramesFull);
        }
        self.frames.push(self.node);
        self.node = ROOT;
        Ok(Turn::On)
    }

    fn leaf(&mut self, rule: RuleNo) -> Result<Turn, Refusal> {
        self.reduce_whole(rule)?;
        let typecode = self.grammar.rules.rule(rule).result;
        let ended = self.next == self.tokens.len();
        if self.wants(typecode) {
            return match self.frames.pop() {
                Some(frame) => self.follow_variable(frame, typecode),
                None if ended => Ok(Turn::Finish),
                None => self.follow_variable(ROOT, typecode),
            };
        }
        match self.last_conversion(typecode) {
            Some(conversion) if ended => self.convert(conversion),
            _ => self.follow_variable(ROOT, typecode),
        }
    }

    /// At the end of the tokens: the converted tree is what the frame waits for, or without frames the whole.
    fn convert(&mut self, conversion: Conversion) -> Result<Turn, Refusal> {
        self.reduce_whole(conversion.rule)?;
        match self.frames.pop() {
            Some(frame) => self.follow_variable(frame, conversion.to),
            None => Ok(Turn::Finish),
        }
    }

    fn wants(&self, typecode: Symbol) -> bool {
        match self.frames.last() {
            Some(&frame) => self.grammar.tables.variable_edge(frame, typecode).is_some(),
            None => self.wanted == Some(typecode),
        }
    }

    fn last_conversion(&self, typecode: Symbol) -> Option<Conversion> {
        let conversions = self.grammar.rules.conversions().iter();
        conversions
            .copied()
            .find(|conversion| conversion.from == typecode && self.wants(conversion.to))
    }

    /// Serves a popped frame, which has the edge, and the root step, which may find none.
    fn follow_variable(&mut self, node: NodeNo, typecode: Symbol) -> Result<Turn, Refusal> {
        let grammar = self.grammar;
        match grammar.tables.variable_edge(node, typecode) {
            Some(edge) => self.follow(edge),
            None => Err(Refusal::Unparseable(self.noted)),
        }
    }

    fn follow(&mut self, edge: &Edge) -> Result<Turn, Refusal> {
        for &reduce in &edge.reduces {
            self.forest.reduce(reduce)?;
        }
        self.node = edge.to;
        Ok(Turn::On)
    }

    fn reduce_whole(&mut self, rule: RuleNo) -> Result<(), Refusal> {
        self.forest.reduce(Reduce::whole(rule))
    }

    fn finish(&self) -> Result<Vec<u32>, Refusal> {
        let list = self.forest.list().ok_or(Refusal::NoTree)?;
        let holds = check(&self.grammar.rules, self.wanted, &self.tokens[1..], &list);
        holds.then_some(list).ok_or(Refusal::NoTree)
    }
}
