//! A parser of many statements as one would write it in ordinary Rust for speed: what the batch is measured against.
//!
//! Rules and tables are read once. All edges stand in one vector, where a node and a symbol say at once where to look, as generated parsers have it;
//! what a reduce needs to know of its rule stands with the reduce. The trees of a walk are one postfix list, with the word that each begins at
//! beside it. Buffers are kept from statement to statement and cleared once, at the end.

use jiehkavon::limits::{ITEM_WIDTH, MOST_TOKENS, ROW_WIDTH};
use std::cmp::Reverse;

/// Number, place, length and passes, as the library answers.
pub type Answer = [u32; 4];

/// A refusal: its number, and the place of the token where there is one.
type Refusal = [u32; 2];

const TOO_FEW_TOKENS: Refusal = [1, 0];
const MISFIT: Refusal = [4, 0];
const NO_PASS: Refusal = [5, 0];
const NO_FRAME: Refusal = [6, 0];
const NO_ENTRY: Refusal = [7, 0];
const TOO_MANY_TOKENS: Refusal = [9, 0];

fn unparseable(place: usize) -> Refusal {
    [2, place as u32]
}

fn too_short(place: usize) -> Refusal {
    [3, place as u32]
}

/// An item of a body, and what stands before the first one.
#[derive(Clone, Copy)]
enum Item {
    Start,
    Constant(u32),
    Slot(u32),
}

#[derive(Clone, Copy)]
struct Rule {
    result: u32,
    slots: u32,
    /// Where its last item stands.
    last: u32,
}

/// A rule with one slot and nothing else.
struct Conversion {
    reduce: Reduce,
    from: u32,
    to: u32,
}

#[derive(Clone, Copy)]
struct Reduce {
    rule: u32,
    slots: u32,
    offset: u32,
}

/// An edge, or a free place where `owner` is no node.
#[derive(Clone, Copy)]
struct Edge {
    owner: Owner,
    to: u32,
    /// The first of its reduces, and how many there are.
    reduces: (u32, u32),
}

/// Twice the node, and one more for edges that take a tree.
type Owner = u32;

const FREE: Edge = Edge {
    owner: Owner::MAX,
    to: 0,
    reduces: (0, 0),
};

#[derive(Clone, Copy)]
enum Node {
    Leaf {
        reduce: Reduce,
        result: u32,
    },
    /// How far into the edges those by constants begin, and those by variables: an edge stands so far behind as its symbol says.
    Branch {
        constants: u32,
        variables: u32,
        bare: bool,
    },
}

/// Rules and tables, made ready.
pub struct Tables {
    provable: u32,
    logic: u32,
    rules: Vec<Rule>,
    items: Vec<Item>,
    conversions: Vec<Conversion>,
    nodes: Vec<Node>,
    edges: Vec<Edge>,
    reduces: Vec<Reduce>,
}

impl Tables {
    /// Of rules and tables that pass the library's checks, so that rows stand in rising order; others make it panic.
    pub fn read(provable: u32, logic: u32, rules: &[u32], nodes: &[u32], edges: &[u32]) -> Tables {
        let mut tables = Tables {
            provable,
            logic,
            rules: Vec::new(),
            items: Vec::new(),
            conversions: Vec::new(),
            nodes: Vec::new(),
            edges: Vec::new(),
            reduces: Vec::new(),
        };
        let mut rest = rules;
        while let [result, length, after @ ..] = rest {
            let (body, others) = after.split_at(ITEM_WIDTH * *length as usize);
            tables.add_rule(*result, body);
            rest = others;
        }
        tables.nodes = nodes.iter().map(|&word| tables.node(word)).collect();
        tables.add_rows(edges);
        tables
    }

    fn add_rule(&mut self, result: u32, body: &[u32]) {
        let items = body.chunks_exact(ITEM_WIDTH);
        self.items.push(Item::Start);
        self.items.extend(items.clone().map(|item| match item[0] {
            0 => Item::Constant(item[1]),
            _ => Item::Slot(item[1]),
        }));
        self.rules.push(Rule {
            result,
            slots: items.map(|item| item[0]).sum(),
            last: self.items.len() as u32 - 1,
        });
        if let [1, from, _] = *body {
            let reduce = self.reduce(self.rules.len() as u32, 0);
            self.conversions.push(Conversion { reduce, from, to: result });
        }
    }

    fn reduce(&self, rule: u32, offset: u32) -> Reduce {
        let slots = self.rules[rule as usize - 1].slots;
        Reduce { rule, slots, offset }
    }

    fn node(&self, word: u32) -> Node {
        if word == 0 {
            return Node::Branch {
                constants: 0,
                variables: 0,
                bare: true,
            };
        }
        Node::Leaf {
            reduce: self.reduce(word, 0),
            result: self.rules[word as usize - 1].result,
        }
    }

    /// The rows of one node and kind have one base, the first from the last one on from which all their symbols find a free place. Those with
    /// the most rows come first.
    fn add_rows(&mut self, edges: &[u32]) {
        let rows: Vec<&[u32]> = edges.chunks_exact(ROW_WIDTH).collect();
        let mut groups: Vec<_> = rows.chunk_by(|one, other| one[..2] == other[..2]).collect();
        groups.sort_by_key(|group| Reverse(group.len()));
        let mut base = 0;
        for group in groups {
            while !group.iter().all(|row| self.is_free(base + row[2] as usize)) {
                base += 1;
            }
            group.iter().for_each(|row| self.add_edge(base, row));
            let Node::Branch {
                constants,
                variables,
                bare,
            } = &mut self.nodes[group[0][0] as usize]
            else {
                panic!("an edge leaves a leaf");
            };
            *if group[0][1] == 0 { constants } else { variables } = base as u32;
            *bare = false;
        }
    }

    fn is_free(&self, at: usize) -> bool {
        self.edges.get(at).unwrap_or(&FREE).owner == FREE.owner
    }

    fn add_edge(&mut self, base: usize, row: &[u32]) {
        let reduces = (self.reduces.len() as u32, row[4]);
        for pair in row[5..].chunks_exact(2).take(row[4] as usize) {
            self.reduces.push(self.reduce(pair[0], pair[1]));
        }
        let at = base + row[2] as usize;
        if self.edges.len() <= at {
            self.edges.resize(at + 1, FREE);
        }
        self.edges[at] = Edge {
            owner: 2 * row[0] + row[1],
            to: row[3],
            reduces,
        };
    }

    fn edge(&self, base: u32, symbol: u32, owner: Owner) -> Option<&Edge> {
        self.edges.get(base as usize + symbol as usize).filter(|edge| edge.owner == owner)
    }

    fn variable_edge(&self, node: u32, typecode: u32) -> Option<&Edge> {
        match self.nodes[node as usize] {
            Node::Branch { variables, .. } => self.edge(variables, typecode, 2 * node + 1),
            Node::Leaf { .. } => None,
        }
    }

    /// Whether the list is one well typed tree of typecode `goal` that spells the tokens. Both are read from their ends, where a list has its
    /// root. Of each body that was begun the item to go on with waits in `work`.
    #[inline(never)]
    fn check(&self, goal: u32, tokens: &[u32], list: &[u32], work: &mut [u32]) -> bool {
        let (mut tokens, mut entries) = (tokens.iter().rev(), list.iter().rev());
        let mut last_item = |typecode: u32| {
            let rule = self.rules.get((*entries.next()? as usize).wrapping_sub(1))?;
            (rule.result == typecode).then_some(rule.last as usize)
        };
        let Some(mut item) = last_item(goal) else {
            return false;
        };
        let mut depth = 0;
        loop {
            match self.items[item] {
                Item::Constant(symbol) => {
                    if tokens.next() != Some(&symbol) {
                        return false;
                    }
                    item -= 1;
                }
                Item::Slot(typecode) => {
                    work[depth] = item as u32 - 1;
                    depth += 1;
                    let Some(last) = last_item(typecode) else {
                        return false;
                    };
                    item = last;
                }
                Item::Start if depth == 0 => return tokens.next().is_none() && entries.next().is_none(),
                Item::Start => {
                    depth -= 1;
                    item = work[depth] as usize;
                }
            }
        }
    }
}

/// The trees of a walk: `len` words of the list, and where in it each of the `count` trees begins.
struct Forest<'a> {
    list: &'a mut [u32],
    starts: &'a mut [u32],
    len: usize,
    count: usize,
}

impl Forest<'_> {
    #[inline(always)]
    fn reduce(&mut self, reduce: Reduce) -> Result<(), Refusal> {
        let (slots, offset) = (reduce.slots as usize, reduce.offset as usize);
        if self.count < slots + offset {
            return Err(MISFIT);
        }
        if self.len == self.list.len() {
            return Err(NO_ENTRY);
        }
        let first = self.count - offset - slots;
        if offset != 0 {
            let (list, starts) = (&mut self.list[..=self.len], &mut self.starts[..=self.count]);
            reduce_under(list, starts, first, reduce);
        } else {
            self.list[self.len] = reduce.rule;
            if slots == 0 {
                self.starts[first] = self.len as u32;
            }
        }
        self.count -= slots;
        self.count += 1;
        self.len += 1;
        Ok(())
    }
}

/// The rule's trees are from `first` on and have others above them, whose words make room for the entry. The last of either slice is free.
fn reduce_under(list: &mut [u32], starts: &mut [u32], first: usize, reduce: Reduce) {
    let (len, count) = (list.len() - 1, starts.len() - 1);
    let above = count - reduce.offset as usize;
    let place = starts[above] as usize;
    list.copy_within(place..len, place + 1);
    list[place] = reduce.rule;
    starts[above..count].iter_mut().for_each(|start| *start += 1);
    starts.copy_within(above..count, first + 1);
    if reduce.slots == 0 {
        starts[first] = place as u32;
    }
}

struct Walk<'a> {
    tables: &'a Tables,
    tokens: &'a [u32],
    goal: u32,
    frames: &'a mut [u32],
    forest: Forest<'a>,
    /// How many frames are in use, the place of the next token, and the last one noted.
    depth: usize,
    at: usize,
    last: usize,
    node: u32,
}

impl<'a> Walk<'a> {
    /// The passes, and why the last one failed if it did.
    fn run(&mut self, allowance: u32) -> (u32, Option<Refusal>) {
        let mut passes = 0;
        while passes < allowance {
            passes += 1;
            match self.pass() {
                Ok(false) => {}
                Ok(true) => return (passes, None),
                Err(refusal) => return (passes, Some(refusal)),
            }
        }
        (passes, Some(NO_PASS))
    }

    /// Whether the walk has come to its end.
    fn pass(&mut self) -> Result<bool, Refusal> {
        let edge = match self.tables.nodes[self.node as usize] {
            Node::Branch { constants, bare, .. } => match self.branch(constants, bare)? {
                Some(edge) => edge,
                None => return Ok(false),
            },
            Node::Leaf { reduce, result } => {
                self.forest.reduce(reduce)?;
                match self.complete(result)? {
                    Some(edge) => edge,
                    None => return self.finish(),
                }
            }
        };
        let (first, count) = (edge.reduces.0 as usize, edge.reduces.1 as usize);
        if count > 0 {
            for reduce in &self.tables.reduces[first..first + count] {
                self.forest.reduce(*reduce)?;
            }
        }
        self.node = edge.to;
        Ok(false)
    }

    /// The edge of the next token, which is taken; without one the node waits as a frame and node 0 begins.
    fn branch(&mut self, constants: u32, bare: bool) -> Result<Option<&'a Edge>, Refusal> {
        let Some(&token) = self.tokens.get(self.at) else {
            return Err(too_short(self.at - 1));
        };
        self.last = self.at;
        if let Some(edge) = self.tables.edge(constants, token, 2 * self.node) {
            self.at += 1;
            return Ok(Some(edge));
        }
        if self.node == 0 || bare {
            return Err(unparseable(self.at));
        }
        *self.frames.get_mut(self.depth).ok_or(NO_FRAME)? = self.node;
        self.depth += 1;
        self.node = 0;
        Ok(None)
    }

    /// A tree is complete. The top frame goes on with it, or node 0; nothing goes on where it is the whole.
    fn complete(&mut self, typecode: u32) -> Result<Option<&'a Edge>, Refusal> {
        let ended = self.at == self.tokens.len();
        if self.depth == 0 {
            if ended && typecode == self.goal {
                return Ok(None);
            }
        } else if let Some(edge) = self.tables.variable_edge(self.frames[self.depth - 1], typecode) {
            self.depth -= 1;
            return Ok(Some(edge));
        }
        if ended {
            if let Some((reduce, edge)) = self.conversion(typecode) {
                self.forest.reduce(reduce)?;
                self.depth = self.depth.saturating_sub(1);
                return Ok(edge);
            }
        }
        self.tables.variable_edge(0, typecode).map(Some).ok_or(unparseable(self.last))
    }

    /// The first conversion to the goal, or where a frame waits, to what that takes, and its edge.
    fn conversion(&self, typecode: u32) -> Option<(Reduce, Option<&'a Edge>)> {
        let mut all = self.tables.conversions.iter().filter(|conversion| conversion.from == typecode);
        if self.depth == 0 {
            let chosen = all.find(|conversion| conversion.to == self.goal)?;
            return Some((chosen.reduce, None));
        }
        let frame = self.frames[self.depth - 1];
        all.find_map(|conversion| Some((conversion.reduce, Some(self.tables.variable_edge(frame, conversion.to)?))))
    }

    /// One tree is left, and it passes the check.
    fn finish(&mut self) -> Result<bool, Refusal> {
        let Forest { list, starts, len, count } = &mut self.forest;
        if *count == 1 && self.tables.check(self.goal, &self.tokens[1..], &list[..*len], starts) {
            return Ok(true);
        }
        Err(MISFIT)
    }
}

/// The buffers of a run over many statements.
pub struct Buffers {
    pub frames: Vec<u32>,
    /// The accepted lists one after another, and how many words they have.
    pub list: Vec<u32>,
    pub words: usize,
    pub work: Vec<u32>,
    pub answers: Vec<Answer>,
}

impl Buffers {
    pub fn new(frames: usize, list: usize, work: usize, statements: usize) -> Buffers {
        Buffers {
            frames: vec![0; frames],
            list: vec![0; list],
            words: 0,
            work: vec![0; work],
            answers: Vec::with_capacity(statements),
        }
    }

    /// One statement, its typecode first: the answer, and its list behind those before it.
    pub fn parse(&mut self, tables: &Tables, tokens: &[u32], allowance: u32) -> Answer {
        let answer = match tokens.len() {
            0 | 1 => refused(TOO_FEW_TOKENS, 0),
            count if count > MOST_TOKENS => refused(TOO_MANY_TOKENS, 0),
            _ => self.walk(tables, tokens, allowance),
        };
        self.words += answer[2] as usize;
        self.answers.push(answer);
        answer
    }

    fn walk(&mut self, tables: &Tables, tokens: &[u32], allowance: u32) -> Answer {
        let free = &mut self.list[self.words..];
        let room = free.len().min(self.work.len());
        let forest = Forest {
            list: &mut free[..room],
            starts: &mut self.work[..room],
            len: 0,
            count: 0,
        };
        let mut walk = Walk {
            tables,
            tokens,
            goal: if tokens[0] == tables.provable { tables.logic } else { tokens[0] },
            frames: &mut self.frames,
            forest,
            depth: 0,
            at: 1,
            last: 0,
            node: 0,
        };
        match walk.run(allowance) {
            (passes, None) => [0, 0, walk.forest.len as u32, passes],
            (passes, Some(refusal)) => refused(refusal, passes),
        }
    }

    /// Whole statements in counted words, in place of those before. Afterwards the buffers are zero but for lists and answers.
    pub fn parse_many(&mut self, tables: &Tables, statements: &[u32], allowance: u32) {
        self.words = 0;
        self.answers.clear();
        let mut rest = statements;
        while let Some((&count, after)) = rest.split_first() {
            let (tokens, others) = after.split_at(count as usize);
            self.parse(tables, tokens, allowance);
            rest = others;
        }
        self.frames.fill(0);
        self.work.fill(0);
        self.list[self.words..].fill(0);
    }
}

fn refused([number, place]: Refusal, passes: u32) -> Answer {
    [number, place, 0, passes]
}
