//! How a set is put to the published Rust, and how its answers are read.
//!
//! The Rust stands behind a line driver. A set is told rule by rule, then built, then asked for its tree and for statements; every question has
//! its answer in order. What can't be read is an error, never an answer: a cut or garbled text must not pass for agreement.

use crate::grown::{Item, Rule, Set};
use crate::inputs::commands::{Command, Pair};
use std::fmt::{self, Display, Write};

/// A set and the statements put to it.
#[derive(Clone, Debug, Default, PartialEq, Eq)]
pub struct Asked {
    pub set: Set,
    pub statements: Vec<Vec<u32>>,
}

fn join(words: impl IntoIterator<Item = u32>) -> String {
    let mut line = String::new();
    for word in words {
        let _ = write!(line, " {word}");
    }
    line
}

impl Display for Rule {
    fn fmt(&self, f: &mut fmt::Formatter) -> fmt::Result {
        match (self.float, &self.body[..]) {
            (true, [item]) => write!(f, "float {} {}", self.result, item.pair()[1]),
            _ => write!(
                f,
                "rule {} {}{}",
                self.result,
                self.body.len(),
                join(self.body.iter().flat_map(|item| item.pair()))
            ),
        }
    }
}

/// As the Rust is told it.
impl Display for Command {
    fn fmt(&self, f: &mut fmt::Formatter) -> fmt::Result {
        let list = |pairs: &[Pair]| format!(" {}{}", pairs.len(), join(pairs.iter().flatten().copied()));
        match self {
            Command::Path { prefix, shadow } => write!(f, "gp{}{}", list(prefix), list(shadow)),
            Command::Conversions => write!(f, "conv"),
        }
    }
}

/// Conversions that no command asks for come last here; the Rust has to be asked.
const UNASKED: &str = "conv # unasked";

impl Display for Asked {
    /// The questions, a line each.
    fn fmt(&self, f: &mut fmt::Formatter) -> fmt::Result {
        writeln!(f, "set {} {}", self.set.provable, self.set.logic)?;
        if self.set.shuffle != 0 {
            writeln!(f, "shuffle {}", self.set.shuffle)?;
        }
        for rule in &self.set.rules {
            writeln!(f, "{rule}")?;
        }
        for command in &self.set.commands {
            writeln!(f, "{command}")?;
        }
        if !self.set.commands.contains(&Command::Conversions) {
            writeln!(f, "{UNASKED}")?;
        }
        if !self.set.commands.is_empty() {
            writeln!(f, "limit {LIMIT}")?;
        }
        writeln!(f, "build\ntree")?;
        if !self.set.commands.is_empty() {
            writeln!(f, "taken")?;
        }
        for statement in &self.statements {
            writeln!(f, "parse{}", join(statement.iter().copied()))?;
        }
        Ok(())
    }
}

/// A question line is taken into the set it belongs to.
pub fn take_question(asked: &mut Vec<Asked>, line: &str) -> Result<(), String> {
    if line == UNASKED {
        return Ok(());
    }
    let mut words = line.split_ascii_whitespace();
    let verb = words.next().unwrap_or("");
    let numbers: Vec<u32> = words.map(number).collect::<Result<_, _>>()?;
    if let ("set", [provable, logic]) = (verb, &numbers[..]) {
        let set = Set {
            provable: *provable,
            logic: *logic,
            ..Set::default()
        };
        asked.push(Asked {
            set,
            statements: Vec::new(),
        });
        return Ok(());
    }
    let last = asked.last_mut().ok_or("a question before the first set")?;
    match (verb, &numbers[..]) {
        ("shuffle", [seed]) => last.set.shuffle = u64::from(*seed),
        ("rule", [result, length, pairs @ ..]) if pairs.len() == 2 * *length as usize => {
            let body = pairs.chunks(2).map(item).collect::<Result<_, _>>()?;
            last.set.rules.push(Rule {
                result: *result,
                body,
                float: false,
            });
        }
        ("float", [result, symbol]) => {
            last.set.rules.push(Rule {
                result: *result,
                body: vec![Item::Constant(*symbol)],
                float: true,
            });
        }
        ("gp", lists) => last.set.commands.push(path(lists).ok_or_else(|| format!("no path: {line}"))?),
        ("conv", []) => last.set.commands.push(Command::Conversions),
        ("build" | "tree" | "taken", []) | ("limit", [_]) => {}
        ("parse", statement) => last.statements.push(statement.to_vec()),
        _ => return Err(format!("no question: {line}")),
    }
    Ok(())
}

/// Two lists of pairs, each after its length.
fn path(lists: &[u32]) -> Option<Command> {
    let cut = |words: &[u32]| {
        let (&length, rest) = words.split_first()?;
        let (pairs, rest) = rest.split_at_checked(2 * length as usize)?;
        Some((pairs.chunks_exact(2).map(|pair| [pair[0], pair[1]]).collect(), rest.to_vec()))
    };
    let (prefix, rest) = cut(lists)?;
    let (shadow, rest) = cut(&rest)?;
    rest.is_empty().then_some(Command::Path { prefix, shadow })
}

fn item(pair: &[u32]) -> Result<Item, String> {
    match pair {
        [0, symbol] => Ok(Item::Constant(*symbol)),
        [1, typecode] => Ok(Item::Slot(*typecode)),
        _ => Err(format!("no item: {pair:?}")),
    }
}

fn number(word: &str) -> Result<u32, String> {
    word.parse().map_err(|_| format!("no number: {word}"))
}

/// What the Rust says to a build.
#[derive(Clone, Debug, PartialEq, Eq)]
pub enum Build {
    Built {
        nodes: usize,
        edges: usize,
    },
    Diagnostic(String),
    Panic(String),
    /// It would have run out of stack.
    Endless,
}

/// What a report or a panic says, and a short name for it.
const DIAGNOSTICS: [(&str, &str); 9] = [
    ("ambiguous", "diag ambiguous"),
    ("double conflicts", "diag double conflict"),
    ("is a leaf", "diag leaf"),
    ("Leaf reached", "diag leaf before the lists part"),
    ("Shadowed prefix", "diag shadow"),
    ("More <reduce>", "diag reduces left over"),
    ("xpanded", "diag expanded"),
    ("Prefix cannot be parsed", "diag prefix"),
    ("undefined", "diag shadow at a constant"),
];
const PANICS: [(&str, &str); 6] = [
    ("capacity overflow", "panic sixth reduce"),
    ("add with overflow", "panic offset"),
    ("grammar.rs:943", "panic a list ends"),
    ("grammar.rs:94", "panic same node"),
    ("Prefix cannot be parsed", "panic common part"),
    ("Expected branch", "panic leaf"),
];

/// The name of what a text says first.
fn named(text: &str, names: &[(&str, &'static str)]) -> Option<&'static str> {
    let places = names.iter().filter_map(|(said, name)| Some((text.find(said)?, *name)));
    places.min_by_key(|(place, _)| *place).map(|(_, name)| name)
}

/// The most edges that a garden path may take up; one that goes on is told to be endless.
const LIMIT: usize = 16_384;

impl Build {
    fn read(line: &str) -> Result<Self, String> {
        if line == "endless" {
            return Ok(Build::Endless);
        }
        let (word, rest) = line.split_once(' ').ok_or_else(|| format!("no answer to a build: {line}"))?;
        match word {
            "built" => {
                let (nodes, edges) = rest.split_once(' ').ok_or_else(|| format!("no counts: {line}"))?;
                Ok(Build::Built {
                    nodes: number(nodes)? as usize,
                    edges: number(edges)? as usize,
                })
            }
            "diag" => Ok(Build::Diagnostic(rest.to_string())),
            "panic" => Ok(Build::Panic(rest.to_string())),
            _ => Err(format!("no answer to a build: {line}")),
        }
    }

    /// One word or two for the kind of answer.
    pub fn kind(&self) -> &'static str {
        match self {
            Build::Built { .. } => "built",
            Build::Diagnostic(text) => named(text, &DIAGNOSTICS).unwrap_or("diag other"),
            Build::Panic(text) => named(text, &PANICS).unwrap_or("panic other"),
            Build::Endless => "endless",
        }
    }
}

#[derive(Clone, Debug, PartialEq, Eq)]
pub enum Node {
    Branch,
    Leaf { rule: u32, typecode: u32, slots: u32 },
}

#[derive(Clone, Debug, PartialEq, Eq, PartialOrd, Ord)]
pub struct Edge {
    pub from: u32,
    pub kind: u32,
    pub symbol: u32,
    pub to: u32,
    pub reduces: Vec<(u32, u32)>,
}

/// Nodes by number; edges sorted, since the Rust keeps them in hash maps.
#[derive(Clone, Debug, Default, PartialEq, Eq)]
pub struct Tree {
    pub nodes: Vec<Node>,
    pub edges: Vec<Edge>,
}

impl Tree {
    /// The tree of the lines between `tree` and `end`.
    pub fn read(lines: &[String]) -> Result<Tree, String> {
        let mut tree = Tree::default();
        lines.iter().try_for_each(|line| tree.take_row(line))?;
        Ok(tree)
    }

    fn take_row(&mut self, line: &str) -> Result<(), String> {
        let bad = || format!("no row of a tree: {line}");
        let (verb, rest) = line.split_once(' ').ok_or_else(bad)?;
        match verb {
            "n" => {
                let (id, rest) = rest.split_once(' ').ok_or_else(bad)?;
                if number(id)? as usize != self.nodes.len() {
                    return Err(bad());
                }
                self.nodes.push(node(rest)?);
            }
            "e" => self.edges.push(edge(rest)?),
            _ => return Err(bad()),
        }
        Ok(())
    }
}

/// As the lines that it is read from.
impl Display for Tree {
    fn fmt(&self, f: &mut fmt::Formatter) -> fmt::Result {
        let node = |(number, node): (usize, &Node)| match node {
            Node::Branch => format!("n {number} branch"),
            Node::Leaf { rule, typecode, slots } => format!("n {number} leaf {rule} {typecode} {slots}"),
        };
        let edge = |edge: &Edge| {
            let pairs = edge.reduces.iter().flat_map(|&(rule, offset)| [rule, offset]);
            let key = [edge.from, edge.kind, edge.symbol, edge.to, edge.reduces.len() as u32];
            format!("e{}", join(key.into_iter().chain(pairs)))
        };
        let mut lines = self.nodes.iter().enumerate().map(node).chain(self.edges.iter().map(edge));
        lines.try_for_each(|line| writeln!(f, "{line}"))
    }
}

fn node(text: &str) -> Result<Node, String> {
    if text == "branch" {
        return Ok(Node::Branch);
    }
    let words = text.strip_prefix("leaf ").ok_or_else(|| format!("no node: {text}"))?;
    match words.split(' ').map(number).collect::<Result<Vec<u32>, _>>()?[..] {
        [rule, typecode, slots] => Ok(Node::Leaf { rule, typecode, slots }),
        _ => Err(format!("no leaf: {text}")),
    }
}

fn edge(text: &str) -> Result<Edge, String> {
    let words: Vec<u32> = text.split(' ').map(number).collect::<Result<_, _>>()?;
    match words[..] {
        [from, kind, symbol, to, count, ref pairs @ ..] if pairs.len() == 2 * count as usize => {
            let reduces = pairs.chunks(2).map(|pair| (pair[0], pair[1])).collect();
            Ok(Edge {
                from,
                kind,
                symbol,
                to,
                reduces,
            })
        }
        _ => Err(format!("no edge: {text}")),
    }
}

/// What the Rust says to a statement.
#[derive(Clone, Debug, PartialEq, Eq)]
pub enum Said {
    /// The list, whether the formula spells the statement, and whether it is well typed and of the typecode asked for.
    Ok {
        list: Vec<u32>,
        same: bool,
        typed: bool,
        remark: String,
    },
    TooFew,
    Unparseable(u32),
    TooShort(u32),
    Panic(String),
}

#[derive(Clone, Debug, PartialEq, Eq)]
pub struct Parse {
    pub said: Said,
    pub passes: u32,
}

impl Parse {
    fn read(line: &str) -> Result<Self, String> {
        let bad = || format!("no answer to a statement: {line}");
        let (answer, counted) = line.split_once(" ; passes ").ok_or_else(bad)?;
        let (passes, remark) = counted.split_once(' ').unwrap_or((counted, ""));
        let (word, rest) = answer.split_once(' ').unwrap_or((answer, ""));
        let said = match word {
            "ok" => Said::ok(rest, remark)?,
            "toofew" => Said::TooFew,
            "unparseable" => Said::Unparseable(number(rest)?),
            "tooshort" => Said::TooShort(number(rest)?),
            "panic" => Said::Panic(rest.to_string()),
            _ => return Err(bad()),
        };
        Ok(Parse {
            said,
            passes: number(passes)?,
        })
    }

    /// A few words for the kind of answer.
    pub fn kind(&self) -> String {
        match &self.said {
            Said::Ok { remark, .. } => format!("ok {}", remark.trim_end_matches(|c: char| c.is_ascii_digit() || c == '-')),
            Said::TooFew => "toofew".to_string(),
            Said::Unparseable(_) => "unparseable".to_string(),
            Said::TooShort(_) => "tooshort".to_string(),
            Said::Panic(text) if text.contains("does not have one root") => "panic several roots".to_string(),
            Said::Panic(text) if text.contains("self.stack.len()") => "panic too few trees".to_string(),
            Said::Panic(_) => "panic other".to_string(),
        }
    }
}

impl Said {
    fn ok(list: &str, remark: &str) -> Result<Self, String> {
        let list = list.split_ascii_whitespace().map(number).collect::<Result<_, _>>()?;
        let (spelt, typed) = remark.split_once(' ').ok_or_else(|| format!("no remarks: {remark}"))?;
        if !["same", "differs", "unspellable"].contains(&spelt) || !(typed == "illtyped" || typed.starts_with("typed")) {
            return Err(format!("no remarks: {remark}"));
        }
        Ok(Said::Ok {
            list,
            same: spelt == "same",
            typed: typed == "typed",
            remark: remark.to_string(),
        })
    }
}

/// All answers to one `Asked`. After a panic, or without an end, there is no grammar, hence no tree and no answers to statements.
#[derive(Clone, Debug, PartialEq, Eq)]
pub struct Answers {
    pub build: Build,
    pub tree: Tree,
    /// The edges that each garden path took up.
    pub taken: Vec<usize>,
    pub parses: Vec<Parse>,
}

impl Answers {
    pub fn read<'a>(asked: &Asked, lines: &mut impl Iterator<Item = &'a str>) -> Result<Self, String> {
        let mut line = || lines.next().ok_or("the answers are cut");
        let build = Build::read(line()?)?;
        let mut answers = Answers {
            build,
            tree: Tree::default(),
            taken: Vec::new(),
            parses: Vec::new(),
        };
        let silent = matches!(answers.build, Build::Panic(_) | Build::Endless);
        let nothing = |said: &str| match said {
            "nogrammar" => Ok(()),
            _ => Err(format!("an answer without a grammar: {said}")),
        };
        match line()? {
            said if silent => nothing(said)?,
            head => answers.read_tree(head, &mut line)?,
        }
        if !asked.set.commands.is_empty() {
            answers.taken = taken(line()?)?;
        }
        for _ in &asked.statements {
            match line()? {
                said if silent => nothing(said)?,
                said => answers.parses.push(Parse::read(said)?),
            }
        }
        Ok(answers)
    }

    fn read_tree<'a>(&mut self, head: &str, line: &mut impl FnMut() -> Result<&'a str, &'static str>) -> Result<(), String> {
        loop {
            match line()? {
                "end" => break,
                row => self.tree.take_row(row)?,
            }
        }
        let (nodes, edges) = (self.tree.nodes.len(), self.tree.edges.len());
        if head != format!("tree {nodes} {edges}") {
            return Err(format!("a tree of {nodes} nodes and {edges} edges announced as: {head}"));
        }
        self.tree.edges.sort();
        Ok(())
    }
}

fn taken(line: &str) -> Result<Vec<usize>, String> {
    let counts = line.strip_prefix("taken").ok_or_else(|| format!("no edges taken up: {line}"))?;
    counts.split_ascii_whitespace().map(|count| Ok(number(count)? as usize)).collect()
}
