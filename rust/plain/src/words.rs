//! The entry points: slices of words in, numbers out. Any words may stand in any slice.

use crate::check;
use crate::garden::FRAME;
use crate::grammar::Grammar;
use crate::grow::{grow, Room, Tree};
use crate::numbers::{Refusal, RuleNo, EDGE_LIMIT, NODE_LIMIT};
use crate::package::{counted, packed, Contents};
use crate::rows::{row_words, ROW};
use crate::rules::Rules;
use crate::walk::{Rooms, Walked};

/// What a parse or a check answers.
#[derive(Clone, Copy, Debug, PartialEq, Eq, Hash)]
pub struct Answer {
    pub number: u32,
    pub place: u32,
    pub length: u32,
    pub passes: u32,
}

impl Answer {
    fn of(result: Result<usize, Refusal>, passes: u32) -> Answer {
        let (number, place, length) = match result {
            Ok(length) => (0, 0, length as u32),
            Err(refusal) => (refusal.number(), refusal.place() as u32, 0),
        };
        Answer {
            number,
            place,
            length,
            passes,
        }
    }
}

/// Words of a statement's answer in a batch.
const ANSWER: usize = 4;

/// What a batch answers. All but the number and the place are 0 where it is refused.
#[derive(Clone, Copy, Debug, Default, PartialEq, Eq, Hash)]
pub struct Batch {
    pub number: u32,
    /// The statement that is not whole, where that is why it is refused.
    pub place: usize,
    /// How many statements were answered.
    pub statements: usize,
    /// How many words at the front of the list slice are lists.
    pub words: usize,
}

/// What a build answers.
#[derive(Clone, Copy, Debug, PartialEq, Eq, Hash)]
pub struct Built {
    pub number: u32,
    pub nodes: u32,
    pub edges: u32,
}

/// Where a rule's body stands in the rule slice, in words; 0, 0 where there is no body.
#[derive(Clone, Copy, Debug, PartialEq, Eq, Hash)]
pub struct Stretch {
    pub start: u32,
    pub length: u32,
}

/// What reading a package answers. All but the number and the place are 0 where it is refused.
#[derive(Clone, Copy, Debug, Default, PartialEq, Eq, Hash)]
pub struct Package {
    pub number: u32,
    pub place: usize,
    pub provable: u32,
    pub logic: u32,
    /// How many words at the front of the rule slice are rules.
    pub rules: usize,
    pub statements: usize,
    /// How many words at the front of the statement slice are statements.
    pub words: usize,
}

/// What writing a package answers.
#[derive(Clone, Copy, Debug, PartialEq, Eq, Hash)]
pub struct Written {
    pub number: u32,
    pub place: usize,
    /// How many bytes at the front of the byte slice are the package; 0 where it is refused.
    pub length: usize,
}

/// The body of rule `rule`, as a stretch of `rules`.
pub fn body(provable: u32, logic: u32, rules: &[u32], rule: u32) -> Stretch {
    let read = Rules::read(provable, logic, rules);
    let found = read.as_ref().and_then(|rules| rules.named(rule).map(|rule| rules.rule(rule)));
    found.map_or(Stretch { start: 0, length: 0 }, |rule| Stretch {
        start: rule.start as u32,
        length: rule.width() as u32,
    })
}

/// The tree of the rules and commands, in two slices of any length and content.
pub fn build(
    provable: u32,
    logic: u32,
    rules: &[u32],
    commands: &[u32],
    nodes: &mut [u32],
    edges: &mut [u32],
    frames: &mut [u32],
) -> Built {
    nodes.fill(0);
    edges.fill(0);
    frames.fill(0);
    let room = Room {
        nodes: nodes.len().min(NODE_LIMIT),
        edges: (edges.len() / ROW).min(EDGE_LIMIT),
        frames: frames.len() / FRAME,
    };
    let read = Rules::read(provable, logic, rules).ok_or(Refusal::BadRules);
    match read.and_then(|rules| grow(&rules, commands, room)) {
        Ok(tree) => write(&tree, nodes, edges),
        Err(refusal) => Built {
            number: refusal.number(),
            nodes: 0,
            edges: 0,
        },
    }
}

fn write(tree: &Tree, nodes: &mut [u32], edges: &mut [u32]) -> Built {
    for (word, leaf) in nodes.iter_mut().zip(&tree.nodes) {
        *word = leaf.map_or(0, RuleNo::word);
    }
    for (words, (&key, edge)) in edges.chunks_exact_mut(ROW).zip(&tree.rows) {
        words.copy_from_slice(&row_words(key, edge));
    }
    Built {
        number: 0,
        nodes: tree.nodes.len() as u32,
        edges: tree.rows.len() as u32,
    }
}

/// The statement's list of rules, in postfix order, at the front of `list`; or a refusal.
#[allow(clippy::too_many_arguments)]
pub fn parse(
    provable: u32,
    logic: u32,
    rules: &[u32],
    nodes: &[u32],
    edges: &[u32],
    tokens: &[u32],
    allowance: u32,
    frames: &mut [u32],
    list: &mut [u32],
    work: &mut [u32],
) -> Answer {
    frames.fill(0);
    list.fill(0);
    work.fill(0);
    let rooms = Rooms {
        allowance,
        frames: frames.len(),
        list: list.len().min(work.len()),
    };
    let walked = match Grammar::read(provable, logic, rules, nodes, edges) {
        Ok(grammar) => grammar.parse(tokens, rooms),
        Err(refusal) => Walked::before_any_pass(refusal),
    };
    let length = walked.list.map(|found| {
        list[..found.len()].copy_from_slice(&found);
        found.len()
    });
    Answer::of(length, walked.passes)
}

/// Many statements in counted words, under rules and tables that are read once: their lists one after another, and four words of answer for each.
#[allow(clippy::too_many_arguments)]
pub fn parse_many(
    provable: u32,
    logic: u32,
    rules: &[u32],
    nodes: &[u32],
    edges: &[u32],
    statements: &[u32],
    allowance: u32,
    frames: &mut [u32],
    list: &mut [u32],
    work: &mut [u32],
    answers: &mut [u32],
    index: &mut [u32],
) -> Batch {
    let rooms = Rooms {
        allowance,
        frames: frames.len(),
        list: list.len(),
    };
    let [answer_room, index_room] = [answers.len(), index.len()];
    for slice in [frames, &mut *list, &mut *work, &mut *answers, index] {
        slice.fill(0);
    }
    let grammar = Grammar::read(provable, logic, rules, nodes, edges);
    let walks = grammar.and_then(|grammar| {
        let needed = grammar.rules.numbered().count() + nodes.len() + 1;
        let statements = answerable(statements, answer_room, index_room, needed)?;
        Ok(grammar.parse_many(&statements, rooms, work.len()))
    });
    match walks {
        Ok(walks) => tell(&walks, list, answers),
        Err(refusal) => Batch {
            number: refusal.number(),
            place: refusal.place(),
            ..Batch::default()
        },
    }
}

/// 22 before 7. The index has no use here, but others may have one for it.
fn answerable(statements: &[u32], answers: usize, index: usize, needed: usize) -> Result<Vec<&[u32]>, Refusal> {
    let statements = counted(statements).map_err(Refusal::WrongSize)?;
    if answers < ANSWER * statements.len() || index < needed {
        return Err(Refusal::ListFull);
    }
    Ok(statements)
}

fn tell(walks: &[Walked], list: &mut [u32], answers: &mut [u32]) -> Batch {
    let mut words = 0;
    for (walked, told) in walks.iter().zip(answers.chunks_exact_mut(ANSWER)) {
        let entries = walked.list.as_deref().unwrap_or_default();
        list[words..][..entries.len()].copy_from_slice(entries);
        words += entries.len();
        let length = walked.list.as_ref().map(Vec::len).map_err(|&refusal| refusal);
        let answer = Answer::of(length, walked.passes);
        told.copy_from_slice(&[answer.number, answer.place, answer.length, answer.passes]);
    }
    Batch {
        number: 0,
        place: 0,
        statements: walks.len(),
        words,
    }
}

/// The check alone: whether `list` is a well typed tree of the stated typecode that spells `tokens`.
pub fn verify(provable: u32, logic: u32, rules: &[u32], tokens: &[u32], list: &[u32], work: &mut [u32]) -> Answer {
    work.fill(0);
    let read = Rules::read(provable, logic, rules).ok_or(Refusal::BadRules);
    let result = read.and_then(|rules| check::verify(&rules, tokens, list, work.len()));
    Answer::of(result.map(|()| 0), 0)
}

/// The rules and statements of a package. For each statement the number of its tokens is written, then its tokens.
pub fn package_read(bytes: &[u8], rules: &mut [u32], statements: &mut [u32]) -> Package {
    rules.fill(0);
    statements.fill(0);
    match unpack(bytes, rules.len(), statements.len()) {
        Ok(contents) => {
            rules[..contents.rules.len()].copy_from_slice(&contents.rules);
            statements[..contents.statements.len()].copy_from_slice(&contents.statements);
            Package {
                number: 0,
                place: 0,
                provable: contents.provable,
                logic: contents.logic,
                rules: contents.rules.len(),
                statements: contents.count,
                words: contents.statements.len(),
            }
        }
        Err(refusal) => Package {
            number: refusal.number(),
            place: refusal.place(),
            ..Package::default()
        },
    }
}

/// 7 and 10 come after the last record.
fn unpack(bytes: &[u8], rules: usize, statements: usize) -> Result<Contents, Refusal> {
    let contents = Contents::read(bytes)?;
    if contents.rules.len() > rules || contents.statements.len() > statements {
        return Err(Refusal::ListFull);
    }
    Rules::read(contents.provable, contents.logic, &contents.rules).ok_or(Refusal::BadRules)?;
    Ok(contents)
}

/// The package of these rules and statements, each statement as the number of its tokens and its tokens.
pub fn package_write(provable: u32, logic: u32, rules: &[u32], statements: &[u32], bytes: &mut [u8]) -> Written {
    bytes.fill(0);
    let read = Rules::read(provable, logic, rules).ok_or(Refusal::BadRules);
    let written = read.and_then(|read| packed(&read, rules, statements));
    match written.and_then(|package| put(&package, bytes)) {
        Ok(length) => Written {
            number: 0,
            place: 0,
            length,
        },
        Err(refusal) => Written {
            number: refusal.number(),
            place: refusal.place(),
            length: 0,
        },
    }
}

fn put(package: &[u8], bytes: &mut [u8]) -> Result<usize, Refusal> {
    let room = bytes.get_mut(..package.len()).ok_or(Refusal::ListFull)?;
    room.copy_from_slice(package);
    Ok(package.len())
}
