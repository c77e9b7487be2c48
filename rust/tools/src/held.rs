//! Holds the answers of the library, or of the papers in ordinary Rust, against those of the published Rust.

use crate::grown::{collide, Item, Set};
use crate::oracle::{Answers, Asked, Build, Edge, Node, Parse, Said, Tree};
use crate::sides::Side;
use crate::tables;
use crate::trees::{relation, Relation};
use jiehkavon::limits::{MOST_EDGES, MOST_NODES, MOST_RULES, ROW_WIDTH};
use jiehkavon::words::Answer;
use plain::{Refusal, Room, Rules, TOKEN_LIMIT};
use std::collections::{BTreeMap, HashSet};

/// What stands in every lent word before a call, so that a word that isn't written shows.
const STALE: u32 = 0xABAD_1DEA;

/// What a pair of answers means.
#[derive(Clone, Copy, Debug, PartialEq, Eq, PartialOrd, Ord)]
pub enum Verdict {
    /// Both say the same.
    Same,
    /// They part as docs/DIFFERENCES.md says.
    Listed,
    /// They part in a way that nobody has explained.
    Found,
}

/// An input for a pair of answers.
#[derive(Clone, Debug)]
pub struct Example {
    pub size: usize,
    pub text: String,
}

/// How often a pair of answers came up; where the two part, also its first and its smallest input.
#[derive(Default)]
pub struct Seen {
    pub count: u64,
    pub inputs: Option<[Example; 2]>,
}

/// All pairs of answers, and how much was compared.
#[derive(Default)]
pub struct Tally {
    pub pairs: BTreeMap<(Verdict, String), Seen>,
    pub compared: BTreeMap<&'static str, u64>,
}

impl Tally {
    fn add(&mut self, what: &'static str, count: usize) {
        *self.compared.entry(what).or_default() += count as u64;
    }

    pub(crate) fn note(&mut self, verdict: Verdict, pair: String, size: usize, text: impl Fn() -> String) {
        let seen = self.pairs.entry((verdict, pair)).or_default();
        seen.count += 1;
        let here = || Example { size, text: text() };
        match &mut seen.inputs {
            _ if verdict == Verdict::Same => {}
            None => seen.inputs = Some([here(), here()]),
            Some([_, least]) if size < least.size => *least = here(),
            Some(_) => {}
        }
    }

    pub fn found(&self) -> u64 {
        let found = self.pairs.iter().filter(|((verdict, _), _)| *verdict == Verdict::Found);
        found.map(|(_, seen)| seen.count).sum()
    }
}

/// The tree that is built here, or the refusal.
pub(crate) struct Grown {
    pub(crate) number: u32,
    nodes: Vec<u32>,
    pub(crate) edges: Vec<u32>,
    /// All past the rows is zero, or all is where the build is refused.
    clean: bool,
}

/// Room for the largest trees.
const MOST: Room = Room {
    nodes: MOST_NODES,
    edges: MOST_EDGES,
    frames: 16_385,
};

/// Words of a frame.
const FRAME_WIDTH: usize = 16;

/// Rooms to build in, one after the other while one is short. Without garden paths a node for each item is enough, and at each node an edge
/// for each different item. With them a tree may grow to any size, but most stay small.
fn rooms(set: &Set) -> Vec<Room> {
    let items = set.rules.iter().flat_map(|rule| &rule.body);
    let count = items.clone().count() + 1;
    let keys = items.map(|item| item.pair()).collect::<HashSet<_>>().len();
    let least = Room {
        nodes: count.min(MOST_NODES),
        edges: (count * keys).min(MOST_EDGES),
        frames: 0,
    };
    let small = Room {
        nodes: 300,
        edges: 2_000,
        frames: 40,
    };
    match set.commands[..] {
        [] => vec![least],
        _ => vec![small, MOST],
    }
}

pub(crate) fn grow(side: &Side, set: &Set, rules: &[u32]) -> Grown {
    let grown = rooms(set).into_iter().map(|room| grow_in(side, set, rules, room));
    let mut tried: Vec<Grown> = Vec::new();
    for grown in grown {
        let short = [6, 12, 13].contains(&grown.number);
        tried.push(grown);
        if !short {
            break;
        }
    }
    tried.pop().expect("some room")
}

pub(crate) fn grow_in(side: &Side, set: &Set, rules: &[u32], room: Room) -> Grown {
    let mut nodes = vec![STALE; room.nodes];
    let mut edges = vec![STALE; room.edges * ROW_WIDTH];
    let mut frames = vec![STALE; room.frames * FRAME_WIDTH];
    let commands = set.command_words();
    let built = (side.build)(set.provable, set.logic, rules, &commands, &mut nodes, &mut edges, &mut frames);
    let (past_nodes, past_edges) = (built.nodes as usize, built.edges as usize * ROW_WIDTH);
    let rest = nodes.iter().skip(past_nodes).chain(edges.iter().skip(past_edges)).chain(&frames);
    let clean = rest.copied().all(|word| word == 0) && (built.number == 0 || (built.nodes, built.edges) == (0, 0));
    tables::cut(built, &mut nodes, &mut edges);
    Grown {
        number: built.number,
        nodes,
        edges,
        clean,
    }
}

/// The tables as the Rust's tree would be told, whose edges are sorted: rows that don't rise make another tree.
pub(crate) fn tree_of(set: &Set, grown: &Grown) -> Option<Tree> {
    let node = |&word: &u32| match word.checked_sub(1) {
        None => Some(Node::Branch),
        Some(at) => {
            let rule = set.rules.get(at as usize)?;
            Some(Node::Leaf {
                rule: word,
                typecode: rule.result,
                slots: rule.slots().count() as u32,
            })
        }
    };
    let nodes = grown.nodes.iter().map(node).collect::<Option<_>>()?;
    let edges = grown.edges.chunks(ROW_WIDTH).map(edge_of).collect::<Option<_>>()?;
    Some(Tree { nodes, edges })
}

/// None if a word that no reduce uses isn't zero.
fn edge_of(row: &[u32]) -> Option<Edge> {
    let used = 5 + 2 * row[4] as usize;
    if used > 15 || row[used..].iter().any(|&word| word != 0) {
        return None;
    }
    let reduces = row[5..used].chunks(2).map(|pair| (pair[0], pair[1])).collect();
    Some(Edge {
        from: row[0],
        kind: row[1],
        symbol: row[2],
        to: row[3],
        reduces,
    })
}

/// What makes the rules bad, if anything: the paper's list, read again here so that a refusal 10 is not taken on trust.
fn fault(set: &Set) -> Option<&'static str> {
    let symbol = |n: &u32| (1..=65_535).contains(n);
    if set.provable == set.logic {
        return Some("provable and logic the same");
    }
    if set.rules.len() > MOST_RULES {
        return Some("too many rules");
    }
    let mut symbols = set
        .rules
        .iter()
        .flat_map(|rule| rule.body.iter().map(|item| item.pair()[1]).chain([rule.result]));
    if !symbols.all(|n| symbol(&n)) || !symbol(&set.provable) || !symbol(&set.logic) {
        return Some("symbol out of range");
    }
    set.rules.iter().find_map(|rule| match rule.body.len() {
        0 => Some("empty body"),
        33.. => Some("body too long"),
        _ if rule.result == set.provable => Some("provable result"),
        _ if rule.converts() == Some(rule.result) => Some("conversion with equal ends"),
        _ => None,
    })
}

/// Whether two placed bodies collide; whether two do that aren't both variables.
fn collisions(set: &Set) -> (bool, bool) {
    let placed: Vec<_> = set.placed().collect();
    let mut found = (false, false);
    for (at, rule) in placed.iter().enumerate() {
        for earlier in placed[..at].iter().filter(|earlier| collide(&earlier.body, &rule.body)) {
            found.0 = true;
            found.1 |= !(earlier.float && rule.float);
        }
    }
    found
}

/// The pair of answers to a build, trees apart.
fn judge_build(set: &Set, number: u32, theirs: &Build) -> (Verdict, String) {
    let (collides, beyond_floats) = collisions(set);
    let fault = fault(set);
    let kind = theirs.kind();
    let reason = explained(set).err().filter(|refusal| refusal.number() == number);
    let verdict = match (number, kind) {
        (10, _) if fault.is_some() => Verdict::Listed,
        _ if fault.is_some() || (number == 11) != collides => Verdict::Found,
        (0, "built") | (14, "panic sixth reduce") | (16, "diag leaf" | "panic same node") => Verdict::Same,
        (11, "diag ambiguous") if beyond_floats => Verdict::Same,
        (11, "panic sixth reduce" | "panic same node") => Verdict::Listed,
        (11, kind) if !set.commands.is_empty() && (kind.starts_with("panic") || kind == "endless") => Verdict::Listed,
        (11, "built" | "diag leaf") if !beyond_floats => Verdict::Listed,
        _ if !set.commands.is_empty() => judge_commands(number, reason, kind),
        _ => Verdict::Found,
    };
    let why = match (number, fault) {
        (10, Some(fault)) => format!(" ({fault})"),
        (11, _) if !beyond_floats => " (variables)".to_string(),
        (16, _) if !set.commands.is_empty() => format!(" ({})", reason.map_or("no reason", told_reason)),
        _ => String::new(),
    };
    (verdict, format!("build: {number}{why} / {kind}"))
}

/// The tree of the papers in ordinary Rust, which can tell more than its words: why it is refused, and the edges that each path takes up.
fn explained(set: &Set) -> Result<plain::Tree, Refusal> {
    let rules = Rules::read(set.provable, set.logic, &set.words()).ok_or(Refusal::BadRules)?;
    plain::grow(&rules, &set.command_words(), MOST)
}

fn told_reason(reason: Refusal) -> &'static str {
    match reason {
        Refusal::LeafCopied => "rows of a leaf",
        Refusal::CopiedToItself => "rows to their own node",
        Refusal::BadClone => "a clone to a leaf or itself",
        Refusal::NoSecondEdge => "no edge from the second place",
        Refusal::BadPath => "not in the tree",
        _ => "no command",
    }
}

/// Where a command is refused by either. The Rust goes on where a node is copied to itself or a clone leads to a leaf, and where the second
/// place has no edge it makes one; it reports a key that is there twice over, and knows no end to a copy that copies itself.
fn judge_commands(number: u32, reason: Option<Refusal>, kind: &str) -> Verdict {
    let goes_on = matches!(reason, Some(Refusal::CopiedToItself | Refusal::BadClone | Refusal::NoSecondEdge));
    let refused = (kind.starts_with("diag") || kind.starts_with("panic")) && !kind.ends_with("other");
    match (number, kind) {
        (16, "built" | "endless") if goes_on => Verdict::Listed,
        (16, _) if reason.is_some() && refused => Verdict::Same,
        (15, "panic offset") => Verdict::Same,
        (0 | 12 | 13 | 14 | 15, "diag double conflict") => Verdict::Listed,
        (12 | 13 | 17, "endless") => Verdict::Listed,
        _ => Verdict::Found,
    }
}

/// A parse and all that it gave back.
struct Walked {
    answer: Answer,
    list: Vec<u32>,
    clean: bool,
}

/// Room that is always enough for so many tokens after the typecode: passes, frames, list entries.
fn enough(after: usize) -> (u32, usize, usize) {
    (4 * after as u32, after.saturating_sub(1), 18 * after)
}

/// A set with its tree here, to put statements to.
pub(crate) struct Desk<'a> {
    pub(crate) side: &'a Side,
    pub(crate) set: &'a Set,
    pub(crate) rules: &'a [u32],
    pub(crate) grown: &'a Grown,
    pub(crate) relation: Relation,
}

impl Desk<'_> {
    fn walk(&self, tokens: &[u32]) -> Walked {
        self.walk_over(self.rules, tokens)
    }

    /// Number, place and passes, then the list.
    pub(crate) fn told(&self, tokens: &[u32]) -> Vec<u32> {
        let Walked { answer, list, .. } = self.walk(tokens);
        [vec![answer.number, answer.place, answer.passes], list].concat()
    }

    fn walk_over(&self, rules: &[u32], tokens: &[u32]) -> Walked {
        let (allowance, frames, entries) = enough(tokens.len().saturating_sub(1));
        let mut frames = vec![STALE; frames];
        let mut list = vec![STALE; entries];
        let mut work = vec![STALE; entries];
        let answer = (self.side.parse)(
            self.set.provable,
            self.set.logic,
            rules,
            &self.grown.nodes,
            &self.grown.edges,
            tokens,
            allowance,
            &mut frames,
            &mut list,
            &mut work,
        );
        let length = answer.length as usize;
        let clean = list.iter().skip(length).chain(&frames).chain(&work).all(|&word| word == 0);
        list.truncate(length);
        Walked { answer, list, clean }
    }

    /// Whether the check alone says yes, or no.
    fn check_says(&self, tokens: &[u32], list: &[u32], yes: bool) -> bool {
        let mut work = vec![STALE; list.len()];
        let answer = (self.side.verify)(self.set.provable, self.set.logic, self.rules, tokens, list, &mut work);
        let number = match yes {
            _ if tokens.len() > TOKEN_LIMIT => 9,
            true => 0,
            false => 4,
        };
        let whole = Answer {
            number,
            place: 0,
            length: 0,
            passes: 0,
        };
        answer == whole && work.iter().all(|&word| word == 0)
    }

    /// Whether the walk goes on where the Rust ended it: by a conversion after the last token, while frames were left. What the Rust then
    /// has is no formula of the statement, or not one tree.
    fn goes_on(&self, ours: &Walked, theirs: &Parse, tokens: &[u32]) -> bool {
        let by_conversion = match &theirs.said {
            Said::Ok { list, same, typed, .. } => !(*same && *typed) && list.last().is_some_and(|&rule| self.converts(rule)),
            Said::Panic(_) => theirs.kind() == "panic several roots",
            _ => false,
        };
        by_conversion && ours.answer.passes > theirs.passes && self.first_ending(tokens) == Some(theirs.passes)
    }

    /// Whether the answers may part because of a garden path. A path's reduces can come too late or be wrong, which we find out at the finish
    /// and the Rust not, or by a panic. Behind a variable edge that is not raised the Rust takes the wrong trees. What is a formula of the
    /// statement there is one here.
    fn may_part(&self, ours: &Walked, theirs: &Parse) -> bool {
        let formula = matches!(
            theirs.said,
            Said::Ok {
                same: true,
                typed: true,
                ..
            }
        );
        let by_path = ours.answer.number == 4 && ours.answer.passes == theirs.passes && ends(theirs);
        !self.set.commands.is_empty() && !formula && (by_path || self.relation == Relation::Raised)
    }

    /// The pass in which a conversion first ends a statement. Over the same tables, but with a constant behind every conversion so that it
    /// is none, the walk makes a root step there; that is refused in the same pass, or leads to a branch where the tokens have ended.
    fn first_ending(&self, tokens: &[u32]) -> Option<u32> {
        let mut set = self.set.clone();
        let conversions = set.rules.iter_mut().filter(|rule| rule.converts().is_some());
        conversions.for_each(|rule| rule.body.push(Item::Constant(self.set.logic)));
        let Answer { number, passes, .. } = self.walk_over(&set.words(), tokens).answer;
        match number {
            2 | 4 => Some(passes),
            3 => Some(passes - 1),
            _ => None,
        }
    }

    fn converts(&self, rule: u32) -> bool {
        self.set.rules[rule as usize - 1].converts().is_some()
    }
}

/// Whether the answer here is the one that goes with the Rust's, where both walks end in the same pass.
fn judge_parse(ours: &Walked, theirs: &Parse, tokens: &[u32]) -> Verdict {
    let Answer {
        number,
        place,
        length,
        passes,
    } = ours.answer;
    let refused = number != 0 && length == 0;
    if tokens.len() > TOKEN_LIMIT {
        return if (number, place, length, passes) == (9, 0, 0, 0) {
            Verdict::Listed
        } else {
            Verdict::Found
        };
    }
    if passes != theirs.passes {
        return Verdict::Found;
    }
    match &theirs.said {
        Said::Ok {
            list,
            same: true,
            typed: true,
            ..
        } if (number, place) == (0, 0) && ours.list == *list => Verdict::Same,
        Said::Ok {
            same: true, typed: false, ..
        } if (number, place) == (4, 0) && refused => Verdict::Listed,
        Said::TooFew if (number, place) == (1, 0) && refused => Verdict::Same,
        Said::Unparseable(at) if (number, place) == (2, *at) && refused => Verdict::Same,
        Said::TooShort(at) if (number, place) == (3, *at) && refused => Verdict::Same,
        _ => Verdict::Found,
    }
}

/// The Rust, to be asked again where it parts from us.
pub struct Again<'a> {
    /// A build with the symbols told in other orders, by which its maps are gone through in others.
    pub shuffled: &'a dyn Fn(&Asked) -> Vec<Answers>,
    /// Everything of a set, with its maps in the order of the keys, if that Rust is there.
    pub in_key_order: &'a dyn Fn(&Asked) -> Option<Answers>,
}

/// How a build and its tree stand to those of the Rust.
struct Judged {
    verdict: Verdict,
    pair: String,
    relation: Relation,
}

impl Judged {
    fn of(set: &Set, grown: &Grown, theirs: &Answers) -> Judged {
        let (verdict, pair) = judge_build(set, grown.number, &theirs.build);
        let both = grown.number == 0 && matches!(theirs.build, Build::Built { .. });
        if !both {
            return Judged {
                verdict,
                pair,
                relation: Relation::Other,
            };
        }
        let relation = tree_relation(set, grown, theirs);
        let (verdict, pair) = judge_tree(set, relation, verdict, pair);
        Judged { verdict, pair, relation }
    }

    /// Where the order of the Rust's maps may have made the difference.
    fn may_be_order(&self, set: &Set) -> bool {
        !set.commands.is_empty() && (self.verdict == Verdict::Found || self.relation == Relation::Renumbered)
    }
}

/// Where the order of the maps shows, the Rust whose maps are in key order takes the place of the unchanged one: with it numbers of nodes have to be
/// the same too. That it is the order is known by the unchanged one's own answers, which part when symbols are told in other orders.
fn hold_in_key_order(asked: &Asked, grown: &Grown, theirs: &Answers, judged: &mut Judged, again: &Again) -> Option<Answers> {
    let renumbered = judged.relation == Relation::Renumbered;
    if !renumbered && !order_shows(theirs, &(again.shuffled)(asked)) {
        return None;
    }
    let Some(ordered) = (again.in_key_order)(asked) else {
        if !renumbered {
            judged.verdict = Verdict::Listed;
            judged.pair += ": the order of the maps";
        }
        return None;
    };
    let other = Judged::of(&asked.set, grown, &ordered);
    let found = other.verdict == Verdict::Found || other.relation == Relation::Renumbered;
    let verdict = match found {
        true => Verdict::Found,
        false if renumbered => other.verdict,
        false => Verdict::Listed,
    };
    *judged = Judged {
        verdict,
        pair: format!("{}; in key order {}", judged.pair, other.pair),
        relation: other.relation,
    };
    Some(ordered)
}

/// Everything of one set: the build, the tree, and each statement.
pub fn hold(side: &Side, name: &str, asked: &Asked, theirs: &Answers, again: &Again, tally: &mut Tally) {
    let set = &asked.set;
    let rules = set.words();
    let grown = grow(side, set, &rules);
    tally.add("sets", 1);
    let mut judged = Judged::of(set, &grown, theirs);
    let ordered = match judged.may_be_order(set) {
        true => hold_in_key_order(asked, &grown, theirs, &mut judged, again),
        false => None,
    };
    let theirs = ordered.as_ref().unwrap_or(theirs);
    let Judged {
        mut verdict,
        mut pair,
        relation,
    } = judged;
    if matches!(relation, Relation::Equal | Relation::Renumbered) {
        add_tree(set, theirs, tally);
    }
    if !grown.clean {
        (verdict, pair) = (Verdict::Found, format!("{pair}: words left in the tables"));
    }
    tally.note(verdict, pair, size(set, &[]), || {
        told(name, set, None, &format!("{:?}", theirs.build))
    });
    if relation == Relation::Other {
        tally.add("statements not compared, for want of two trees", asked.statements.len());
        return;
    }
    let desk = Desk {
        side,
        set,
        rules: &rules,
        grown: &grown,
        relation,
    };
    for (tokens, parse) in asked.statements.iter().zip(&theirs.parses) {
        hold_statement(name, &desk, tokens, parse, tally);
    }
}

/// Without commands the numbers of nodes are the Rust's, and no offset is higher.
fn judge_tree(set: &Set, relation: Relation, verdict: Verdict, pair: String) -> (Verdict, String) {
    match relation {
        Relation::Equal => (verdict, pair),
        Relation::Renumbered if !set.commands.is_empty() => (verdict, format!("{pair}, other numbers")),
        Relation::Raised if !set.commands.is_empty() => (Verdict::Listed, format!("{pair}, raised")),
        _ => (Verdict::Found, format!("{pair}: the trees differ")),
    }
}

/// Whether the Rust's own answers part. Numbers of nodes are no difference.
fn order_shows(theirs: &Answers, others: &[Answers]) -> bool {
    let alike = |other: &Answers| {
        let same_tree = matches!(relation(&other.tree, &theirs.tree), Relation::Equal | Relation::Renumbered);
        other.build.kind() == theirs.build.kind() && same_tree
    };
    !others.iter().all(alike)
}

/// How the two trees stand to each other; other ones if the edges taken up aren't as many.
fn tree_relation(set: &Set, grown: &Grown, theirs: &Answers) -> Relation {
    let counted = Build::Built {
        nodes: theirs.tree.nodes.len(),
        edges: theirs.tree.edges.len(),
    };
    let relation = tree_of(set, grown).map_or(Relation::Other, |ours| relation(&ours, &theirs.tree));
    let same = matches!(relation, Relation::Equal | Relation::Renumbered);
    let taken = || explained(set).map(|tree| tree.taken.iter().map(|taken| taken.edges).collect());
    if theirs.build != counted || (same && !set.commands.is_empty() && taken() != Ok(theirs.taken.clone())) {
        return Relation::Other;
    }
    relation
}

fn add_tree(set: &Set, theirs: &Answers, tally: &mut Tally) {
    let edges = &theirs.tree.edges;
    let count = |counted: &dyn Fn(&Edge) -> bool| edges.iter().filter(|edge| counted(edge)).count();
    let offset = |edge: &Edge, least: u32| edge.reduces.iter().any(|reduce| reduce.1 >= least);
    tally.add("trees equal", 1);
    tally.add("nodes equal", theirs.tree.nodes.len());
    tally.add("edges equal", edges.len());
    tally.add("edges with one reduce", count(&|edge| edge.reduces.len() == 1));
    tally.add("edges with more reduces", count(&|edge| edge.reduces.len() > 1));
    tally.add("edges with an offset", count(&|edge| offset(edge, 1)));
    tally.add("edges with an offset above 1", count(&|edge| offset(edge, 2)));
    tally.add("trees with copied edges", usize::from(copied(set, edges)));
    tally.add("sets with variables", usize::from(set.rules.iter().any(|rule| rule.float)));
    tally.add("garden paths", theirs.taken.len());
    tally.add("edges taken up", theirs.taken.iter().sum());
}

/// Whether an edge came by copying: a reduce on a constant edge, or one that is offset.
fn copied(set: &Set, edges: &[Edge]) -> bool {
    let conversion = |rule: u32| set.rules[rule as usize - 1].converts().is_some();
    edges.iter().any(|edge| {
        edge.reduces
            .iter()
            .any(|&(rule, offset)| conversion(rule) && (edge.kind == 0 || offset == 1))
    })
}

fn hold_statement(name: &str, desk: &Desk, tokens: &[u32], theirs: &Parse, tally: &mut Tally) {
    let ours = desk.walk(tokens);
    let goes_on = desk.goes_on(&ours, theirs, tokens);
    let mut verdict = match judge_parse(&ours, theirs, tokens) {
        Verdict::Found if goes_on || desk.may_part(&ours, theirs) => Verdict::Listed,
        verdict => verdict,
    };
    let after = if goes_on { " later" } else { "" };
    let raised = if desk.relation == Relation::Raised { " raised" } else { "" };
    let mut pair = format!("parse: {}{after}{raised} / {}", ours.answer.number, theirs.kind());
    if !ours.clean {
        (verdict, pair) = (Verdict::Found, format!("{pair}: words left"));
    }
    if !checks_agree(desk, &ours, theirs, tokens, tally) {
        (verdict, pair) = (Verdict::Found, format!("{pair}: the check"));
    }
    tally.add("statements", 1);
    tally.add("statements of more than 100 tokens", usize::from(tokens.len() > 100));
    if verdict != Verdict::Found && ours.answer.number != 9 {
        add_equal(desk, &ours, theirs, goes_on, tally);
    }
    tally.note(verdict, pair, size(desk.set, tokens), || {
        told(
            name,
            desk.set,
            Some(tokens),
            &format!("{:?} {:?}; {theirs:?}", ours.answer, ours.list),
        )
    });
}

/// The check alone has to say of each list what it is: of the Rust's, whether it spells the statement and is well typed; yes of our own.
fn checks_agree(desk: &Desk, ours: &Walked, theirs: &Parse, tokens: &[u32], tally: &mut Tally) -> bool {
    let mut agree = ours.answer.number != 0 || desk.check_says(tokens, &ours.list, true);
    if let Said::Ok { list, same, typed, .. } = &theirs.said {
        tally.add("lists of the Rust put to the check", 1);
        agree &= desk.check_says(tokens, list, *same && *typed);
    }
    agree
}

/// Whether the Rust came to a finish, or to a reduce that it panics at.
fn ends(theirs: &Parse) -> bool {
    matches!(theirs.said, Said::Ok { .. }) || ["panic several roots", "panic too few trees"].contains(&theirs.kind().as_str())
}

fn add_equal(desk: &Desk, ours: &Walked, theirs: &Parse, goes_on: bool, tally: &mut Tally) {
    let convert = ours.list.iter().any(|&rule| desk.converts(rule));
    tally.add("lists with a conversion", usize::from(convert));
    if goes_on {
        tally.add("walks that go on with frames left", 1);
        return;
    }
    if desk.relation == Relation::Raised {
        tally.add("statements over raised trees", 1);
        return;
    }
    tally.add("passes equal", 1);
    tally.add("passes equal, in all", theirs.passes as usize);
    tally.add("lists equal", usize::from(ours.answer.number == 0));
    tally.add("list entries equal", ours.list.len());
    tally.add("places equal", usize::from(ours.answer.place != 0));
}

/// How much there is to read in a set and a statement.
pub(crate) fn size(set: &Set, tokens: &[u32]) -> usize {
    set.rules.iter().map(|rule| rule.body.len() + 1).sum::<usize>() + tokens.len()
}

/// Questions and answers on one line.
pub(crate) fn told(name: &str, set: &Set, tokens: Option<&[u32]>, answers: &str) -> String {
    let asked = Asked {
        set: set.clone(),
        statements: tokens.iter().map(|tokens| tokens.to_vec()).collect(),
    };
    let lines = asked.to_string();
    let common = |line: &&str| ["build", "tree", "taken"].contains(line) || line.contains('#') || line.starts_with("limit");
    let questions: Vec<&str> = lines.lines().filter(|line| !common(line)).collect();
    format!("{name}: {} => {answers}", questions.join("; "))
}
