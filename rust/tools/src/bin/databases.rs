//! Builds the grammar of each Metamath database that is named, parses every statement of it through the proved library, and has each list
//! that comes back checked alone. A database with commands is taken without them first, then with them; `--paths FOLDER` has a text of commands for
//! each that has none in its own comments (`set.mm.txt` for `set.mm`). With `--oracle PROGRAM` the line driver around the published Rust answers the
//! same questions, and each answer is held against it. With `--write FILE` all trees and answers are written down, to be compared with those of another build of
//! the library. Prints a table, then one of the commands, then what the comparisons found; says on standard
//! error how far it is.

use jiehkavon::limits::{FRAME_WIDTH, MOST_CLONES, MOST_EDGES, MOST_NODES, ROW_WIDTH};
use jiehkavon::words::{self, Answer, Built};
use jiehkavon::Room as Enough;
use std::collections::BTreeMap;
use std::io::Write as _;
use std::process::{Command, ExitCode, Stdio};
use std::time::{Duration, Instant};
use tools::metamath::{Command as After, Database, Item, Statement};
use tools::oracle::{Edge, Node, Tree};
use tools::tables;
use tools::trees::{by_reach, relation, Relation};

const HEADINGS: [&str; 12] = [
    "database",
    "symbols",
    "rules",
    "nodes",
    "edges",
    "build",
    "statements",
    "accepted",
    "refused",
    "lists the check accepts",
    "passes",
    "seconds: build + parse + check",
];

const BUILD_HEADINGS: [&str; 7] = [
    "database",
    "nodes",
    "edges",
    "edges taken up by each path",
    "most frames at once",
    "largest offset",
    "most reduces",
];

/// A database with its tables.
struct Grammar<'a> {
    database: &'a Database,
    rules: Vec<u32>,
    nodes: Vec<u32>,
    edges: Vec<u32>,
    built: Built,
    time: Duration,
}

impl<'a> Grammar<'a> {
    fn new(database: &'a Database) -> Self {
        let (rules, commands) = (database.rule_words(), database.command_words());
        let (mut nodes, mut edges) = tables::longest();
        let mut frames = vec![0; MOST_CLONES * FRAME_WIDTH];
        let start = Instant::now();
        let built = words::build(
            database.provable,
            database.logic,
            &rules,
            &commands,
            &mut nodes,
            &mut edges,
            &mut frames,
        );
        let time = start.elapsed();
        tables::cut(built, &mut nodes, &mut edges);
        Grammar {
            database,
            rules,
            nodes,
            edges,
            built,
            time,
        }
    }

    fn has_paths(&self) -> bool {
        self.database.commands.iter().any(|command| *command != After::TypeConversions)
    }

    /// The tree as the published Rust tells its own: edges sorted.
    fn tree(&self) -> Tree {
        let node = |&word: &u32| match word {
            0 => Node::Branch,
            rule => {
                let Some(told) = self.database.rules.get(rule as usize - 1) else {
                    return Node::Branch;
                };
                let slots = told.body.iter().filter(|item| matches!(item, Item::Slot { .. })).count();
                Node::Leaf {
                    rule,
                    typecode: told.result,
                    slots: slots as u32,
                }
            }
        };
        let edge = |row: &[u32]| Edge {
            from: row[0],
            kind: row[1],
            symbol: row[2],
            to: row[3],
            reduces: reduces(row),
        };
        let mut edges: Vec<Edge> = self.edges.chunks_exact(ROW_WIDTH).map(edge).collect();
        edges.sort();
        Tree {
            nodes: self.nodes.iter().map(node).collect(),
            edges,
        }
    }
}

/// The rules and offsets of an edge.
fn reduces(row: &[u32]) -> Vec<(u32, u32)> {
    row[5..5 + 2 * row[4] as usize]
        .chunks_exact(2)
        .map(|pair| (pair[0], pair[1]))
        .collect()
}

/// Slices to lend, long enough for every statement of a database.
struct Room {
    frames: Vec<u32>,
    list: Vec<u32>,
    work: Vec<u32>,
}

impl Room {
    fn new(statements: &[Statement]) -> Self {
        let rooms = statements.iter().map(|s| Enough::for_tokens(s.tokens.len()));
        let (frames, list) = rooms.fold((0, 0), |(frames, list), r| (r.frames.max(frames), r.list.max(list)));
        Room {
            frames: vec![0; frames],
            list: vec![0; list],
            work: vec![0; list],
        }
    }

    /// A parse with the room that is proved to be enough.
    fn parse(&mut self, g: &Grammar, tokens: &[u32]) -> Answer {
        let (d, enough) = (g.database, Enough::for_tokens(tokens.len()));
        let (frames, list, work) = (
            &mut self.frames[..enough.frames],
            &mut self.list[..enough.list],
            &mut self.work[..enough.list],
        );
        words::parse(
            d.provable,
            d.logic,
            &g.rules,
            &g.nodes,
            &g.edges,
            tokens,
            enough.allowance,
            frames,
            list,
            work,
        )
    }

    /// The check alone, of the first words of the list.
    fn verify(&mut self, g: &Grammar, tokens: &[u32], length: usize) -> Answer {
        words::verify(
            g.database.provable,
            g.database.logic,
            &g.rules,
            tokens,
            &self.list[..length],
            &mut self.work[..length],
        )
    }
}

/// What became of a statement: the answer, and the list that came with it.
#[derive(Debug, PartialEq, Eq)]
struct Outcome {
    number: u32,
    place: u32,
    passes: u32,
    list: Vec<u32>,
}

#[derive(Default)]
struct Tally {
    numbers: BTreeMap<u32, usize>,
    checked: usize,
    passes: u64,
    parse: Duration,
    check: Duration,
}

impl Tally {
    fn take(&mut self, g: &Grammar, room: &mut Room, tokens: &[u32]) -> Outcome {
        let start = Instant::now();
        let answer = room.parse(g, tokens);
        self.parse += start.elapsed();
        *self.numbers.entry(answer.number).or_default() += 1;
        self.passes += u64::from(answer.passes);
        let list = room.list[..answer.length as usize].to_vec();
        if answer.number == 0 {
            let start = Instant::now();
            self.checked += usize::from(room.verify(g, tokens, list.len()).number == 0);
            self.check += start.elapsed();
        }
        Outcome {
            number: answer.number,
            place: answer.place,
            passes: answer.passes,
            list,
        }
    }

    fn accepted(&self) -> usize {
        self.numbers.get(&0).copied().unwrap_or(0)
    }

    fn refused(&self) -> String {
        let refusals = self.numbers.iter().filter(|(number, _)| **number != 0);
        let said: Vec<String> = refusals.map(|(number, count)| format!("{number}: {count}")).collect();
        said.join(", ")
    }
}

fn parse_all(name: &str, g: &Grammar) -> (Tally, Vec<Outcome>) {
    let statements = &g.database.statements;
    let (mut tally, mut room) = (Tally::default(), Room::new(statements));
    let mut outcomes = Vec::with_capacity(statements.len());
    for (at, statement) in statements.iter().enumerate() {
        outcomes.push(tally.take(g, &mut room, &statement.tokens));
        if at % 1000 == 999 {
            eprintln!(
                "{name}: {} of {} statements, {} accepted",
                at + 1,
                statements.len(),
                tally.accepted()
            );
        }
    }
    (tally, outcomes)
}

fn row(name: &str, g: &Grammar, tally: &Tally) {
    let (d, b) = (g.database, g.built);
    println!(
        "| {name} | {} | {} | {} | {} | {} | {} | {} | {} | {} | {} | {:.3} + {:.1} + {:.1} |",
        d.symbols.len(),
        d.rules.len(),
        b.nodes,
        b.edges,
        b.number,
        d.statements.len(),
        tally.accepted(),
        tally.refused(),
        tally.checked,
        tally.passes,
        g.time.as_secs_f64(),
        tally.parse.as_secs_f64(),
        tally.check.as_secs_f64()
    );
}

/// All that the published Rust answers: a build with the database's commands after the rules, its tree, every statement.
fn ask(oracle: &str, d: &Database) -> Result<Vec<String>, String> {
    let mut lines = d.lines() + "tree\n";
    for statement in &d.statements {
        let tokens: Vec<String> = statement.tokens.iter().map(u32::to_string).collect();
        lines += &format!("parse {}\n", tokens.join(" "));
    }
    let child = Command::new(oracle).stdin(Stdio::piped()).stdout(Stdio::piped()).spawn();
    let mut child = child.map_err(|e| format!("{oracle}: {e}"))?;
    // It reads everything before it answers, so one after the other can't block.
    child
        .stdin
        .take()
        .expect("it is piped")
        .write_all(lines.as_bytes())
        .map_err(|e| format!("{oracle}: {e}"))?;
    let output = child.wait_with_output().map_err(|e| format!("{oracle}: {e}"))?;
    Ok(String::from_utf8_lossy(&output.stdout).lines().map(str::to_owned).collect())
}

/// How the tree that the published Rust tells stands to ours, with kinds, leaves' rules, targets and reduces. Copied nodes have other numbers there,
/// since they are numbered in the order of its maps.
fn same_tree(g: &Grammar, told: &[String]) -> Option<&'static str> {
    match (relation(&g.tree(), &Tree::read(told).ok()?), g.has_paths()) {
        (Relation::Equal, _) => Some("the same tree"),
        (Relation::Renumbered, true) => Some("the same tree but for the numbers of nodes"),
        _ => None,
    }
}

/// What the published Rust's answer is in the paper's numbers; nothing where it panics. It returns formulas without looking whether they
/// are well typed and spell the statement: where they don't, that is the paper's 4.
fn outcome(line: &str) -> Option<Outcome> {
    let (answer, remarks) = line.split_once(" ; passes ")?;
    let words: Vec<&str> = answer.split(' ').collect();
    let numbers: Vec<u32> = words[1..].iter().filter_map(|w| w.parse().ok()).collect();
    let (passes, remarks) = remarks.split_once(' ').unwrap_or((remarks, ""));
    let (number, place, list) = match words[0] {
        "ok" if remarks == "same typed" => (0, 0, numbers),
        "ok" => (4, 0, Vec::new()),
        "toofew" => (1, 0, Vec::new()),
        "unparseable" => (2, numbers[0], Vec::new()),
        "tooshort" => (3, numbers[0], Vec::new()),
        _ => return None,
    };
    Some(Outcome {
        number,
        place,
        passes: passes.parse().ok()?,
        list,
    })
}

/// What was found beside the table, and whether anything in it is wrong.
#[derive(Default)]
struct Findings {
    notes: Vec<String>,
    wrong: bool,
}

impl Findings {
    /// Holds the outcomes against the published Rust's. Where it panics, a refusal is all that is asked for; a statement too long here
    /// isn't compared.
    fn compare(&mut self, name: &str, g: &Grammar, ours: &[Outcome], told: &[String]) {
        let Some(end) = told.iter().position(|line| line == "end") else {
            return self.blame(format!("{name}: the published Rust built nothing: {}", told.join(" ")));
        };
        let tree = match same_tree(g, &told[2..end]) {
            Some(tree) if told[0].starts_with("built ") && ours.len() == told.len() - end - 1 => tree,
            _ => return self.blame(format!("{name}: another tree, or too few answers: {}", told[0])),
        };
        let (mut same, mut outside) = (0, 0);
        for ((ours, line), statement) in ours.iter().zip(&told[end + 1..]).zip(&g.database.statements) {
            match outcome(line) {
                Some(theirs) if theirs == *ours => same += 1,
                None if ours.number != 0 => outside += 1,
                Some(_) if ours.number == 9 => outside += 1,
                _ => self.blame(format!("{name}, {}: {ours:?}, the published Rust: {line}", statement.label)),
            }
        }
        self.notes.push(format!(
            "{name}: {tree}; of {} answers {same} are the same in number, place, list and passes, {outside} outside the comparison",
            ours.len()
        ));
    }

    fn blame(&mut self, note: String) {
        self.notes.push(note);
        self.wrong = true;
    }
}

/// What is asked of each database, and what came of it so far.
struct Task {
    oracle: Option<String>,
    /// The folder with texts of commands.
    paths: Option<String>,
    /// Where all trees and answers are written down.
    written: Option<std::fs::File>,
    /// A row for each database with garden paths: what is known of its build.
    builds: Vec<String>,
    findings: Findings,
}

impl Task {
    fn run(&mut self, name: &str, database: &Database) -> Result<(), String> {
        let g = Grammar::new(database);
        let (tally, outcomes) = parse_all(name, &g);
        row(name, &g, &tally);
        if g.has_paths() {
            let build = build_row(name, &g)?;
            self.builds.push(build);
        }
        self.write_down(name, &g, &outcomes).map_err(|e| e.to_string())?;
        if tally.checked != tally.accepted() {
            self.findings.blame(format!("{name}: the check refuses lists that were accepted"));
        }
        if (5..=7).any(|number| tally.numbers.contains_key(&number)) {
            self.findings.blame(format!("{name}: the room that is proved to be enough is not"));
        }
        let (Some(oracle), 0) = (&self.oracle, g.built.number) else {
            return Ok(());
        };
        let told = ask(oracle, database)?;
        self.findings.compare(name, &g, &outcomes, &told);
        Ok(())
    }

    /// The tree up to the numbers of its nodes, and a line for each statement: number, place and passes, then the list.
    fn write_down(&mut self, name: &str, g: &Grammar, outcomes: &[Outcome]) -> std::io::Result<()> {
        let Some(file) = &mut self.written else { return Ok(()) };
        let mut out = std::io::BufWriter::new(file);
        let tree = by_reach(&g.tree()).unwrap_or_default();
        write!(out, "{name}: {}\n{tree}", g.built.number)?;
        for Outcome {
            number,
            place,
            passes,
            list,
        } in outcomes
        {
            writeln!(out, "{number} {place} {passes} {list:?}")?;
        }
        out.flush()
    }

    fn run_file(&mut self, path: &str) -> Result<(), String> {
        for (name, mut database) in Database::read_both(path)? {
            let mut bare = database.clone();
            bare.commands.clear();
            self.run(&name, &bare)?;
            if let Some(text) = self.commands_of(path) {
                database.add_commands(&text).map_err(|why| format!("{name}: {why}"))?;
            }
            if !database.commands.is_empty() {
                self.run(&format!("{name} with its paths"), &database)?;
            }
        }
        Ok(())
    }

    /// The text of commands for a database, if there is one.
    fn commands_of(&self, path: &str) -> Option<String> {
        let name = path.rsplit('/').next()?;
        std::fs::read_to_string(format!("{}/{name}.txt", self.paths.as_ref()?)).ok()
    }
}

/// What the plain Rust says of a build with garden paths, which has to be the library's: how many edges each path took up, the most frames at once.
fn build_row(name: &str, g: &Grammar) -> Result<String, String> {
    let rules = plain::Rules::read(g.database.provable, g.database.logic, &g.rules).ok_or_else(|| format!("{name}: bad rules"))?;
    let room = plain::Room {
        nodes: MOST_NODES,
        edges: MOST_EDGES,
        frames: MOST_CLONES,
    };
    let tree = plain::grow(&rules, &g.database.command_words(), room).map_err(|why| format!("{name}: {why:?}"))?;
    if (tree.nodes.len(), tree.rows.len()) != (g.built.nodes as usize, g.built.edges as usize) {
        return Err(format!("{name}: the plain Rust builds another tree"));
    }
    let taken: Vec<String> = tree.taken.iter().map(|taken| taken.edges.to_string()).collect();
    let deepest = tree.taken.iter().map(|taken| taken.deepest).max().unwrap_or(0);
    let lists: Vec<Vec<(u32, u32)>> = g.edges.chunks_exact(ROW_WIDTH).map(reduces).collect();
    let offset = lists.iter().flatten().map(|reduce| reduce.1).max().unwrap_or(0);
    let most = lists.iter().map(Vec::len).max().unwrap_or(0);
    let with_most = lists.iter().filter(|list| list.len() == most).count();
    Ok(format!(
        "| {name} | {} | {} | {} | {deepest} | {offset} | {most}, on {with_most} edges |",
        g.built.nodes,
        g.built.edges,
        taken.join(", ")
    ))
}

/// The word after `name`, both taken out of the arguments.
fn option(args: &mut Vec<String>, name: &str) -> Option<String> {
    let at = args.iter().position(|a| a == name).filter(|at| at + 1 < args.len())?;
    args.drain(at..at + 2).nth(1)
}

fn main() -> ExitCode {
    let mut args: Vec<String> = std::env::args().skip(1).collect();
    let (oracle, paths) = (option(&mut args, "--oracle"), option(&mut args, "--paths"));
    let written = option(&mut args, "--write").map(std::fs::File::create).transpose();
    let (false, Ok(written)) = (args.is_empty(), written) else {
        eprintln!("databases [--oracle PROGRAM] [--paths FOLDER] [--write FILE] FILE...");
        return ExitCode::from(2);
    };
    let mut task = Task {
        oracle,
        paths,
        written,
        builds: Vec::new(),
        findings: Findings::default(),
    };
    println!("| {} |\n|{}", HEADINGS.join(" | "), "---|".repeat(HEADINGS.len()));
    for path in &args {
        if let Err(why) = task.run_file(path) {
            task.findings.blame(why);
        }
    }
    if !task.builds.is_empty() {
        println!("\n| {} |\n|{}", BUILD_HEADINGS.join(" | "), "---|".repeat(BUILD_HEADINGS.len()));
        task.builds.iter().for_each(|build| println!("{build}"));
    }
    println!();
    task.findings.notes.iter().for_each(|note| println!("{note}"));
    ExitCode::from(u8::from(task.findings.wrong))
}

#[cfg(test)]
mod tests {
    use super::*;

    fn numbers(line: &str) -> Option<(u32, u32, u32, Vec<u32>)> {
        outcome(line).map(|o| (o.number, o.place, o.passes, o.list))
    }

    #[test]
    fn answers_of_the_published_rust_in_the_papers_numbers() {
        assert_eq!(numbers("ok 1 2 7 ; passes 10 same typed"), Some((0, 0, 10, vec![1, 2, 7])));
        assert_eq!(numbers("ok 1 2 ; passes 4 differs typed-as-21"), Some((4, 0, 4, vec![])));
        assert_eq!(numbers("ok 1 4 5 ; passes 4 same illtyped"), Some((4, 0, 4, vec![])));
        assert_eq!(numbers("toofew ; passes 0"), Some((1, 0, 0, vec![])));
        assert_eq!(numbers("unparseable 1 ; passes 2"), Some((2, 1, 2, vec![])));
        assert_eq!(numbers("tooshort 2 ; passes 5"), Some((3, 2, 5, vec![])));
        assert_eq!(numbers("panic a message @ formula.rs:1 ; passes 5"), None);
    }
}
