//! Sends each Metamath database that is named through a package: it is written and read again, and then the rules and statements that came
//! out have to be those that went in, with the same tree and the same answer for every statement. Prints a table, then what was wrong.

use jiehkavon::{BuildError, Grammar, Package, ParseError, Parser, WriteError};
use std::process::ExitCode;
use std::time::{Duration, Instant};
use tools::metamath::Database;

const HEADINGS: [&str; 10] = [
    "database",
    "rules",
    "statements",
    "package",
    "bytes",
    "build",
    "accepted",
    "refused",
    "as without a package",
    "milliseconds: write + read",
];

/// What became of a statement: its list and passes, or its refusal.
type Outcome = Result<(Vec<u32>, u32), ParseError>;

fn outcomes<'s>(name: &str, grammar: &Grammar, statements: impl Iterator<Item = &'s [u32]>) -> Vec<Outcome> {
    let (mut parser, mut last) = (Parser::new(), Instant::now());
    let mut outcomes = Vec::new();
    for tokens in statements {
        let parsed = parser.parse_words(grammar, tokens);
        outcomes.push(parsed.map(|parsed| (parsed.formula.words().to_vec(), parsed.passes)));
        if last.elapsed() >= Duration::from_secs(1) {
            eprintln!("{name}: {} statements", outcomes.len());
            last = Instant::now();
        }
    }
    outcomes
}

/// A database and what came of its package.
struct Trip<'d> {
    name: &'d str,
    database: &'d Database,
    direct: Result<Grammar, BuildError>,
    write: Duration,
    read: Duration,
}

/// What a table has in a row after the name and the counts.
struct Row {
    package: u32,
    bytes: usize,
    build: u32,
    accepted: usize,
    refused: usize,
    same: usize,
}

impl Trip<'_> {
    fn new<'d>(name: &'d str, database: &'d Database) -> Result<Trip<'d>, String> {
        let rules = database.rules().map_err(|why| format!("{name}: {why}"))?;
        Ok(Trip {
            name,
            database,
            direct: Grammar::build(rules).map_err(BuildError::from),
            write: Duration::ZERO,
            read: Duration::ZERO,
        })
    }

    /// The database as a package, written and read again, or the writer's refusal.
    fn through(&mut self) -> Result<Result<(usize, Package), WriteError>, String> {
        let package = self.database.package().map_err(|why| format!("{}: {why}", self.name))?;
        let start = Instant::now();
        let bytes = match package.write() {
            Ok(bytes) => bytes,
            Err(refusal) => return Ok(Err(refusal)),
        };
        self.write = start.elapsed();
        let start = Instant::now();
        let again = Package::read(&bytes).map_err(|why| format!("{}: {why}", self.name))?;
        self.read = start.elapsed();
        match again == package && again.write().as_ref() == Ok(&bytes) {
            true => Ok(Ok((bytes.len(), again))),
            false => Err(format!("{}: another package came out", self.name)),
        }
    }

    /// The answers with and without a package, side by side.
    fn compare(&mut self) -> Result<Row, String> {
        let build = self.direct.as_ref().map_or_else(BuildError::number, |_| 0);
        let (bytes, package) = match self.through()? {
            Ok(through) => through,
            // nothing was built either
            Err(refusal) if refusal.number() == build => return Ok(refused(build)),
            Err(refusal) => return Err(format!("{}: {refusal}", self.name)),
        };
        let grammar = Grammar::build(package.rules().clone()).map_err(BuildError::from);
        if grammar != self.direct {
            return Err(format!("{}: another tree, or another refusal of the build", self.name));
        }
        let (Ok(direct), Ok(grammar)) = (&self.direct, grammar) else {
            return Ok(Row { bytes, ..refused(build) });
        };
        let here = outcomes(self.name, direct, self.database.statements.iter().map(|s| &s.tokens[..]));
        let there = outcomes(self.name, &grammar, package.statements());
        let accepted = there.iter().filter(|outcome| outcome.is_ok()).count();
        Ok(Row {
            package: 0,
            bytes,
            build,
            accepted,
            refused: there.len() - accepted,
            same: here.iter().zip(&there).filter(|(here, there)| here == there).count(),
        })
    }

    fn run(mut self) -> Result<(), String> {
        let row = self.compare()?;
        let statements = self.database.statements.len();
        println!(
            "| {} | {} | {statements} | {} | {} | {} | {} | {} | {} | {:.1} + {:.1} |",
            self.name,
            self.database.rules.len(),
            row.package,
            row.bytes,
            row.build,
            row.accepted,
            row.refused,
            row.same,
            1e3 * self.write.as_secs_f64(),
            1e3 * self.read.as_secs_f64()
        );
        match row.build == 0 && row.same != statements {
            true => Err(format!("{}: only {} of {statements} answers are the same", self.name, row.same)),
            false => Ok(()),
        }
    }
}

/// Rules that neither a build nor a package takes: no statement has an answer.
fn refused(number: u32) -> Row {
    Row {
        package: number,
        bytes: 0,
        build: number,
        accepted: 0,
        refused: 0,
        same: 0,
    }
}

fn run_file(path: &str) -> Result<(), String> {
    let both = Database::read_both(path)?;
    both.iter().try_for_each(|(name, database)| Trip::new(name, database)?.run())
}

fn main() -> ExitCode {
    let files: Vec<String> = std::env::args().skip(1).collect();
    if files.is_empty() {
        eprintln!("packages FILE...");
        return ExitCode::from(2);
    }
    println!("| {} |\n|{}", HEADINGS.join(" | "), "---|".repeat(HEADINGS.len()));
    let wrong: Vec<String> = files.iter().filter_map(|path| run_file(path).err()).collect();
    wrong.iter().for_each(|why| println!("\n{why}"));
    ExitCode::from(u8::from(!wrong.is_empty()))
}
