//! Reads a package, builds its rules and parses each of its statements; or makes a package of a Metamath database. `HELP` says how.

use jiehkavon::{Grammar, Package, ParseError, Parsed, Parser};
use std::collections::BTreeMap;
use std::io::{self, BufWriter, Read as _, Write};
use std::process::ExitCode;
use std::time::{Duration, Instant};
use tools::metamath::Database;

const HELP: &str = "\
package [--quiet] FILE                  answers every statement of a package; FILE may be - for standard input
package --from-database DATABASE FILE   makes a package of a Metamath database (a .mm file)
package --help                          prints this

The answers go to standard output: the typecodes, the counts, what the build of the rules came to, then for each
statement, counted from 1, its list of rules and the passes, or its refusal with number, place and a sentence. The
last line counts them. For long files standard error says how far it is. With --quiet neither this nor the single
statements are printed.

The exit status is 0 if every statement was accepted, or the package was made; 1 if the package, its rules or a
statement was refused; 2 if the arguments are wrong, or a file can't be read or written.
";

/// What is wanted.
#[derive(Debug, PartialEq, Eq)]
enum Task {
    Help,
    Answer { file: String, quiet: bool },
    Make { database: String, file: String },
}

impl Task {
    /// Options may stand before or after what they go with; `--` ends them.
    fn of(arguments: impl IntoIterator<Item = String>) -> Result<Task, String> {
        let (mut quiet, mut make, mut options) = (false, false, true);
        let mut files = Vec::new();
        for argument in arguments {
            match argument.as_str() {
                "--" if options => options = false,
                "--help" | "-h" if options => return Ok(Task::Help),
                "--quiet" | "-q" if options => quiet = true,
                "--from-database" if options => make = true,
                other if options && other.starts_with('-') && other != "-" => return Err(format!("no such option: {other}")),
                _ => files.push(argument),
            }
        }
        let mut files = files.into_iter();
        match (make, files.next(), files.next(), files.next()) {
            (false, Some(file), None, None) => Ok(Task::Answer { file, quiet }),
            (true, Some(database), Some(file), None) => Ok(Task::Make { database, file }),
            (false, ..) => Err("one file is wanted".to_owned()),
            (true, ..) => Err("a database and a file to write are wanted".to_owned()),
        }
    }
}

/// Why there is nothing more to say.
enum Trouble {
    /// The package, its rules or what should be one was refused.
    Refused(String),
    /// A file can't be read or written.
    File(String),
}

impl Trouble {
    fn of_file(name: &str) -> impl Fn(io::Error) -> Trouble + '_ {
        move |error| Trouble::File(format!("{name}: {error}"))
    }
}

fn bytes_of(file: &str) -> io::Result<Vec<u8>> {
    match file {
        "-" => {
            let mut bytes = Vec::new();
            io::stdin().lock().read_to_end(&mut bytes)?;
            Ok(bytes)
        }
        _ => std::fs::read(file),
    }
}

/// Says on standard error how far the statements are, at most once a second.
struct Progress {
    quiet: bool,
    last: Instant,
}

impl Progress {
    fn new(quiet: bool) -> Progress {
        Progress {
            quiet,
            last: Instant::now(),
        }
    }

    fn at(&mut self, done: usize, all: usize) {
        if !self.quiet && self.last.elapsed() >= Duration::from_secs(1) {
            eprintln!("{done} of {all} statements");
            self.last = Instant::now();
        }
    }
}

fn write_answer(out: &mut impl Write, number: usize, answer: &Result<Parsed<'_>, ParseError>) -> io::Result<()> {
    match answer {
        Ok(parsed) => writeln!(
            out,
            "statement {number}: accepted, list {} after {} passes",
            parsed.formula, parsed.passes
        ),
        Err(refusal) => writeln!(out, "statement {number}: {refusal}, after {} passes", refusal.passes()),
    }
}

/// How often each number came: `1: 2, 3: 1`.
fn by_number(numbers: &BTreeMap<u32, usize>) -> String {
    let said: Vec<String> = numbers.iter().map(|(number, count)| format!("{number}: {count}")).collect();
    said.join(", ")
}

/// Every answer of a package whose rules were built, and whether every statement was accepted.
fn answer_all(package: &Package, grammar: &Grammar, quiet: bool, out: &mut impl Write) -> io::Result<bool> {
    let (mut parser, mut progress) = (Parser::new(), Progress::new(quiet));
    let mut refused: BTreeMap<u32, usize> = BTreeMap::new();
    let mut answers = parser.parse_many(grammar, package.statements());
    let mut number = 0;
    while let Some(answer) = answers.next_parsed() {
        number += 1;
        if !quiet {
            write_answer(out, number, &answer)?;
        }
        if let Err(refusal) = answer {
            *refused.entry(refusal.number()).or_default() += 1;
        }
        progress.at(number, package.len());
    }
    let count: usize = refused.values().sum();
    write!(out, "{} accepted, {count} refused", package.len() - count)?;
    match count {
        0 => writeln!(out)?,
        _ => writeln!(out, " ({})", by_number(&refused))?,
    }
    Ok(count == 0)
}

/// All that there is to say of a package, and whether every statement was accepted.
fn answer(package: &Package, quiet: bool, out: &mut impl Write) -> io::Result<bool> {
    let rules = package.rules();
    writeln!(out, "provable {}, logic {}", rules.provable(), rules.logic())?;
    writeln!(out, "{} rules, {} statements", rules.len(), package.len())?;
    match Grammar::build(rules.clone()) {
        Ok(grammar) => {
            let tables = grammar.tables();
            writeln!(out, "built: {} nodes, {} edges", tables.node_words().len(), tables.edges().count())?;
            answer_all(package, &grammar, quiet, out)
        }
        Err(refused) => {
            writeln!(out, "{refused}; so no statement is parsed")?;
            Ok(false)
        }
    }
}

fn say(text: &str) -> Result<bool, Trouble> {
    let said = io::stdout().write_all(text.as_bytes());
    said.map(|()| true).map_err(Trouble::of_file("standard output"))
}

fn answer_file(file: &str, quiet: bool) -> Result<bool, Trouble> {
    let name = if file == "-" { "standard input" } else { file };
    let bytes = bytes_of(file).map_err(Trouble::of_file(name))?;
    let package = Package::read(&bytes).map_err(|refusal| Trouble::Refused(format!("{name}: {refusal}")))?;
    let mut out = BufWriter::new(io::stdout().lock());
    let accepted = answer(&package, quiet, &mut out).and_then(|accepted| out.flush().map(|()| accepted));
    accepted.map_err(Trouble::of_file("standard output"))
}

fn make(database: &str, file: &str) -> Result<bool, Trouble> {
    let read = Database::read_file(database).map_err(Trouble::File)?;
    let refused = |why: &dyn std::error::Error| Trouble::Refused(format!("{database}: {why}"));
    let package = read.package().map_err(|why| refused(&why))?;
    let bytes = package.write().map_err(|why| refused(&why))?;
    std::fs::write(file, &bytes).map_err(Trouble::of_file(file))?;
    let (rules, statements) = (package.rules().len(), package.len());
    say(&format!("{file}: {rules} rules, {statements} statements, {} bytes\n", bytes.len()))
}

fn main() -> ExitCode {
    let done = match Task::of(std::env::args().skip(1)) {
        Ok(Task::Help) => say(HELP),
        Ok(Task::Answer { file, quiet }) => answer_file(&file, quiet),
        Ok(Task::Make { database, file }) => make(&database, &file),
        Err(why) => Err(Trouble::File(format!("{why}; package --help says more"))),
    };
    match done {
        Ok(accepted) => ExitCode::from(u8::from(!accepted)),
        Err(Trouble::Refused(why)) => {
            eprintln!("package: {why}");
            ExitCode::from(1)
        }
        Err(Trouble::File(why)) => {
            eprintln!("package: {why}");
            ExitCode::from(2)
        }
    }
}

#[cfg(test)]
mod tests {
    use super::*;
    use jiehkavon::{Label, Rules, Symbol};

    fn task(arguments: &[&str]) -> Result<Task, String> {
        Task::of(arguments.iter().map(|argument| argument.to_string()))
    }

    fn reading(file: &str, quiet: bool) -> Result<Task, String> {
        Ok(Task::Answer {
            file: file.to_owned(),
            quiet,
        })
    }

    #[test]
    fn arguments() {
        assert_eq!(task(&["x"]), reading("x", false));
        assert_eq!(task(&["--quiet", "x"]), reading("x", true));
        assert_eq!(task(&["-", "--quiet"]), reading("-", true));
        assert_eq!(task(&["--", "--quiet"]), reading("--quiet", false));
        assert_eq!(task(&["x", "--help"]), Ok(Task::Help));
        let made = Task::Make {
            database: "a.mm".to_owned(),
            file: "b".to_owned(),
        };
        assert_eq!(task(&["--from-database", "a.mm", "b"]), Ok(made));
        let wrong: [&[&str]; 6] = [
            &[],
            &["x", "y"],
            &["--from-database", "x"],
            &["--from-database"],
            &["--from-database", "x", "y", "z"],
            &["--loud", "x"],
        ];
        for arguments in wrong {
            assert!(task(arguments).is_err(), "{arguments:?}");
        }
    }

    fn symbol(word: u32) -> Symbol {
        Symbol::new(word).expect("a symbol")
    }

    /// c10, and c14 before a formula; `twice` has a body collide.
    fn package(twice: bool) -> Package {
        let mut rules = Rules::new(symbol(1), symbol(2));
        rules.push_numbered(symbol(2), &[Label::Constant(symbol(10))]);
        rules.push_numbered(symbol(2), &[Label::Constant(symbol(14)), Label::Slot(symbol(2))]);
        if twice {
            rules.push_numbered(symbol(2), &[Label::Constant(symbol(10))]);
        }
        Package::new(rules)
    }

    fn said(package: &Package, quiet: bool) -> (bool, String) {
        let mut out = Vec::new();
        let accepted = answer(package, quiet, &mut out).expect("a vector takes everything");
        (accepted, String::from_utf8(out).expect("it is text"))
    }

    #[test]
    fn every_answer_is_printed() {
        let mut package = package(false);
        package.push(&[1, 14, 10]);
        let head = "provable 1, logic 2\n2 rules, 1 statements\nbuilt: 4 nodes, 3 edges\n";
        let text = "statement 1: accepted, list 1 2 after 5 passes\n1 accepted, 0 refused\n";
        assert_eq!(said(&package, false), (true, head.to_owned() + text));
        package.push(&[1, 10, 10]);
        package.push(&[]);
        let (accepted, text) = said(&package, false);
        let lines: Vec<&str> = text.lines().skip(4).collect();
        let expected = [
            "statement 2: parse refused with 2: no rule goes on, at token 1, after 2 passes",
            "statement 3: parse refused with 1: the statement has fewer than two tokens, after 0 passes",
            "1 accepted, 2 refused (1: 1, 2: 1)",
        ];
        assert_eq!((accepted, lines), (false, expected.to_vec()));
        let quiet = "provable 1, logic 2\n2 rules, 3 statements\nbuilt: 4 nodes, 3 edges\n1 accepted, 2 refused (1: 1, 2: 1)\n";
        assert_eq!(said(&package, true), (false, quiet.to_owned()));
    }

    #[test]
    fn rules_without_a_tree() {
        let mut package = package(true);
        package.push(&[1, 10]);
        let (accepted, text) = said(&package, false);
        let last = "build refused with 11: two rules have bodies of which one begins the other; so no statement is parsed";
        assert_eq!((accepted, text.lines().last()), (false, Some(last)));
    }
}
