//! Times build, parse and verify, and reading and writing a package: the proved library, the plain Rust with the same entry points, for the
//! former the plain Rust with rules and tables read once, and, with `--oracle [NAME=]COMMAND`, the published Rust behind its line driver. A
//! benchmark and no test: it prints tables of medians and judges nothing, save that library and plain Rust must give the same answers.
//! `--database FILE` names a Metamath database to take statements from, and `--paths FOLDER` has a text of commands for it (`set.mm.txt` for
//! `set.mm`), with which it is taken once more.

use jiehkavon::{NotASymbol, Package};
use std::hint::black_box;
use std::process::ExitCode;
use tools::bodies::without_variables;
use tools::growing::{self, chained, nested, rows_before, rules_before};
use tools::metamath::Database;
use tools::published::{line, set_lines, Published};
use tools::tables;
use tools::timing::{least, time, REPETITIONS};

/// Of a database's statements one in so many is used.
const STEP: usize = 100;

// ---- what is timed

type Build = fn(u32, u32, &[u32], &[u32], &mut [u32], &mut [u32], &mut [u32]) -> [u32; 3];
#[allow(clippy::type_complexity)]
type Parse = fn(u32, u32, &[u32], &[u32], &[u32], &[u32], u32, &mut [u32], &mut [u32], &mut [u32]) -> [u32; 4];
type Verify = fn(u32, u32, &[u32], &[u32], &[u32], &mut [u32]) -> u32;
/// The number, and how many words of rules and of statements, or how many bytes.
type Read = fn(&[u8], &mut [u32], &mut [u32]) -> (u32, usize, usize);
type Write = fn(u32, u32, &[u32], &[u32], &mut [u8]) -> (u32, usize);

/// The entry points over words.
struct Core {
    name: &'static str,
    body: fn(u32, u32, &[u32], u32) -> u32,
    build: Build,
    parse: Parse,
    verify: Verify,
    read: Read,
    write: Write,
}

/// Both crates have functions of the same names, but each its own types for answers.
macro_rules! core {
    ($name:literal, $of:path) => {{
        use $of as of;
        Core {
            name: $name,
            body: |p, l, r, n| of::body(p, l, r, n).length,
            build: |p, l, r, c, n, e, f| {
                let b = of::build(p, l, r, c, n, e, f);
                [b.number, b.nodes, b.edges]
            },
            parse: |p, l, r, n, e, t, a, f, o, w| {
                let b = of::parse(p, l, r, n, e, t, a, f, o, w);
                [b.number, b.place, b.length, b.passes]
            },
            verify: |p, l, r, t, o, w| of::verify(p, l, r, t, o, w).number,
            read: |b, r, s| {
                let read = of::package_read(b, r, s);
                (read.number, read.rules, read.words)
            },
            write: |p, l, r, s, b| {
                let written = of::package_write(p, l, r, s, b);
                (written.number, written.length)
            },
        }
    }};
}

/// Rules with their tables, and statements to parse.
struct Case {
    provable: u32,
    logic: u32,
    rules: Vec<u32>,
    commands: Vec<u32>,
    nodes: Vec<u32>,
    edges: Vec<u32>,
    statements: Vec<Vec<u32>>,
}

/// Words of frames that a build with commands is lent: 256, as the crate does.
const FRAMES: usize = 256 * 16;

impl Case {
    fn new(provable: u32, logic: u32, rules: Vec<u32>, statements: Vec<Vec<u32>>) -> Self {
        Case::with_commands(provable, logic, rules, vec![], statements)
    }

    fn with_commands(provable: u32, logic: u32, rules: Vec<u32>, commands: Vec<u32>, statements: Vec<Vec<u32>>) -> Self {
        let (built, nodes, edges) = tables::built(provable, logic, &rules, &commands);
        assert_eq!(built.number, 0, "the rules build");
        Case {
            provable,
            logic,
            rules,
            commands,
            nodes,
            edges,
            statements,
        }
    }

    /// Slices that are as long as the tables, and frames if there are commands.
    fn lent(&self) -> [Vec<u32>; 3] {
        let frames = if self.commands.is_empty() { 0 } else { FRAMES };
        [self.nodes.len(), self.edges.len(), frames].map(|length| vec![0; length])
    }

    fn longest(&self) -> usize {
        self.statements.iter().map(Vec::len).max().unwrap_or(0)
    }

    fn rule_count(&self) -> usize {
        without_variables(&self.rules).len()
    }

    /// The lines that give the published Rust these rules, up to its build.
    fn lines(&self) -> String {
        set_lines(self.provable, self.logic, &self.rules, &self.commands)
    }

    fn parse_lines(&self) -> String {
        self.statements.iter().map(|tokens| line("parse", tokens)).collect()
    }
}

/// What each statement came to: the answer, and the list that came with it.
type Outcomes = Vec<([u32; 4], Vec<u32>)>;

/// The statements that were accepted, with their lists.
fn accepted<'a>(case: &'a Case, outcomes: &'a Outcomes) -> Vec<(&'a [u32], &'a [u32])> {
    let both = case.statements.iter().zip(outcomes);
    let zero = both.filter(|(_, (answer, _))| answer[0] == 0);
    zero.map(|(tokens, (_, list))| (&tokens[..], &list[..])).collect()
}

/// Frames, list and work, long enough for each statement.
struct Room([Vec<u32>; 3]);

impl Room {
    fn new(case: &Case) -> Self {
        let n = case.longest();
        Room([vec![0; n], vec![0; 18 * n], vec![0; 18 * n]])
    }

    /// A parse of n tokens after the typecode, with n frames and 18n list entries, and so many passes for each token.
    fn parse<'a>(&'a mut self, core: &Core, case: &Case, tokens: &[u32], passes: u32) -> ([u32; 4], &'a [u32]) {
        let n = tokens.len() - 1;
        let [frames, list, work] = &mut self.0;
        let (f, o, w) = (&mut frames[..n], &mut list[..18 * n], &mut work[..18 * n]);
        let (p, l, allowance) = (case.provable, case.logic, passes * n as u32);
        let a = (core.parse)(p, l, &case.rules, &case.nodes, &case.edges, tokens, allowance, f, o, w);
        (a, &list[..a[2] as usize])
    }
}

/// A package, and what is in it.
struct Packed {
    package: Package,
    bytes: Vec<u8>,
}

impl Packed {
    fn new(package: Package) -> Self {
        let bytes = package.write().expect("the rules are good");
        Packed { package, bytes }
    }
}

/// Nanoseconds of reading and of writing a package, with slices of the lengths that a caller would work out.
impl Core {
    fn read_package(&self, packed: &Packed) -> f64 {
        let room = packed.bytes.len() / 4;
        let (mut rules, mut statements) = (vec![0; room], vec![0; room]);
        let (wanted_rules, wanted) = (packed.package.rules().words(), packed.package.words());
        let read = (self.read)(&packed.bytes, &mut rules, &mut statements);
        assert_eq!(read, (0, wanted_rules.len(), wanted.len()), "it is a package");
        assert!(
            rules.starts_with(wanted_rules) && statements.starts_with(wanted),
            "it is the same one"
        );
        time(|| {
            black_box((self.read)(&packed.bytes, &mut rules, &mut statements));
        })
    }

    fn write_package(&self, packed: &Packed) -> f64 {
        let (rules, statements) = (packed.package.rules(), packed.package.words());
        let (p, l) = (rules.provable().word(), rules.logic().word());
        let mut bytes = vec![0; packed.bytes.len()];
        let written = (self.write)(p, l, rules.words(), statements, &mut bytes);
        assert_eq!((written, &bytes), ((0, bytes.len()), &packed.bytes), "it is the same package");
        time(|| {
            black_box((self.write)(p, l, rules.words(), statements, &mut bytes));
        })
    }
}

/// Nanoseconds of one call, on average over the statements.
impl Core {
    fn outcomes(&self, case: &Case) -> Outcomes {
        let mut room = Room::new(case);
        let outcome = |tokens: &Vec<u32>| {
            let (answer, list) = room.parse(self, case, tokens, 4);
            (answer, list.to_vec())
        };
        case.statements.iter().map(outcome).collect()
    }

    fn build(&self, case: &Case) -> f64 {
        let mut lent = case.lent();
        time(|| self.build_in(case, &mut lent))
    }

    fn build_in(&self, case: &Case, [nodes, edges, frames]: &mut [Vec<u32>; 3]) {
        let built = (self.build)(case.provable, case.logic, &case.rules, &case.commands, nodes, edges, frames);
        assert_eq!(black_box(built)[0], 0, "it was built before");
    }

    /// Two builds in turn.
    fn builds(&self, one: &Case, other: &Case) -> [f64; 2] {
        let (mut lent, mut more) = (one.lent(), other.lent());
        least(|| self.build_in(one, &mut lent), || self.build_in(other, &mut more))
    }

    /// Parses with so many passes allowed for each token.
    fn parse(&self, case: &Case, passes: u32) -> f64 {
        let mut room = Room::new(case);
        let all = time(|| {
            for tokens in &case.statements {
                black_box(room.parse(self, case, tokens, passes));
            }
        });
        all / case.statements.len() as f64
    }

    fn verify(&self, case: &Case, outcomes: &Outcomes) -> f64 {
        let accepted = accepted(case, outcomes);
        let mut work = vec![0; 18 * case.longest()];
        let all = time(|| {
            for (tokens, list) in &accepted {
                black_box((self.verify)(
                    case.provable,
                    case.logic,
                    &case.rules,
                    tokens,
                    list,
                    &mut work[..list.len()],
                ));
            }
        });
        all / accepted.len() as f64
    }

    /// The rule check, which is what the body of rule 1 takes.
    fn rule_check(&self, case: &Case) -> f64 {
        time(|| {
            black_box((self.body)(case.provable, case.logic, &case.rules, 1));
        })
    }

    /// Rule check and table check, which is what a parse of no tokens takes.
    fn checks(&self, case: &Case) -> f64 {
        let (p, l) = (case.provable, case.logic);
        time(|| {
            black_box((self.parse)(
                p,
                l,
                &case.rules,
                &case.nodes,
                &case.edges,
                &[],
                0,
                &mut [],
                &mut [],
                &mut [],
            ));
        })
    }
}

/// Nanoseconds of each kind of call, where it can be had.
struct Column {
    name: String,
    build: Option<f64>,
    parse: f64,
    verify: Option<f64>,
}

/// The plain Rust with rules and tables read once.
fn read_once(case: &Case, outcomes: &Outcomes) -> Column {
    let g = plain::Grammar::read(case.provable, case.logic, &case.rules, &case.nodes, &case.edges).expect("the tables were built");
    let rooms = |n: usize| plain::Rooms {
        allowance: 4 * n as u32,
        frames: n,
        list: 18 * n,
    };
    let parse = time(|| {
        for tokens in &case.statements {
            black_box(g.parse(tokens, rooms(tokens.len() - 1)));
        }
    });
    let accepted = accepted(case, outcomes);
    let verify = time(|| {
        for (tokens, list) in &accepted {
            black_box(plain::check(&g.rules, g.rules.typecodes.wanted(tokens[0]), &tokens[1..], list));
        }
    });
    Column {
        name: "plain, read once".to_owned(),
        build: None,
        parse: parse / case.statements.len() as f64,
        verify: Some(verify / accepted.len() as f64),
    }
}

/// What so many builds more take of the published Rust.
fn published_build(oracle: &Published, case: &Case, copies: usize) -> f64 {
    oracle.more(&case.lines(), &"build\n".repeat(copies)) / copies as f64
}

/// What the statements take of it, so many times over.
fn published_parse(oracle: &Published, case: &Case, copies: usize) -> f64 {
    oracle.more(&case.lines(), &case.parse_lines().repeat(copies)) / (copies * case.statements.len()) as f64
}

// ---- what is printed

/// A heading and rows, in Markdown.
fn table(title: &str, headings: &[String], rows: &[Vec<String>]) {
    println!("\n{title}\n\n| {} |\n|{}", headings.join(" | "), "---|".repeat(headings.len()));
    rows.iter().for_each(|row| println!("| {} |", row.join(" | ")));
}

fn texts<const N: usize>(words: [&str; N]) -> Vec<String> {
    words.map(str::to_owned).to_vec()
}

fn micro(nanoseconds: f64) -> String {
    format!("{:.2}", nanoseconds / 1000.0)
}

fn row(name: &str, nanoseconds: impl Iterator<Item = Option<f64>>) -> Vec<String> {
    let cells = nanoseconds.map(|ns| ns.map_or(String::new(), micro));
    std::iter::once(name.to_owned()).chain(cells).collect()
}

fn average(of: impl ExactSizeIterator<Item = usize>) -> f64 {
    let count = of.len() as f64;
    of.sum::<usize>() as f64 / count
}

struct Bench {
    library: Core,
    plain: Core,
    oracles: Vec<Published>,
}

impl Bench {
    /// The outcomes, on which library and plain Rust must agree in every number and every list.
    fn outcomes(&self, case: &Case) -> Outcomes {
        let outcomes = self.library.outcomes(case);
        assert_eq!(outcomes, self.plain.outcomes(case), "library and plain Rust agree");
        assert!(outcomes.iter().all(|(answer, _)| answer[0] != 5), "4n passes are enough");
        outcomes
    }

    fn columns(&self, case: &Case, outcomes: &Outcomes, [builds, parses]: [usize; 2]) -> Vec<Column> {
        let of_core = |core: &Core| Column {
            name: core.name.to_owned(),
            build: Some(core.build(case)),
            parse: core.parse(case, 4),
            verify: Some(core.verify(case, outcomes)),
        };
        let of_oracle = |oracle: &Published| Column {
            name: oracle.name.clone(),
            build: Some(published_build(oracle, case, builds)),
            parse: published_parse(oracle, case, parses),
            verify: None,
        };
        let mut columns = vec![of_core(&self.library), of_core(&self.plain), read_once(case, outcomes)];
        columns.extend(self.oracles.iter().map(of_oracle));
        columns
    }

    /// Build, parse and verify, and what a pass takes of a parse. The published Rust gets so many copies of the build and the statements.
    fn compare(&self, title: &str, case: &Case, copies: [usize; 2]) -> (Vec<Column>, Outcomes) {
        let outcomes = self.outcomes(case);
        let columns = self.columns(case, &outcomes, copies);
        let passes = average(outcomes.iter().map(|(answer, _)| answer[3] as usize));
        let tokens = average(case.statements.iter().map(Vec::len));
        let rows = [
            row("build", columns.iter().map(|c| c.build)),
            row("parse", columns.iter().map(|c| Some(c.parse))),
            row("parse, by its passes", columns.iter().map(|c| Some(c.parse / passes))),
            row("verify", columns.iter().map(|c| c.verify)),
        ];
        let headings = [texts(["microseconds"]), columns.iter().map(|c| c.name.clone()).collect()].concat();
        let (rules, lines, count) = (case.rule_count(), case.edges.len() / 16, case.statements.len());
        let about = format!("{rules} rules, {lines} rows; statements: {count}, on average {tokens:.1} tokens and {passes:.1} passes");
        table(&format!("**{title}** ({about})"), &headings, &rows);
        (columns, outcomes)
    }

    /// The parts of the library's parse.
    fn parts(&self, case: &Case, whole: &Column) {
        let rule_check = self.library.rule_check(case);
        let (checks, idle) = (self.library.checks(case), self.library.parse(case, 0));
        let part = |name: &str, ns: f64| vec![name.to_owned(), micro(ns), format!("{:.0} %", 100.0 * ns / whole.parse)];
        let rows = [
            part("rule check", rule_check),
            part("table check", checks - rule_check),
            part("clearing the lent slices", idle - checks),
            part("passes, and the check at the end", whole.parse - idle),
        ];
        table(
            "**Where the library's time goes**, same statements",
            &texts(["part of a parse", "microseconds", "share"]),
            &rows,
        );
    }

    /// The build without commands and with them, taken in turn.
    fn paths(&self, name: &str, without: &Case, with: &Case) {
        let row = |core: &Core| {
            let [one, other] = core.builds(without, with);
            vec![core.name.to_owned(), micro(one), micro(other), format!("{:.2}", other / one)]
        };
        table(
            &format!("**The build of {name}**, without its garden paths and with them, in turn"),
            &texts(["least, microseconds", "without", "with", "times"]),
            &[row(&self.library), row(&self.plain)],
        );
    }

    /// Reading and writing packages, and how that grows with their bytes.
    fn packages(&self, title: &str, packages: impl Iterator<Item = Packed>) {
        let sizes = texts(["statements", "bytes"]);
        let times = texts([
            "write, µs",
            "plain",
            "times plain",
            "ns a byte",
            "read, µs",
            "plain",
            "times plain",
            "ns a byte",
        ]);
        let rows: Vec<Vec<String>> = packages.map(|packed| self.package_row(&packed)).collect();
        table(title, &[sizes, times].concat(), &rows);
    }

    fn package_row(&self, packed: &Packed) -> Vec<String> {
        let bytes = packed.bytes.len();
        let cells = |library: f64, plain: f64| {
            let (share, of_byte) = (format!("{:.2}", library / plain), format!("{:.2}", library / bytes as f64));
            vec![micro(library), micro(plain), share, of_byte]
        };
        let sizes = [packed.package.len(), bytes].map(|size| size.to_string());
        let write = cells(self.library.write_package(packed), self.plain.write_package(packed));
        let read = cells(self.library.read_package(packed), self.plain.read_package(packed));
        [sizes.to_vec(), write, read].concat()
    }

    /// How the parts grow along one kind of size; each case has one statement.
    fn growth(&self, title: &str, cases: impl Iterator<Item = Case>) {
        let sizes = texts(["tokens", "rules", "rows", "passes"]);
        let library = texts([
            "checks, µs",
            "clearing, µs",
            "a pass, ns",
            "build, µs",
            "plain, read once: a pass, ns",
        ]);
        let oracles = self.oracles.iter().map(|oracle| format!("{}: a pass, ns", oracle.name)).collect();
        let rows: Vec<Vec<String>> = cases.map(|case| self.growth_row(&case)).collect();
        table(title, &[sizes, library, oracles].concat(), &rows);
    }

    fn growth_row(&self, case: &Case) -> Vec<String> {
        let outcomes = self.outcomes(case);
        let passes = outcomes[0].0[3] as usize;
        let (checks, idle, parse) = (self.library.checks(case), self.library.parse(case, 0), self.library.parse(case, 4));
        let copies = 200_000 / passes + 1;
        let theirs = self.oracles.iter().map(|oracle| published_parse(oracle, case, copies));
        let of_pass = |ns: f64| format!("{:.0}", ns / passes as f64);
        let sizes = [case.longest(), case.rule_count(), case.edges.len() / 16, passes].map(|size| size.to_string());
        let ours = [
            micro(checks),
            micro(idle - checks),
            of_pass(parse - idle),
            micro(self.library.build(case)),
        ];
        let plain = of_pass(read_once(case, &outcomes).parse);
        [sizes.to_vec(), ours.to_vec(), vec![plain], theirs.map(of_pass).collect()].concat()
    }
}

// ---- the cases

/// Set S of the paper, after `before`.
fn set_s(before: Vec<u32>, statement: Vec<u32>) -> Case {
    Case::new(1, 2, growing::set_s(before), vec![statement])
}

fn sheet(bench: &Bench) {
    for (title, statement) in [("Set S, 1 10", vec![1, 10]), ("Set S, the ten-pass sentence", nested(1))] {
        bench.compare(title, &set_s(vec![], statement), [2000, 40000]);
    }
}

/// The package of a database's first statements: of so many parts, so many.
fn packed(d: &Database, count: usize, of: usize) -> Result<Packed, NotASymbol> {
    let mut package = Package::new(d.rules()?);
    let some = &d.statements[..d.statements.len() * count / of];
    some.iter().for_each(|statement| package.push(&statement.tokens));
    Ok(Packed::new(package))
}

/// One statement in so many of a database, after its commands.
fn sampled(d: &Database) -> Case {
    let sample = d.statements.iter().step_by(STEP).map(|s| s.tokens.clone()).collect();
    Case::with_commands(d.provable, d.logic, d.rule_words(), d.command_words(), sample)
}

fn database(bench: &Bench, path: &str, paths: &[String]) -> Result<(), String> {
    let d = Database::read_file(path)?;
    let case = sampled(&d);
    let name = path.rsplit('/').next().unwrap_or(path);
    let (columns, _) = bench.compare(&format!("{name}, one statement in {STEP}"), &case, [40, 20]);
    bench.parts(&case, &columns[0]);
    for folder in paths {
        let Ok(text) = std::fs::read_to_string(format!("{folder}/{name}.txt")) else {
            continue;
        };
        let mut commanded = d.clone();
        commanded.add_commands(&text)?;
        let with = sampled(&commanded);
        let (columns, _) = bench.compare(&format!("{name} with its garden paths, the same statements"), &with, [40, 20]);
        bench.parts(&with, &columns[0]);
        bench.paths(name, &case, &with);
    }
    let packages: Result<Vec<Packed>, NotASymbol> = [1, 2, 4, 8].into_iter().map(|count| packed(&d, count, 8)).collect();
    let packages = packages.map_err(|why| format!("{path}: {why}"))?;
    bench.packages(
        &format!("**{name} as a package**, an eighth of its statements to all"),
        packages.into_iter(),
    );
    Ok(())
}

fn growths(bench: &Bench) {
    let depths = [1, 2, 4, 8, 16, 32, 64, 128, 256, 512, 1023, 2047, 4095, 8191];
    bench.growth(
        "**More tokens, wide**: set S, the ten-pass sentence nested: a tree waits at every level",
        depths.iter().map(|&n| set_s(vec![], nested(n))),
    );
    let chains = [998, 2_046, 4_094, 8_190, 16_382, 32_767];
    bench.growth(
        "**More tokens, deep**: set S, rule 6 within itself: a frame waits at every level",
        chains.iter().map(|&n| set_s(vec![], chained(n))),
    );
    let rules = [0, 4, 8, 16, 32, 64, 128, 255];
    bench.growth(
        "**More rows**: rules of 32 constants before set S",
        rules.iter().map(|&n| set_s(rows_before(n), nested(16))),
    );
    let idle = [0, 16, 32, 64, 128, 256, 512, 1024, 2039];
    bench.growth(
        "**More rules**: idle conversions before set S",
        idle.iter().map(|&n| set_s(rules_before(n), nested(16))),
    );
}

/// The words after each `name` among the arguments.
fn options(args: &[String], name: &str) -> Vec<String> {
    args.windows(2).filter(|pair| pair[0] == name).map(|pair| pair[1].clone()).collect()
}

fn main() -> ExitCode {
    let args: Vec<String> = std::env::args().skip(1).collect();
    let bench = Bench {
        library: core!("library", jiehkavon::words),
        plain: core!("plain", plain::words),
        oracles: options(&args, "--oracle").iter().map(|text| Published::new(text)).collect(),
    };
    println!("Medians of {REPETITIONS} repetitions.");
    sheet(&bench);
    for path in options(&args, "--database") {
        if let Err(why) = database(&bench, &path, &options(&args, "--paths")) {
            eprintln!("bench: {why}");
            return ExitCode::FAILURE;
        }
    }
    growths(&bench);
    ExitCode::SUCCESS
}
