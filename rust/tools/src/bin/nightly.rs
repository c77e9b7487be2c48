//! A nightly run: the first 50,000 statements of a database with its garden paths, by the library's batch and by the ordinary Rust program, in
//! turn, one thread. Every answer and every list must be the same in both. Beside them the library's single parse, on one statement in a
//! hundred, and with `--oracle [NAME=]COMMAND` the published Rust behind its line driver. Then how the cost of a pass grows with rows, rules and
//! tokens, for batch and ordinary program.
//!
//! `nightly --database FILE --paths FOLDER` takes the statements from a database, whose commands are in the folder (`set.mm.txt` for `set.mm`).
//! With `--write FOLDER` it only writes their words there, and `nightly --words FOLDER` goes on from those. With `--count library` or `--count
//! ordinary` that side runs once, alone, for a tool that counts instructions. `--rounds N` says how often the two take turns.

use std::hint::black_box;
use std::path::Path;
use std::process::ExitCode;
use tools::growing::{chained, nested, root_rows_before, rows_before, rules_before, set_s};
use tools::metamath::Database;
use tools::night::{library_night, ordinary_night, Night};
use tools::published::{line, set_lines, Published};
use tools::timing::{in_turn, time, Times};

/// How many statements a night has, at most.
const STATEMENTS: usize = 50_000;
/// How often batch and ordinary program take turns, if nobody says another number, and how often for a growth row.
const ROUNDS: usize = 31;
const GROWTH_ROUNDS: usize = 15;
/// Of the statements one in so many is given to the single parse.
const STEP: usize = 100;
/// A growth row has so many passes, at least.
const PASSES: usize = 100_000;

// ---- what is timed

/// The answers of a night, four words each. Both sides have to agree in every word, also of the lists.
fn outcome(night: &Night) -> Vec<u32> {
    let (mut lent, mut buffers) = (night.lent(), night.buffers());
    let batch = library_night(night, night.allowance(), &mut lent);
    ordinary_night(night, night.allowance(), &mut buffers);
    assert_eq!((batch.number, batch.place), (0, 0), "rules, tables and statements are good");
    assert_eq!((batch.statements, batch.words), (night.count(), buffers.words), "counts agree");
    let mut least = night.lent_least();
    assert_eq!(library_night(night, night.allowance(), &mut least), batch, "whatever the index");
    assert_eq!((&least.answers, &least.list), (&lent.answers, &lent.list), "whatever the index");
    assert_eq!(lent.answers, buffers.answers.concat(), "every answer agrees");
    assert_eq!(lent.list, buffers.list, "every list agrees, and behind them both are zero");
    let zero = [&lent.frames, &lent.work, &lent.index, &buffers.frames, &buffers.work];
    assert!(zero.into_iter().flatten().all(|&word| word == 0), "both clear what they used");
    lent.answers
}

/// Nanoseconds of a night: the library's batch, the same with the shortest index, then the ordinary program.
fn nights(night: &Night, rounds: usize) -> [Times; 3] {
    let (mut lent, mut least, mut buffers) = (night.lent(), night.lent_least(), night.buffers());
    let allowance = night.allowance();
    let mut batch = || {
        black_box(library_night(night, allowance, &mut lent));
    };
    let mut short = || {
        black_box(library_night(night, allowance, &mut least));
    };
    let mut ordinary = || ordinary_night(night, allowance, &mut buffers);
    in_turn(rounds, [&mut batch, &mut short, &mut ordinary])
}

/// Every so many statements as a night of their own.
fn sample(night: &Night, step: usize) -> Night {
    let mut some = night.clone();
    some.statements.clear();
    night.each().step_by(step).for_each(|tokens| some.push(tokens));
    some
}

/// Nanoseconds of one call of the single parse on average.
fn single(night: &Night) -> f64 {
    let mut lent = night.lent();
    let mut parse = |tokens: &[u32]| {
        let room = jiehkavon::Room::for_tokens(tokens.len());
        black_box(jiehkavon::words::parse(
            night.provable,
            night.logic,
            &night.rules,
            &night.nodes,
            &night.edges,
            tokens,
            room.allowance,
            &mut lent.frames[..room.frames],
            &mut lent.list[..room.list],
            &mut lent.work[..room.list],
        ));
    };
    time(|| night.each().for_each(&mut parse)) / night.count() as f64
}

/// Nanoseconds of a night of the published Rust.
fn published(oracle: &Published, night: &Night) -> f64 {
    let lines = set_lines(night.provable, night.logic, &night.rules, &night.commands);
    let parses: String = night.each().map(|tokens| line("parse", tokens)).collect();
    oracle.more(&lines, &parses)
}

// ---- what is printed

/// A heading and rows, in Markdown.
fn table(title: &str, headings: &[&str], rows: &[Vec<String>]) {
    println!("\n{title}\n\n| {} |\n|{}", headings.join(" | "), "---|".repeat(headings.len()));
    rows.iter().for_each(|row| println!("| {} |", row.join(" | ")));
}

/// A side's name, its least and its median night, and how they stand to the ordinary program's.
fn row(name: &str, times: Times, ordinary: Times, sizes: &Sizes) -> Vec<String> {
    vec![
        name.to_owned(),
        format!("{:.2}", times.least / 1e6),
        format!("{:.2}", times.median / 1e6),
        format!("{:.0}", times.least / sizes.statements),
        format!("{:.1}", times.least / sizes.passes),
        format!("{:.2}", times.least / ordinary.least),
        format!("{:.2}", times.median / ordinary.median),
    ]
}

/// Sums over the answers of a night.
struct Sizes {
    statements: f64,
    accepted: usize,
    words: f64,
    passes: f64,
}

impl Sizes {
    fn new(answers: &[u32]) -> Self {
        let all = |at: usize| answers.iter().skip(at).step_by(4);
        let sum = |at: usize| all(at).map(|&word| f64::from(word)).sum();
        Sizes {
            statements: all(0).count() as f64,
            accepted: all(0).filter(|&&number| number == 0).count(),
            words: sum(2),
            passes: sum(3),
        }
    }

    /// What a table is about.
    fn about(&self, night: &Night) -> String {
        let (rules, rows) = (night.rule_count(), night.row_count());
        let tokens = night.each().map(<[u32]>::len).sum::<usize>() as f64;
        let [tokens, passes, words] = [tokens, self.passes, self.words].map(|all| all / self.statements);
        let average = format!("on average {tokens:.2} tokens, {passes:.2} passes, {words:.2} list words");
        format!(
            "{rules} rules, {rows} rows; {} statements, {} accepted; {average}",
            self.statements, self.accepted
        )
    }
}

fn compare(night: &Night, rounds: usize, oracles: &[Published]) {
    let sizes = Sizes::new(&outcome(night));
    let [library, short, ordinary] = nights(night, rounds);
    let once = |ns: f64| Times { least: ns, median: ns };
    let alone = once(single(&sample(night, STEP)) * sizes.statements);
    let mut rows = vec![
        row("library, batch", library, ordinary, &sizes),
        row("the same, index of the least size", short, ordinary, &sizes),
        row("ordinary", ordinary, ordinary, &sizes),
        row("library, one by one", alone, ordinary, &sizes),
    ];
    rows.extend(oracles.iter().map(|o| row(&o.name, once(published(o, night)), ordinary, &sizes)));
    let headings = [
        "",
        "ms, least",
        "ms, median",
        "a statement, ns",
        "a pass, ns",
        "times ordinary, least",
        "times ordinary, median",
    ];
    let title = format!("**A night** ({}), {rounds} rounds in turn", sizes.about(night));
    table(&title, &headings, &rows);
}

// ---- growth

/// The statement as often as makes many passes.
fn grown(rules: Vec<u32>, statement: &[u32]) -> (Night, f64) {
    let mut night = Night::try_new(1, 2, rules, vec![]).expect("it builds");
    night.push(statement);
    let passes = outcome(&night)[3] as usize;
    let copies = PASSES / passes + 1;
    (1..copies).for_each(|_| night.push(statement));
    (night, (copies * passes) as f64)
}

/// What a pass costs the two sides: a night, less one without statements, by its passes.
fn growth_row((night, passes): (Night, f64)) -> Vec<String> {
    outcome(&night);
    let tables = night.tables();
    let (mut lent, mut buffers, allowance) = (night.lent(), night.buffers(), night.allowance());
    let none = Night {
        statements: vec![],
        ..night.clone()
    };
    let mut idle = none.lent();
    let mut batch = || {
        black_box(library_night(&night, allowance, &mut lent));
    };
    let mut idle = || {
        black_box(library_night(&none, allowance, &mut idle));
    };
    let mut ordinary = || buffers.parse_many(&tables, &night.statements, allowance);
    let [batch, idle, ordinary] = in_turn(GROWTH_ROUNDS, [&mut batch, &mut idle, &mut ordinary]);
    let tokens = night.each().next().map_or(0, <[u32]>::len);
    let sizes = [tokens, night.rule_count(), night.row_count()].map(|size| size.to_string());
    let costs = [(batch.least - idle.least) / passes, ordinary.least / passes].map(|ns| format!("{ns:.1}"));
    [&sizes[..], &costs[..]].concat()
}

fn growth(title: &str, cases: impl Iterator<Item = (Vec<u32>, Vec<u32>)>) {
    let headings = ["tokens", "rules", "rows", "batch: a pass, ns", "ordinary: a pass, ns"];
    let rows: Vec<Vec<String>> = cases.map(|(rules, statement)| growth_row(grown(rules, &statement))).collect();
    table(title, &headings, &rows);
}

fn growths() {
    let depths = [1, 4, 16, 64, 256, 1023, 4095, 8191];
    growth(
        "**More tokens, wide**: set S, the ten-pass sentence nested",
        depths.into_iter().map(|n| (set_s(vec![]), nested(n))),
    );
    let chains = [14, 254, 2_046, 8_190, 32_767];
    growth(
        "**More tokens, deep**: set S, rule 6 within itself",
        chains.into_iter().map(|n| (set_s(vec![]), chained(n))),
    );
    let rows = [0, 4, 16, 64, 128, 255];
    growth(
        "**More rows**: rules of 32 constants before set S",
        rows.into_iter().map(|n| (set_s(rows_before(n)), nested(16))),
    );
    let wide = [0, 16, 64, 256, 1024, 2039];
    growth(
        "**More rows at node 0**: rules of one constant before set S",
        wide.into_iter().map(|n| (set_s(root_rows_before(n)), nested(16))),
    );
    growth(
        "**More rules**: idle conversions before set S",
        wide.into_iter().map(|n| (set_s(rules_before(n)), nested(16))),
    );
}

// ---- arguments

/// The words after each `name` among the arguments.
fn options<'a>(args: &'a [String], name: &'a str) -> impl Iterator<Item = &'a str> {
    args.windows(2).filter(move |pair| pair[0] == name).map(|pair| &pair[1][..])
}

fn option<'a>(args: &'a [String], name: &'a str) -> Option<&'a str> {
    options(args, name).next()
}

fn of_database(path: &str, paths: Option<&str>) -> Result<Night, String> {
    let mut d = Database::read_file(path)?;
    let name = path.rsplit('/').next().unwrap_or(path);
    if let Some(folder) = paths {
        let file = format!("{folder}/{name}.txt");
        let text = std::fs::read_to_string(&file).map_err(|why| format!("{file}: {why}"))?;
        d.add_commands(&text)?;
    }
    Night::of_database(&d, STATEMENTS).ok_or_else(|| format!("{name} doesn't build"))
}

/// One side once.
fn count(night: &Night, side: &str) -> Result<(), String> {
    let allowance = night.allowance();
    match side {
        "library" => drop(library_night(night, allowance, &mut night.lent())),
        "ordinary" => ordinary_night(night, allowance, &mut night.buffers()),
        _ => return Err(format!("no side: {side}")),
    }
    Ok(())
}

fn run(args: &[String]) -> Result<(), String> {
    let night = match (option(args, "--words"), option(args, "--database")) {
        (Some(folder), _) => Night::read(Path::new(folder)).map_err(|why| format!("{folder}: {why}"))?,
        (None, Some(path)) => of_database(path, option(args, "--paths"))?,
        (None, None) => return Err("--database FILE --paths FOLDER, or --words FOLDER".to_owned()),
    };
    if let Some(folder) = option(args, "--write") {
        return night.write(Path::new(folder)).map_err(|why| format!("{folder}: {why}"));
    }
    if let Some(side) = option(args, "--count") {
        return count(&night, side);
    }
    let oracles: Vec<Published> = options(args, "--oracle").map(Published::new).collect();
    let rounds = option(args, "--rounds").map_or(Ok(ROUNDS), str::parse);
    compare(&night, rounds.map_err(|why| why.to_string())?, &oracles);
    growths();
    Ok(())
}

fn main() -> ExitCode {
    let args: Vec<String> = std::env::args().skip(1).collect();
    match run(&args) {
        Ok(()) => ExitCode::SUCCESS,
        Err(why) => {
            eprintln!("nightly: {why}");
            ExitCode::FAILURE
        }
    }
}
