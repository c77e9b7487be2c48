//! Holds another build of the library beside this one: two can't be in one program, so each has its own, and what one writes down the other reads.

use jiehkavon::limits::{FRAME_WIDTH, ROW_WIDTH};
use jiehkavon::{words, Room};
use std::env::{args, current_exe};
use std::hint::black_box;
use std::io::{self, BufWriter, Read, Write};
use std::process::{Command, ExitCode};
use tools::held::Tally;
use tools::metamath::Database;
use tools::oracle::Asked;
use tools::sets::Sets;
use tools::sides::LIBRARY;
use tools::tables;
use tools::timing::least;
use tools::told::{compare, Told};
use tools::vectors;

const USE: &str = "before tell KIND SEED SETS STATEMENTS    writes down what the library says
before hold KIND SEED SETS STATEMENTS    reads what another build's said and compares; 1 if there is a difference that ordered rows don't explain
before tell FILE.., before hold FILE..   the same of the sets in files of vectors
before time DATABASE COMMANDS            nanoseconds of builds and parses, without the commands in that file and with them
before beside PROGRAM DATABASE COMMANDS  the same of PROGRAM, which has another build's library, and of this one in turn
KIND is rules, or gardens for sets with commands";

fn main() -> ExitCode {
    let words: Vec<String> = args().skip(1).collect();
    let words: Vec<&str> = words.iter().map(String::as_str).collect();
    let result = match words[..] {
        ["tell", ref which @ ..] => questions(which).and_then(tell),
        ["hold", ref which @ ..] => questions(which).and_then(hold),
        ["time", database, commands] => time(database, commands),
        ["beside", program, database, commands] => beside(program, database, commands),
        _ => Err(USE.to_string()),
    };
    match result {
        Ok(0) => ExitCode::SUCCESS,
        Ok(_) => ExitCode::from(1),
        Err(why) => {
            eprintln!("before: {why}");
            ExitCode::from(2)
        }
    }
}

/// Sets with their names.
type Questions = Box<dyn Iterator<Item = (String, Asked)>>;

fn questions(which: &[&str]) -> Result<Questions, String> {
    match which {
        ["rules" | "gardens", seed, sets, statements] => {
            let sets = Sets::read(which[0], [seed, sets, statements])?;
            Ok(Box::new((0..sets.count).map(move |number| (sets.name(number), sets.asked(number)))))
        }
        [] => Err(USE.to_string()),
        files => {
            let stored: Result<Vec<_>, String> = files.iter().map(|file| stored(file)).collect();
            Ok(Box::new(stored?.into_iter().flatten()))
        }
    }
}

fn stored(file: &str) -> Result<Vec<(String, Asked)>, String> {
    let text = std::fs::read_to_string(file).map_err(|e| format!("{file}: {e}"))?;
    let sets = vectors::read(&text).map_err(|why| format!("{file}: {why}"))?;
    let named = |(number, (asked, _))| (format!("set {number} of {file}"), asked);
    Ok(sets.into_iter().enumerate().map(named).collect())
}

fn tell(questions: Questions) -> Result<u64, String> {
    let mut out = BufWriter::new(io::stdout().lock());
    for (name, asked) in questions {
        write!(out, "{name}\n{}", Told::of(&LIBRARY, &asked)).map_err(|e| e.to_string())?;
    }
    out.flush().map_err(|e| e.to_string())?;
    Ok(0)
}

fn hold(questions: Questions) -> Result<u64, String> {
    let mut text = String::new();
    io::stdin().lock().read_to_string(&mut text).map_err(|e| e.to_string())?;
    let mut lines = text.lines();
    let mut tally = Tally::default();
    for (name, asked) in questions {
        if lines.next() != Some(&name) {
            return Err(format!("no answers to {name}"));
        }
        let before = Told::read(&mut lines).map_err(|why| format!("{name}: {why}"))?;
        compare(&name, &asked, &before, &Told::of(&LIBRARY, &asked), &mut tally);
    }
    if let Some(line) = lines.next() {
        return Err(format!("an answer too many: {line}"));
    }
    for ((verdict, pair), seen) in &tally.pairs {
        println!("{verdict:?}\t{pair}\t{}", seen.count);
        let least = seen.inputs.as_ref().map(|[_, least]| &least.text);
        least.into_iter().for_each(|text| println!("    {text}"));
    }
    Ok(tally.found())
}

/// A database with its tables, and the slices that are lent.
struct Ready {
    database: Database,
    rules: Vec<u32>,
    commands: Vec<u32>,
    nodes: Vec<u32>,
    edges: Vec<u32>,
    frames: Vec<u32>,
    list: Vec<u32>,
    work: Vec<u32>,
}

/// Of a database's statements one in so many is timed.
const STEP: usize = 100;
/// Frames of a build with commands.
const FRAMES: usize = 256;

impl Ready {
    fn new(database: Database) -> Ready {
        let (rules, commands) = (database.rule_words(), database.command_words());
        let (built, nodes, edges) = tables::built(database.provable, database.logic, &rules, &commands);
        assert_eq!(built.number, 0, "the rules build");
        let longest = database
            .statements
            .iter()
            .map(|statement| statement.tokens.len())
            .max()
            .unwrap_or(0);
        let room = Room::for_tokens(longest);
        let frames = vec![0; room.frames.max(FRAMES * FRAME_WIDTH)];
        Ready {
            database,
            rules,
            commands,
            nodes,
            edges,
            frames,
            list: vec![0; room.list],
            work: vec![0; room.list],
        }
    }

    fn build(&mut self) {
        let frames = &mut self.frames[..FRAMES * FRAME_WIDTH];
        black_box(words::build(
            self.database.provable,
            self.database.logic,
            &self.rules,
            &self.commands,
            &mut self.nodes,
            &mut self.edges,
            frames,
        ));
    }

    fn sampled(&self) -> usize {
        self.database.statements.len().div_ceil(STEP)
    }

    fn parse(&mut self) {
        for statement in self.database.statements.iter().step_by(STEP) {
            let room = Room::for_tokens(statement.tokens.len());
            black_box(words::parse(
                self.database.provable,
                self.database.logic,
                &self.rules,
                &self.nodes,
                &self.edges,
                &statement.tokens,
                room.allowance,
                &mut self.frames[..room.frames],
                &mut self.list[..room.list],
                &mut self.work[..room.list],
            ));
        }
    }
}

/// Rows without and with, then nanoseconds: the build without and with, the parse of a statement without and with.
fn time(path: &str, commands: &str) -> Result<u64, String> {
    let database = Database::read_file(path)?;
    let text = std::fs::read_to_string(commands).map_err(|e| format!("{commands}: {e}"))?;
    let mut commanded = database.clone();
    commanded.add_commands(&text)?;
    let (mut without, mut with) = (Ready::new(database), Ready::new(commanded));
    let builds = least(|| without.build(), || with.build());
    let parses = least(|| without.parse(), || with.parse());
    let count = without.sampled() as f64;
    println!("{} {}", without.edges.len() / ROW_WIDTH, with.edges.len() / ROW_WIDTH);
    println!("{} {} {} {}", builds[0], builds[1], parses[0] / count, parses[1] / count);
    Ok(0)
}

/// So many times each of the two programs is run.
const ROUNDS: usize = 5;

fn beside(program: &str, path: &str, commands: &str) -> Result<u64, String> {
    let this = current_exe().map_err(|e| e.to_string())?.to_string_lossy().into_owned();
    let mut least = [[f64::INFINITY; 4]; 2];
    for _ in 0..ROUNDS {
        for (least, program) in least.iter_mut().zip([program, &this]) {
            for (least, figure) in least.iter_mut().zip(figures(program, path, commands)?) {
                *least = least.min(figure);
            }
        }
    }
    let [before, now] = least;
    println!("| microseconds | the other library | this one | times |\n|---|---|---|---|");
    for (at, what) in ["build", "build with its paths", "parse of a statement", "parse with the paths"]
        .iter()
        .enumerate()
    {
        let (before, now) = (before[at] / 1e3, now[at] / 1e3);
        println!("| {what} | {before:.1} | {now:.1} | {:.2} |", now / before);
    }
    Ok(0)
}

fn figures(program: &str, path: &str, commands: &str) -> Result<[f64; 4], String> {
    let output = Command::new(program)
        .args(["time", path, commands])
        .output()
        .map_err(|e| format!("{program}: {e}"))?;
    let text = String::from_utf8_lossy(&output.stdout).into_owned();
    let line = text.lines().nth(1).unwrap_or("");
    let figures: Vec<f64> = line.split(' ').filter_map(|word| word.parse().ok()).collect();
    figures
        .try_into()
        .map_err(|_| format!("{program}: no figures: {}", String::from_utf8_lossy(&output.stderr)))
}
