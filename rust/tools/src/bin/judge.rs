//! Compares the library, or the papers in ordinary Rust, with the published Rust. See docs/COMPARISON.md.

use std::collections::BTreeMap;
use std::io::{self, BufWriter, Read, Write};
use std::process::{Command, ExitCode, Stdio};
use tools::grown::Set;
use tools::held::{hold, Again, Tally, Verdict};
use tools::oracle::{Answers, Asked};
use tools::sets::{number, Sets};
use tools::{sides, vectors};

const USE: &str = "judge make KIND SEED SETS STATEMENTS        writes the questions
judge hold KIND SEED SETS STATEMENTS SIDE ORACLE [ORDERED]
                                            reads the Rust's answers to them and compares; 1 if anything is found
judge sum                                   reads what several `hold` wrote and adds it up; 1 if anything was found
judge pick KIND SEED SETS STATEMENTS ORACLE MOST [ORDERED]
                                            reads the answers as `hold` does and writes the questions of some sets, each pair of answers among them;
                                            with ORDERED, of such where the order of the maps shows
judge bind FILE                             reads the Rust's answers to a file of questions and writes both as a file of vectors
KIND is rules, or gardens for sets with commands; SIDE is library or plain; ORACLE is the Rust's line driver, ORDERED the one with maps in key order";

fn main() -> ExitCode {
    let words: Vec<String> = std::env::args().skip(1).collect();
    let words: Vec<&str> = words.iter().map(String::as_str).collect();
    let result = match words[..] {
        ["make", kind, seed, sets, statements] => Sets::read(kind, [seed, sets, statements]).and_then(make),
        ["hold", kind, seed, sets, statements, side, oracle] => {
            Sets::read(kind, [seed, sets, statements]).and_then(|sets| hold_all(sets, side, oracle, None))
        }
        ["hold", kind, seed, sets, statements, side, oracle, ordered] => {
            Sets::read(kind, [seed, sets, statements]).and_then(|sets| hold_all(sets, side, oracle, Some(ordered)))
        }
        ["sum"] => sum(),
        ["pick", kind, seed, sets, statements, oracle, most] => {
            Sets::read(kind, [seed, sets, statements]).and_then(|sets| pick(sets, oracle, number(most)?, None))
        }
        ["pick", kind, seed, sets, statements, oracle, most, ordered] => {
            Sets::read(kind, [seed, sets, statements]).and_then(|sets| pick(sets, oracle, number(most)?, Some(ordered)))
        }
        ["bind", file] => bind(file),
        _ => Err(USE.to_string()),
    };
    match result {
        Ok(0) => ExitCode::SUCCESS,
        Ok(found) => {
            eprintln!("judge: {found} unexplained");
            ExitCode::from(1)
        }
        Err(why) => {
            eprintln!("judge: {why}");
            ExitCode::from(2)
        }
    }
}

fn make(sets: Sets) -> Result<u64, String> {
    let mut out = BufWriter::new(io::stdout().lock());
    for number in 0..sets.count {
        let questions = sets.asked(number);
        write!(out, "say {}\n{questions}", sets.name(number)).map_err(|e| e.to_string())?;
    }
    out.flush().map_err(|e| e.to_string())?;
    Ok(0)
}

fn read_all() -> Result<String, String> {
    let mut text = String::new();
    io::stdin().lock().read_to_string(&mut text).map_err(|e| e.to_string())?;
    Ok(text)
}

/// Goes through all sets with the Rust's answers to them.
fn with_answers(sets: Sets, mut each: impl FnMut(&str, &Asked, &Answers)) -> Result<(), String> {
    let text = read_all()?;
    let mut lines = text.lines();
    for number in 0..sets.count {
        let name = sets.name(number);
        if lines.next() != Some(&name) {
            return Err(format!("no answers to {name}"));
        }
        let asked = sets.asked(number);
        let answers = Answers::read(&asked, &mut lines).map_err(|why| format!("{name}: {why}"))?;
        each(&name, &asked, &answers);
    }
    match lines.next() {
        Some(line) => Err(format!("an answer too many: {line}")),
        None => Ok(()),
    }
}

/// In how many orders the symbols of a set are told that parts from the Rust.
const ORDERS: u64 = 12;

/// The builds of a set in these orders.
fn shuffled(asked: &Asked) -> Vec<Asked> {
    let shuffled = |shuffle| Asked {
        set: Set {
            shuffle,
            ..asked.set.clone()
        },
        statements: Vec::new(),
    };
    (0..ORDERS).map(shuffled).collect()
}

/// A driver's answers.
fn ask(oracle: &str, questions: &[Asked]) -> Result<Vec<Answers>, String> {
    let text: String = questions.iter().map(Asked::to_string).collect();
    let mut driver = Command::new(oracle)
        .stdin(Stdio::piped())
        .stdout(Stdio::piped())
        .spawn()
        .map_err(|e| format!("{oracle}: {e}"))?;
    let mut input = driver.stdin.take().ok_or("no way to the driver")?;
    input.write_all(text.as_bytes()).map_err(|e| e.to_string())?;
    drop(input);
    let output = driver.wait_with_output().map_err(|e| e.to_string())?;
    let answers = String::from_utf8(output.stdout).map_err(|e| e.to_string())?;
    let mut lines = answers.lines();
    questions.iter().map(|asked| Answers::read(asked, &mut lines)).collect()
}

/// What can't be asked again stays found.
fn asked_again(oracle: &str, questions: &[Asked]) -> Vec<Answers> {
    ask(oracle, questions).unwrap_or_else(|why| {
        eprintln!("judge: {why}");
        Vec::new()
    })
}

fn hold_all(sets: Sets, side: &str, oracle: &str, ordered: Option<&str>) -> Result<u64, String> {
    let side = sides::named(side).ok_or_else(|| format!("no side: {side}"))?;
    let mut tally = Tally::default();
    let again = Again {
        shuffled: &|asked| asked_again(oracle, &shuffled(asked)),
        in_key_order: &|asked| asked_again(ordered?, std::slice::from_ref(asked)).pop(),
    };
    with_answers(sets, |name, asked, answers| hold(side, name, asked, answers, &again, &mut tally))?;
    Ok(tell(&tally))
}

/// Keeps a set if it has a pair of answers that fewer than `most` kept sets have, and more of those that build in both. A set that does not is
/// kept without its statements, which have nothing to be held against. Giant sets would fill the file alone, and where the order of the Rust's
/// maps shows in more than numbers its answers are not worth keeping; with the Rust whose maps are in key order, only such sets are.
fn pick(sets: Sets, oracle: &str, most: u64, ordered: Option<&str>) -> Result<u64, String> {
    let mut kept: BTreeMap<(Verdict, String), u64> = BTreeMap::new();
    let again = Again {
        shuffled: &|asked| asked_again(oracle, &shuffled(asked)),
        in_key_order: &|asked| asked_again(ordered?, std::slice::from_ref(asked)).pop(),
    };
    with_answers(sets, |name, asked, answers| {
        let mut tally = Tally::default();
        hold(&sides::PLAIN, name, asked, answers, &again, &mut tally);
        let says = |what: &str| tally.pairs.keys().any(|(_, pair)| pair.contains(what));
        let wanted = says("in key order") == ordered.is_some() && !says("order of the maps");
        if !wanted || asked.set.rules.len() > 60 || answers.tree.nodes.len() > 200 {
            return;
        }
        let built = tally.compared.contains_key("statements");
        let enough = |pair: &(Verdict, String)| if built && pair.1.starts_with("build") { 10 * most } else { most };
        let pairs: Vec<_> = tally.pairs.into_keys().collect();
        if pairs.iter().any(|pair| kept.get(pair).copied().unwrap_or(0) < enough(pair)) {
            let statements = if built { asked.statements.clone() } else { Vec::new() };
            print!(
                "## {name}\n{}",
                Asked {
                    statements,
                    ..asked.clone()
                }
            );
            pairs.into_iter().for_each(|pair| *kept.entry(pair).or_default() += 1);
        }
    })?;
    Ok(0)
}

fn bind(file: &str) -> Result<u64, String> {
    let questions = std::fs::read_to_string(file).map_err(|e| format!("{file}: {e}"))?;
    let answers = read_all()?;
    print!("{}", vectors::bind(&questions, answers.lines())?);
    Ok(0)
}

/// A line for each count, its words set apart by tabs.
fn tell(tally: &Tally) -> u64 {
    for (what, count) in &tally.compared {
        println!("compared\t{what}\t{count}");
    }
    for ((verdict, pair), seen) in &tally.pairs {
        println!("{}\t{pair}\t{}", word(*verdict), seen.count);
        for (which, example) in ["first", "least"].iter().zip(seen.inputs.iter().flatten()) {
            println!("{which} {}\t{pair}\t{}\t{}", word(*verdict), example.size, example.text);
        }
    }
    tally.found()
}

fn word(verdict: Verdict) -> &'static str {
    match verdict {
        Verdict::Same => "same",
        Verdict::Listed => "listed",
        Verdict::Found => "found",
    }
}

/// Counts of several runs added up, the first of the firsts and the least of the least.
fn sum() -> Result<u64, String> {
    let text = read_all()?;
    let mut counts: BTreeMap<(&str, &str), u64> = BTreeMap::new();
    let mut examples: BTreeMap<(&str, &str), (u64, &str)> = BTreeMap::new();
    for line in text.lines() {
        let number = |word: &str| word.parse::<u64>().map_err(|_| format!("no count: {line}"));
        match line.split('\t').collect::<Vec<_>>()[..] {
            [kind, pair, count] => *counts.entry((kind, pair)).or_default() += number(count)?,
            [which, pair, size, text] => {
                let here = (number(size)?, text);
                let kept = examples.entry((which, pair)).or_insert(here);
                if which.starts_with("least") && here.0 < kept.0 {
                    *kept = here;
                }
            }
            _ => return Err(format!("no count: {line}")),
        }
    }
    if counts.is_empty() {
        return Err("nothing to add up".to_string());
    }
    for ((kind, pair), count) in &counts {
        println!("{kind}\t{pair}\t{count}");
    }
    for ((which, pair), (size, text)) in &examples {
        println!("{which}\t{pair}\t{size}\t{text}");
    }
    Ok(counts
        .iter()
        .filter(|((kind, _), _)| *kind == "found")
        .map(|(_, count)| count)
        .sum())
}
