//! Holds the proved library against the paper in ordinary Rust: same calls, same garbage in every lent slice, every word at exit compared.
//!
//! `compare SEED SECONDS` or `compare SEED --count N`, N being comparisons. Ends with status 1 at a disagreement, which it prints as words, and
//! after a run of some length if an answer that can be given never was.

use std::env;
use std::process::ExitCode;
use std::time::{Duration, Instant};

#[path = "compare/batches.rs"]
mod batches;
#[path = "compare/call.rs"]
mod call;
#[path = "compare/counts.rs"]
mod counts;
#[path = "compare/gardens.rs"]
mod gardens;
#[path = "compare/packages.rs"]
mod packages;
#[path = "compare/rooms.rs"]
mod rooms;
#[path = "compare/rounds.rs"]
mod rounds;
#[path = "compare/shrink.rs"]
mod shrink;

use call::{Both, Call};
use rounds::Comparison;

/// A run of so many comparisons owes every answer.
const OWES_EVERY_ANSWER: u64 = 50_000;

enum End {
    At(Instant),
    Count(u64),
}

impl End {
    fn reached(&self, count: u64) -> bool {
        match *self {
            End::At(time) => Instant::now() >= time,
            End::Count(end) => count >= end,
        }
    }
}

fn arguments() -> Option<(u64, End)> {
    let arguments: Vec<String> = env::args().skip(1).collect();
    let (seed, end) = match &arguments[..] {
        [seed, seconds] => (
            seed,
            End::At(Instant::now().checked_add(Duration::from_secs(seconds.parse().ok()?))?),
        ),
        [seed, option, count] if option == "--count" => (seed, End::Count(count.parse().ok()?)),
        _ => return None,
    };
    Some((seed.parse().ok()?, end))
}

fn main() -> ExitCode {
    let Some((seed, end)) = arguments() else {
        eprintln!("compare SEED SECONDS | compare SEED --count N");
        return ExitCode::from(2);
    };
    let mut comparison = Comparison::new(seed);
    let mut found = None;
    while found.is_none() && !end.reached(comparison.counts.all()) {
        found = comparison.round().err();
    }
    print!("{}", comparison.counts);
    if let Some(call) = &found {
        show(call);
    }
    let missing = comparison.counts.missing();
    let owing = comparison.counts.all() >= OWES_EVERY_ANSWER && !missing.is_empty();
    if owing {
        println!("never answered: {missing:?}");
    }
    println!("{} comparisons, {} disagreements", comparison.counts.all(), found.is_some() as u32);
    ExitCode::from((found.is_some() || owing) as u8)
}

fn show(call: &Call) {
    println!("they disagree about\n{call}");
    let small = shrink::shrink(call.clone());
    let both = Both::of(&small);
    println!("and still about\n{small}the library says\n{}", both.library);
    match both.ordinary {
        Some(outcome) if outcome == both.library => {
            println!("and so does ordinary Rust; but a word was written that may only be read, or a statement of a batch is answered otherwise alone")
        }
        Some(outcome) => println!("ordinary Rust says\n{outcome}"),
        None => println!("ordinary Rust panics"),
    }
}
