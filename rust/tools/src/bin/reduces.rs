//! Times an edge with 1 to 5 reduces under a long top tree. `reduces ENTRIES REDUCES` times one such edge with the library that this program is
//! linked with. `reduces --beside PROGRAM` runs itself and PROGRAM, the same with another library, on every case in turn, and prints what an edge
//! takes and what the whole parse does; the two must give the same answers and the same lists.
//!
//! The tables are made by hand. Two trees stand in the list. Some tokens let the top one grow, by conversions to and fro; each token
//! after them takes an edge whose reduces go to the tree below, so that the top one has to move. Then the two are joined, and become the lower
//! one of the next two, as often as the tokens allow. The list is a formula, and the library checks it. What an edge takes is the
//! difference to a statement without those tokens.

use jiehkavon::words::{parse, Answer};
use std::env::{args, current_exe};
use std::hint::black_box;
use std::process::{Command, ExitCode};
use tools::bodies::numbered;
use tools::timing::least;

/// About so many entries stand in the top tree.
const ENTRIES: [usize; 5] = [10, 100, 1_000, 10_000, 30_000];
const REDUCES: [usize; 5] = [1, 2, 3, 4, 5];
/// Entries that a token adds to the top tree: five reduces before the leaf, the leaf's own, five of the root step.
const GROWTH: usize = 11;
/// The tokens of a statement, of which any build takes so many.
const TOKENS: usize = 4_097;

const CODES: [u32; 2] = [1, 2];

/// From typecode 2 to 3 and back: rules 3 and 4.
const TO: u32 = 3;
const FRO: u32 = 4;

fn rules() -> Vec<u32> {
    let after = |token: u32| numbered(2, &[[1, 2], [0, token]]);
    let bodies = [
        numbered(2, &[[0, 10]]),
        after(11),
        numbered(3, &[[1, 2]]),
        numbered(2, &[[1, 3]]),
        after(12),
        after(13),
        numbered(2, &[[1, 2], [1, 2], [0, 14]]),
    ];
    bodies.concat()
}

fn edge(key: [u32; 3], to: u32, reduces: &[[u32; 2]]) -> Vec<u32> {
    let [from, kind, symbol] = key;
    let mut row = vec![from, kind, symbol, to, reduces.len() as u32];
    row.extend(reduces.iter().flatten());
    row.resize(16, 0);
    row
}

/// So many conversions at an offset, the first of them this one.
fn turns(count: usize, first: u32, offset: u32) -> Vec<[u32; 2]> {
    let ends = [first, TO + FRO - first];
    (0..count).map(|k| [ends[k % 2], offset]).collect()
}

/// Tokens 12 and 13 take edges with the reduces that are timed. They are taken in turn, so that the tree below is of typecode 2 again.
fn edges(reduces: usize) -> Vec<u32> {
    let second = [TO, FRO][reduces % 2];
    let rows = [
        edge([0, 0, 10], 1, &[[1, 0]]),
        edge([0, 1, 2], 2, &[]),
        edge([0, 1, 3], 2, &turns(5, FRO, 0)),
        edge([1, 0, 10], 2, &[[1, 0]]),
        edge([2, 0, 10], 2, &[[1, 0]]),
        edge([2, 0, 11], 3, &[vec![[2, 0]], turns(4, TO, 0)].concat()),
        edge([2, 0, 12], 4, &turns(reduces, TO, 1)),
        edge([2, 0, 13], 5, &turns(reduces, second, 1)),
        edge([2, 0, 14], 6, &[]),
    ];
    rows.concat()
}

const NODES: [u32; 7] = [0, 0, 0, TO, 5, 6, 7];

/// Tokens for a top tree of about so many entries, for so many pairs of edges, and for the joining.
fn block(entries: usize, pairs: usize) -> Vec<u32> {
    [vec![10], vec![11; entries / GROWTH + 1], [12, 13].repeat(pairs), vec![14]].concat()
}

/// The edges timed add an entry each to the top tree: few of them, so that it stays about as it is.
fn pairs(entries: usize) -> usize {
    (entries / 100).max(1)
}

struct Parse {
    rules: Vec<u32>,
    edges: Vec<u32>,
    tokens: Vec<u32>,
    list: Vec<u32>,
    work: Vec<u32>,
}

impl Parse {
    fn run(&mut self) -> Answer {
        let [provable, logic] = CODES;
        let allowance = 4 * self.tokens.len() as u32;
        parse(
            provable,
            logic,
            &self.rules,
            &NODES,
            &self.edges,
            &self.tokens,
            allowance,
            &mut [],
            &mut self.list,
            &mut self.work,
        )
    }

    fn accepted(&mut self) -> Answer {
        let answer = self.run();
        assert_eq!(answer.number, 0, "the list is a formula");
        answer
    }
}

/// Of one case: the entries of the top tree when the first edge is taken, nanoseconds of an edge and of the whole parse, and the answer with its
/// list in one number.
struct Figures {
    top: usize,
    edge: f64,
    parse: f64,
    digest: u64,
}

fn measure(entries: usize, reduces: usize) -> Figures {
    let pairs = pairs(entries);
    let blocks = (TOKENS - 2) / block(entries, pairs).len();
    let of = |pairs: usize| {
        let room = 18 * TOKENS; // the same for both, so that as much is cleared
        Parse {
            rules: rules(),
            edges: edges(reduces),
            tokens: [vec![1, 10], block(entries, pairs).repeat(blocks)].concat(),
            list: vec![0; room],
            work: vec![0; room],
        }
    };
    let (mut with, mut without) = (of(pairs), of(0));
    let top = (without.accepted().length as usize - 1) / blocks - 1;
    let answer = with.accepted();
    let words = [answer.place, answer.length, answer.passes];
    let digest = words
        .iter()
        .chain(&with.list)
        .fold(0, |sum: u64, &word| sum.wrapping_mul(1_000_003).wrapping_add(word.into()));
    let [long, short] = least(
        || {
            black_box(with.run());
        },
        || {
            black_box(without.run());
        },
    );
    Figures {
        top,
        edge: (long - short) / (2 * pairs * blocks) as f64,
        parse: long,
        digest,
    }
}

/// What a program prints for one case.
fn ask(program: &str, entries: usize, reduces: usize) -> Figures {
    let output = Command::new(program)
        .args([entries.to_string(), reduces.to_string()])
        .output()
        .expect("the program runs");
    assert!(
        output.status.success(),
        "{program} {entries} {reduces}: {}",
        String::from_utf8_lossy(&output.stderr)
    );
    let text = String::from_utf8(output.stdout).expect("figures");
    let mut words = text.split_whitespace();
    let mut word = || words.next().expect("four figures");
    Figures {
        top: word().parse().expect("entries"),
        edge: word().parse().expect("nanoseconds"),
        parse: word().parse().expect("nanoseconds"),
        digest: word().parse().expect("a digest"),
    }
}

/// A row of both programs' figures for each number of reduces, after the entries of the top tree.
fn row(pairs: &[[Figures; 2]], of: impl Fn(&Figures) -> f64) -> String {
    let cells: String = pairs.iter().flatten().map(|figures| format!(" {:.0} |", of(figures))).collect();
    format!("| {} |{cells}", pairs[0][1].top)
}

fn beside(other: &str) {
    let this = current_exe().expect("a program knows its name").to_string_lossy().into_owned();
    let both = |entries: usize, reduces: usize| {
        let pair = [ask(other, entries, reduces), ask(&this, entries, reduces)];
        let [theirs, ours] = &pair;
        assert_eq!((theirs.top, theirs.digest), (ours.top, ours.digest), "both libraries answer alike");
        pair
    };
    let cases = ENTRIES.map(|entries| REDUCES.map(|reduces| both(entries, reduces)));
    let names = REDUCES.map(|r| format!(" {r}, other | {r}, this |")).concat();
    let head = format!("| entries of the top tree |{names}\n|{}", "---|".repeat(1 + 2 * REDUCES.len()));
    println!("Nanoseconds of an edge: the other library, then this one.\n\n{head}");
    for pairs in &cases {
        println!("{}", row(pairs, |figures| figures.edge));
    }
    println!("\nMicroseconds of the whole parse, likewise.\n\n{head}");
    for pairs in &cases {
        println!("{}", row(pairs, |figures| figures.parse / 1e3));
    }
}

fn main() -> ExitCode {
    let words: Vec<String> = args().skip(1).collect();
    let numbers: Option<Vec<usize>> = words.iter().map(|word| word.parse().ok()).collect();
    match (words.as_slice(), numbers.as_deref()) {
        ([option, program], _) if option == "--beside" => beside(program),
        (_, Some(&[entries, reduces])) if REDUCES.contains(&reduces) => {
            let Figures { top, edge, parse, digest } = measure(entries, reduces);
            println!("{top} {edge} {parse} {digest}");
        }
        _ => {
            eprintln!("reduces: ENTRIES and REDUCES (1 to 5), or --beside PROGRAM");
            return ExitCode::from(2);
        }
    }
    ExitCode::SUCCESS
}
