//! The ordinary program that the batch is measured against gives the library's answers: for each of several statements what the single parse
//! says with the part of the list slice that is still free, and the lists one after another.

use std::collections::BTreeSet;
use tools::inputs::rules::{rename, rule_set, RuleSet};
use tools::inputs::samples::edited_sample;
use tools::inputs::sentences::{guided, noise, Grower};
use tools::inputs::tables::{built, hand_made, piled, rearranged, ROW};
use tools::inputs::{damage, gardens, Grammar};
use tools::metamath::Database;
use tools::night::Night;
use tools::ordinary::{Buffers, Tables};
use tools::random::Random;

const SETS: usize = 1_500;
const DATABASE: &str = "/usr/share/metamath/databases/set.mm";

/// The lengths of the slices lent, and the passes allowed for a statement.
#[derive(Clone, Copy, Debug)]
struct Room {
    frames: usize,
    list: usize,
    work: usize,
    allowance: u32,
}

impl Room {
    /// Enough for all statements.
    fn ample(statements: &[Vec<u32>]) -> Room {
        let longest = statements.iter().map(Vec::len).max().unwrap_or(0);
        let all: usize = statements.iter().map(Vec::len).sum();
        Room {
            frames: longest,
            list: 18 * all,
            work: 18 * longest,
            allowance: 4 * longest as u32,
        }
    }

    /// At times one of them is short.
    fn any(random: &mut Random, statements: &[Vec<u32>]) -> Room {
        let mut room = Room::ample(statements);
        match random.below(8) {
            0 => room.frames = random.below(4),
            1 => room.list = random.below(40),
            2 => room.work = random.below(12),
            3 => room.allowance = random.below(30) as u32,
            _ => {}
        }
        room
    }
}

/// What the library says one by one: answers, and the list slice at the end.
fn library(g: &Grammar, statements: &[Vec<u32>], room: Room) -> (Vec<[u32; 4]>, Vec<u32>) {
    let (mut list, mut words) = (vec![7; room.list], 0);
    let parse = |tokens: &Vec<u32>| {
        let (mut frames, mut work) = (vec![7; room.frames], vec![7; room.work]);
        let (rules, nodes, edges) = (&g.rules[..], &g.nodes[..], &g.edges[..]);
        let free = &mut list[words..];
        let a = jiehkavon::words::parse(
            g.provable,
            g.logic,
            rules,
            nodes,
            edges,
            tokens,
            room.allowance,
            &mut frames,
            free,
            &mut work,
        );
        words += a.length as usize;
        [a.number, a.place, a.length, a.passes]
    };
    let answers = statements.iter().map(parse).collect();
    list[words..].fill(0);
    (answers, list)
}

/// Rules and tables pass their checks: what is refused is that there is no token.
fn good(g: &Grammar) -> bool {
    let none = vec![vec![]];
    library(g, &none, Room::ample(&none)).0[0][0] == 1
}

/// The numbers that both answered.
fn agree(g: &Grammar, statements: &[Vec<u32>], room: Room) -> Vec<u32> {
    let (answers, list) = library(g, statements, room);
    let tables = Tables::read(g.provable, g.logic, &g.rules, &g.nodes, &g.edges);
    let mut buffers = Buffers::new(room.frames, room.list, room.work, statements.len());
    let counted: Vec<u32> = statements
        .iter()
        .flat_map(|tokens| [&[tokens.len() as u32], &tokens[..]].concat())
        .collect();
    buffers.parse_many(&tables, &counted, room.allowance);
    assert_eq!(buffers.answers, answers, "{g:?}\n{statements:?}\n{room:?}");
    assert_eq!(buffers.list, list, "{g:?}\n{statements:?}\n{room:?}");
    answers.iter().map(|answer| answer[0]).collect()
}

/// Rows in rising order, of those with one key the first.
fn ordered(mut g: Grammar) -> Grammar {
    let mut rows: Vec<&[u32]> = g.edges.chunks_exact(ROW).collect();
    rows.sort_by_key(|row| [row[0], row[1], row[2]]);
    rows.dedup_by_key(|row| [row[0], row[1], row[2]]);
    g.edges = rows.concat();
    g
}

/// Statements grown from the rules, some of them damaged, noise, and one that leads far into the tables.
fn statements(random: &mut Random, set: &RuleSet, g: &Grammar) -> Vec<Vec<u32>> {
    let grower = Grower::new(set);
    let mut all = Vec::new();
    for _ in 0..random.between(1..=6) {
        let size = random.between(1..=25);
        let typecode = if random.chance(75) {
            set.logic
        } else {
            random.pick(&set.typecodes())
        };
        let grown = grower.sentence(random, typecode, size).map(|sentence| sentence.tokens);
        let mut tokens = grown.unwrap_or_else(|| noise(random, set, size));
        match random.below(6) {
            0 => damage::mangle(random, &mut tokens, &set.constants()),
            1 => damage::damage(random, &mut tokens),
            _ => {}
        }
        all.push(tokens);
    }
    let constants = set.constants();
    if !constants.is_empty() {
        let first = set.provable;
        all.push(guided(random, first, &constants, 30, |tokens| {
            let (answers, _) = library(g, &[tokens.to_vec()], Room::ample(&[tokens.to_vec()]));
            (answers[0][0], answers[0][1])
        }));
    }
    all
}

#[test]
fn sets_of_the_sheet_and_random_ones() {
    let mut random = Random::new(8);
    let mut seen = BTreeSet::new();
    for round in 0..SETS {
        let size = random.between(1..=30);
        let mut set = if round % 4 == 0 {
            edited_sample(&mut random)
        } else {
            rule_set(&mut random, size)
        };
        if random.chance(30) {
            rename(&mut random, &mut set);
        }
        let made = hand_made(&mut random, &set);
        let mut grammars = vec![made];
        if let Some(own) = built(&set) {
            grammars.extend([rearranged(&mut random, &set, &own), own]);
        }
        for g in grammars.into_iter().map(ordered).filter(good) {
            let statements = statements(&mut random, &set, &g);
            let room = Room::any(&mut random, &statements);
            seen.extend(agree(&g, &statements, room));
        }
    }
    assert!((0..=7).all(|number| seen.contains(&number)), "{seen:?}");
}

#[test]
fn trees_joined_far_below_the_top() {
    let mut random = Random::new(9);
    for _ in 0..300 {
        let (g, tokens) = piled(&mut random);
        let g = ordered(g);
        let statements = vec![tokens.clone(), tokens[..tokens.len() / 2].to_vec(), tokens];
        let room = Room::any(&mut random, &statements);
        assert!(good(&g));
        agree(&g, &statements, room);
    }
}

#[test]
fn gardens_with_their_paths() {
    let mut random = Random::new(10);
    let mut built = 0;
    for _ in 0..300 {
        let garden = gardens::garden(&mut random);
        let set = &garden.set;
        let commands = tools::inputs::commands::words(&garden.commands);
        let Some(night) = Night::try_new(set.provable, set.logic, set.words(), commands) else {
            continue;
        };
        built += 1;
        let g = Grammar {
            provable: night.provable,
            logic: night.logic,
            rules: night.rules,
            nodes: night.nodes,
            edges: night.edges,
        };
        let statements = statements(&mut random, set, &g);
        let room = Room::any(&mut random, &statements);
        agree(&g, &statements, room);
    }
    assert!(built > 30, "{built}");
}

/// A statement of the most tokens, one more, and none.
#[test]
fn counts_of_tokens() {
    for count in [32_769, 32_770] {
        let (set, mut statements) = tools::inputs::limits::many_tokens(count);
        statements.extend([vec![], vec![1]]);
        let g = ordered(built(&set).expect("it builds"));
        agree(&g, &statements, Room::ample(&statements));
    }
}

/// One statement in a thousand of set.mm, where the machine has it; `nightly` compares them all.
#[test]
fn statements_of_set_mm() {
    let Ok(mut d) = Database::read_file(DATABASE) else {
        return;
    };
    d.add_commands(include_str!("../paths/set.mm.txt")).expect("they are its own");
    let night = Night::of_database(&d, 0).expect("it builds");
    let statements: Vec<Vec<u32>> = d.statements.iter().step_by(1_000).map(|s| s.tokens.clone()).collect();
    let g = Grammar {
        provable: night.provable,
        logic: night.logic,
        rules: night.rules,
        nodes: night.nodes,
        edges: night.edges,
    };
    let numbers = agree(&g, &statements, Room::ample(&statements));
    assert!(numbers.iter().all(|&number| number == 0));
}
