//! Garden paths through the library: whole trees and their sentences, each refusal, frames, and the builder.

use jiehkavon::limits::{FRAME_WIDTH, LABEL_WIDTH, MOST_CLONES, MOST_EDGES, MOST_NODES, ROW_WIDTH};
use jiehkavon::words::{self, Built};
use jiehkavon::{BuildError, Command, Edge, Grammar, GrammarBuilder, Label, ParseError, Parser, RefusedRules, Rules};

use crate::examples::{Example, EXAMPLES, REFUSED};
use crate::sets::{c, chain, rules_of, s, set_s, statement, symbol};

/// Room in nodes, rows and frames.
#[derive(Clone, Copy)]
struct Rooms {
    nodes: usize,
    edges: usize,
    frames: usize,
}

const AMPLE: Rooms = Rooms {
    nodes: MOST_NODES,
    edges: MOST_EDGES,
    frames: MOST_CLONES,
};

/// A build in garbage, of which nothing may be left.
fn build(rules: &Rules, commands: &[u32], rooms: Rooms) -> (Built, Vec<u32>, Vec<u32>) {
    let mut nodes = vec![77; rooms.nodes];
    let mut edges = vec![88; rooms.edges * ROW_WIDTH];
    let mut frames = vec![99; rooms.frames * FRAME_WIDTH];
    let built = words::build(1, 2, rules.words(), commands, &mut nodes, &mut edges, &mut frames);
    let more_nodes = nodes.split_off(built.nodes as usize);
    let more_edges = edges.split_off(built.edges as usize * ROW_WIDTH);
    assert!([more_nodes, more_edges, frames].concat().iter().all(|&word| word == 0));
    assert!(built.number == 0 || (built.nodes, built.edges) == (0, 0));
    (built, nodes, edges)
}

fn number(text: &str, commands: &[u32], rooms: Rooms) -> u32 {
    build(&rules_of(text), commands, rooms).0.number
}

/// The command that some words begin with, and the words after it; none if they begin with no command.
fn command(words: &[u32]) -> Option<(Command, &[u32])> {
    match words {
        [2, rest @ ..] => Some((Command::TypeConversions, rest)),
        [1, prefix, shadow, rest @ ..] => {
            let (prefix, rest) = labels(*prefix, rest)?;
            let (shadow, rest) = labels(*shadow, rest)?;
            Some((Command::GardenPath { prefix, shadow }, rest))
        }
        _ => None,
    }
}

fn labels(count: u32, words: &[u32]) -> Option<(Vec<Label>, &[u32])> {
    let width = LABEL_WIDTH * count as usize;
    let pairs = words.get(..width)?.chunks_exact(LABEL_WIDTH);
    let labels: Option<Vec<Label>> = pairs.map(|pair| Label::from_words([pair[0], pair[1]])).collect();
    Some((labels?, &words[width..]))
}

/// A builder with the commands of some words; none if they aren't commands.
fn builder(rules: Rules, mut words: &[u32]) -> Option<GrammarBuilder> {
    let mut builder = Grammar::builder(rules);
    while !words.is_empty() {
        let (command, rest) = command(words)?;
        builder = builder.command(command);
        words = rest;
    }
    Some(builder)
}

fn grown(example: &Example) -> Grammar {
    let builder = builder(rules_of(example.rules), example.commands).expect("commands");
    builder.build().expect("a tree")
}

/// An edge as it is written in the examples.
fn edge_text(edge: Edge) -> String {
    let label = match edge.label {
        Label::Constant(symbol) => format!("c{symbol}"),
        Label::Slot(typecode) => format!("s{typecode}"),
    };
    let reduces: String = edge
        .reduces
        .iter()
        .map(|reduce| format!(" {}@{}", reduce.rule, reduce.offset))
        .collect();
    format!("{} {label} {}{reduces}", edge.from, edge.to)
}

#[test]
fn trees_of_the_examples() {
    for example in &EXAMPLES {
        let grammar = grown(example);
        let edges: Vec<String> = grammar.tables().edges().map(edge_text).collect();
        assert_eq!(grammar.tables().node_words(), example.nodes, "{}", example.rules);
        assert_eq!(edges.join("; "), example.edges, "{}", example.rules);
        let (built, nodes, edges) = build(&rules_of(example.rules), example.commands, AMPLE);
        assert_eq!(built.number, 0);
        assert_eq!(
            (&nodes[..], &edges[..]),
            (grammar.tables().node_words(), grammar.tables().edge_words())
        );
    }
}

#[test]
fn sentences_of_the_examples() {
    let mut parser = Parser::new();
    for example in &EXAMPLES {
        let grammar = grown(example);
        for (tokens, expected, list) in example.sentences {
            let statement = statement(tokens);
            let found = parser.parse(&grammar, &statement);
            let answer = match &found {
                Ok(parsed) => (0, 0, parsed.passes),
                Err(refusal) => (refusal.number(), refusal.place().map_or(0, |place| place as u32), refusal.passes()),
            };
            assert_eq!(answer, *expected, "{tokens:?}");
            let words = found.map_or(vec![], |parsed| parsed.formula.words().to_vec());
            assert_eq!(words, *list, "{tokens:?}");
        }
    }
}

#[test]
fn accepted_sentences_pass_the_check() {
    for example in &EXAMPLES {
        let grammar = grown(example);
        for (tokens, ..) in example.sentences {
            let statement = statement(tokens);
            match grammar.parse(&statement) {
                Ok(formula) => assert_eq!(grammar.verify(&statement, &formula), Ok(())),
                Err(refusal) => assert!(!matches!(
                    refusal,
                    ParseError::PassesUsedUp { .. } | ParseError::FramesFull { .. } | ParseError::ListFull { .. }
                )),
            }
        }
    }
}

#[test]
fn each_refusal() {
    for (what, expected, text, commands, _) in REFUSED {
        assert_eq!(number(text, commands, AMPLE), expected, "{what}");
    }
}

/// What stood at the refusal can be seen by lending just that: it is enough, and one node or edge less is not.
#[test]
fn trees_at_the_refusals() {
    for (what, expected, text, commands, (nodes, edges)) in REFUSED {
        let stood = Rooms { nodes, edges, ..AMPLE };
        assert_eq!(number(text, commands, stood), expected, "{what}");
        let less = [Rooms { nodes: nodes - 1, ..stood }, Rooms { edges: edges - 1, ..stood }];
        assert_eq!(less.map(|rooms| number(text, commands, rooms)), [12, 13], "{what}");
    }
}

#[test]
fn rooms_of_a_copied_branch() {
    let (rules, commands) = (rules_of(EXAMPLES[3].rules), EXAMPLES[3].commands);
    let number = |frames, nodes, edges| {
        let [mut nodes, mut edges, mut frames] = [nodes, edges, frames].map(|words| vec![5; words]);
        let built = words::build(1, 2, rules.words(), commands, &mut nodes, &mut edges, &mut frames);
        built.number
    };
    assert_eq!(number(32, 16, 256), 0);
    assert_eq!(number(32, 15, 224), 12);
    assert_eq!(number(32, 16, 240), 13);
    assert_eq!(number(32, 16, 255), 13);
    // words of a frame that isn't whole are no room, and a row's own refusals come before the clone that it leads to
    assert_eq!([0, 15, 16, 31].map(|frames| number(frames, 16, 256)), [6; 4]);
    assert_eq!([16, 31].map(|frames| number(frames, 15, 224)), [12; 2]);
    assert_eq!([16, 31].map(|frames| number(frames, 16, 224)), [13; 2]);
}

#[test]
fn a_frame_before_the_rows_of_a_clone() {
    // all rows of this clone are skipped
    let skipped = &EXAMPLES[9];
    let frames = |frames| number(skipped.rules, skipped.commands, Rooms { frames, ..AMPLE });
    assert_eq!([frames(0), frames(1)], [6, 0]);
    // a second place that is a leaf needs none
    let leaf = "2 c10 s2; 2 c12; 2 c10 c12 c13";
    assert_eq!(
        number(leaf, &[1, 2, 2, 0, 10, 0, 12, 0, 10, 1, 2], Rooms { frames: 0, ..AMPLE }),
        16
    );
    // neither do conversions
    assert_eq!(number(EXAMPLES[1].rules, &[2], Rooms { frames: 0, ..AMPLE }), 0);
}

#[test]
fn as_many_frames_as_can_be_needed() {
    let (_, expected, text, commands, _) = REFUSED[REFUSED.len() - 1];
    assert_eq!(expected, 17);
    let with = |frames| number(text, commands, Rooms { frames, ..AMPLE });
    assert_eq!([MOST_CLONES - 1, MOST_CLONES, MOST_CLONES + 1].map(with), [6, 17, 17]);
}

#[test]
fn conversions_that_nobody_asked_for_come_last() {
    let text = "2 c21; 2 s3 c11; 2 c10 s3 c12; 2 c10 s2 c13; 3 s4; 4 c22";
    let builder = builder(rules_of(text), &[1, 2, 2, 0, 10, 1, 3, 0, 10, 1, 2]).expect("commands");
    let grammar = builder.build().expect("a tree");
    let edges: Vec<String> = grammar.tables().edges().map(edge_text).collect();
    assert_eq!((grammar.tables().node_words().len(), edges.len()), (10, 12));
    let reduced: Vec<String> = edges.into_iter().filter(|edge| edge.contains('@')).collect();
    assert_eq!(reduced, ["0 s4 2 5@0", "4 s4 5 5@0", "5 c11 7 2@0"]);
    assert!(grammar.parse(&statement(&[1, 22, 11])).is_ok());
}

#[test]
fn no_command_and_the_conversions_alone_are_the_same_build() {
    for rules in [set_s(), chain(3), rules_of("2 s3 s5 c8; 2 s3 c7; 2 s4 c9; 3 s4"), rules_of("")] {
        let none = Grammar::build(rules.clone()).expect("a tree");
        let alone = Grammar::builder(rules).type_conversions().build().expect("a tree");
        assert_eq!(none, alone);
    }
}

#[test]
fn words_that_are_no_command() {
    let (rules, path) = (rules_of(EXAMPLES[3].rules), EXAMPLES[3].commands);
    let ask = |words: &[u32]| build(&rules, words, AMPLE).0.number;
    assert_eq!(ask(path), 0);
    let faults = [
        (0, 0),
        (0, 3),
        (1, 3),
        (2, 3),
        (1, u32::MAX),
        (2, u32::MAX),
        (3, 2),
        (4, 0),
        (4, 65_536),
        (9, 2),
        (10, 0),
    ];
    for (place, word) in faults {
        let mut words = path.to_vec();
        words[place] = word;
        assert_eq!(ask(&words), 16, "{words:?}");
    }
    for end in 1..path.len() {
        assert_eq!(ask(&path[..end]), 16);
    }
    assert_eq!([ask(&[1, 1 << 31, 1 << 31]), ask(&[1, 0, 0])], [16; 2]);
    // pairs of the shadow that say nothing more are still read, and there may be many
    let longer = |more: [u32; 2]| {
        let mut words = path.to_vec();
        words[2] += 1_000;
        words.extend([0, 9].repeat(999));
        words.extend(more);
        ask(&words)
    };
    assert_eq!(
        [longer([0, 9]), longer([2, 9]), longer([0, 0]), longer([1, 65_536])],
        [0, 16, 16, 16]
    );
}

/// Where the papers could be read otherwise.
#[test]
fn readings() {
    let number = |text: &str, commands: &[u32]| number(text, commands, AMPLE);
    // words are read in their command's turn: after the rules, and after the commands before them
    assert_eq!(number("2 c10; 2 c10", &[3]), 11);
    let chain = "2 c31 s50; 50 s51; 51 s52; 52 s53; 53 s54; 54 s55; 55 s56";
    assert_eq!([number(chain, &[2, 3]), number(chain, &[3, 2])], [14, 16]);
    // rows copied from a node to itself, the second time
    let path = [1, 2, 2, 0, 10, 0, 10, 0, 10, 1, 2];
    assert_eq!(number("2 c10 c10 c10; 2 c10 s2", &[path, path].concat()), 16);
    // lists part as items
    assert_eq!(number("3 c10; 3 s3 c7; 2 c5 s3 c6", &[1, 2, 2, 0, 5, 1, 3, 0, 5, 1, 3]), 16);
}

fn refused(builder: GrammarBuilder) -> RefusedRules {
    builder.build().expect_err("a refusal")
}

/// How many commands some words are.
fn count(mut words: &[u32]) -> usize {
    let mut count = 0;
    while let Some((_, after)) = command(words) {
        count += 1;
        words = after;
    }
    count
}

/// The last command of each is the one that is refused, but for the collision, where no command has been run.
#[test]
fn the_builder_has_the_same_refusals_and_says_which_command_it_was() {
    for (what, expected, text, commands, _) in REFUSED {
        if let Some(builder) = builder(rules_of(text), commands) {
            let refused = refused(builder);
            let wanted = (expected != 11).then(|| count(commands));
            assert_eq!((refused.number(), refused.command()), (expected, wanted), "{what}");
            assert_eq!(refused.rules(), &rules_of(text), "{what}");
        }
    }
}

/// The path of the second example, and one that is not in its tree.
fn good() -> ([Label; 2], [Label; 2]) {
    ([c(5), s(3)], [c(5), s(2)])
}

fn absent() -> ([Label; 2], [Label; 2]) {
    ([c(5), s(7)], [c(5), s(2)])
}

#[test]
fn a_command_before_others() {
    let rules = || rules_of(EXAMPLES[3].rules);
    let refusal = refused(
        Grammar::builder(rules())
            .garden_path(&good().0, &good().1)
            .garden_path(&absent().0, &absent().1)
            .type_conversions()
            .garden_path(&absent().0, &absent().1),
    );
    assert_eq!((refusal.why(), refusal.command()), (BuildError::BadCopy, Some(2)));
    assert_eq!(refusal.to_string(), format!("{}, at command 2", BuildError::BadCopy));
    assert_eq!(refusal.into_rules(), rules());
}

/// Six conversions in a row, which can't be run over these rules.
fn with_chain() -> Rules {
    let mut rules = rules_of(EXAMPLES[3].rules);
    rules.push_numbered(symbol(2), &[c(31), s(46)]);
    for link in (40..46).rev() {
        rules.push_numbered(symbol(link + 1), &[s(link)]);
    }
    rules
}

#[test]
fn conversions_that_come_last_are_no_command() {
    let path = |rules| Grammar::builder(rules).garden_path(&good().0, &good().1);
    let last = refused(path(with_chain()));
    assert_eq!((last.why(), last.command()), (BuildError::SixthReduce, None));
    assert_eq!(last.to_string(), BuildError::SixthReduce.to_string());
    // asked for, they are one
    let asked = refused(path(with_chain()).type_conversions());
    assert_eq!((asked.why(), asked.command()), (BuildError::SixthReduce, Some(2)));
    // and where a path is refused, they have not been run
    let before = refused(path(with_chain()).garden_path(&absent().0, &absent().1));
    assert_eq!((before.why(), before.command()), (BuildError::BadCopy, Some(2)));
}

#[test]
fn bad_rules_are_no_command() {
    for text in ["2 c10 s3; 3 s3", "2 c10; 2 c10"] {
        let refused = refused(Grammar::builder(rules_of(text)).type_conversions());
        assert_eq!(refused.command(), None, "{text}");
    }
}

#[test]
fn what_a_builder_holds() {
    let builder = Grammar::builder(set_s()).garden_path(&good().0, &good().1).type_conversions();
    assert_eq!(builder.rules(), &set_s());
    assert_eq!(builder.commands().len(), 2);
    assert_eq!(builder.commands()[1], Command::TypeConversions);
}
