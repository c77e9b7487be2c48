//! Many statements at once: the entry point over words, and the iterator that makes batches of any number of statements.

use std::cell::Cell;

use jiehkavon::words::{self, Answer, Batch};
use jiehkavon::{Formula, Grammar, ParseError, Parser, Room, Statement, Tables};

use crate::sets::{grammar, parse, prefixes, rules, rules_of, set_s, set_s10, set_t, statement, symbol, Lent, Random, TEN_PASSES};

// ---- over words

/// Lengths of the frames, the list, the work slice, the answers and the index.
type Rooms = [usize; 5];

/// What came back: the fields, and the five slices.
#[derive(Debug, PartialEq, Eq)]
struct Given {
    batch: Batch,
    lent: [Vec<u32>; 5],
}

/// With garbage in all that is lent for writing.
fn many(grammar: &Grammar, statements: &[u32], allowance: u32, rooms: Rooms) -> Given {
    let mut lent = rooms.map(|length| (0..length as u32).map(|at| 0xbad0_0000 + at).collect::<Vec<u32>>());
    let (rules, tables) = (grammar.rules(), grammar.tables());
    let [frames, list, work, answers, index] = &mut lent;
    let batch = words::parse_many(
        rules.provable().word(),
        rules.logic().word(),
        rules.words(),
        tables.node_words(),
        tables.edge_words(),
        statements,
        allowance,
        frames,
        list,
        work,
        answers,
        index,
    );
    Given { batch, lent }
}

fn padded(words: &[u32], length: usize) -> Vec<u32> {
    [words, &vec![0; length - words.len()]].concat()
}

fn accepted(answers: &[[u32; 4]], lists: &[u32], [frames, list, work, answer_words, index]: Rooms) -> Given {
    Given {
        batch: Batch {
            number: 0,
            place: 0,
            statements: answers.len(),
            words: lists.len(),
        },
        lent: [
            vec![0; frames],
            padded(lists, list),
            vec![0; work],
            padded(&answers.concat(), answer_words),
            vec![0; index],
        ],
    }
}

fn refused(number: u32, place: usize, rooms: Rooms) -> Given {
    Given {
        batch: Batch {
            number,
            place,
            statements: 0,
            words: 0,
        },
        lent: rooms.map(|length| vec![0; length]),
    }
}

fn counted(statements: &[&[u32]]) -> Vec<u32> {
    statements
        .iter()
        .flat_map(|tokens| [&[tokens.len() as u32], *tokens].concat())
        .collect()
}

fn index_of(grammar: &Grammar) -> usize {
    grammar.rules().len() + grammar.tables().node_words().len() + 1
}

/// The ten-pass sentence, one that is refused, one without tokens, and 1 10.
const FOUR: [&[u32]; 4] = [&TEN_PASSES, &[1, 10, 10], &[], &[1, 10]];
const FOUR_ANSWERS: [[u32; 4]; 4] = [[0, 0, 3, 10], [2, 1, 0, 2], [1, 0, 0, 0], [0, 0, 1, 2]];
const FOUR_LISTS: [u32; 4] = [1, 2, 7, 1];

#[test]
fn lists_stand_one_after_another() {
    let grammar = grammar(set_s());
    let index = index_of(&grammar);
    for rooms in [[1, 4, 3, 16, index], [3, 9, 5, 21, index + 7]] {
        let given = many(&grammar, &counted(&FOUR), 10, rooms);
        assert_eq!(given, accepted(&FOUR_ANSWERS, &FOUR_LISTS, rooms));
    }
}

/// What the index has beyond its size is a table of constants: one that ends before any of them, has all, or goes on.
#[test]
fn a_longer_index_changes_nothing() {
    let grammar = grammar(set_s());
    for more in (0..=20).chain([65_536, 65_547]) {
        let rooms = [1, 4, 3, 16, index_of(&grammar) + more];
        let given = many(&grammar, &counted(&FOUR), 10, rooms);
        assert_eq!(given, accepted(&FOUR_ANSWERS, &FOUR_LISTS, rooms), "{more}");
        // no constants of the set, and with their low half one
        let odd: [&[u32]; 4] = [&[1, 0], &[1, 15], &[1, 65_546], &[1, u32::MAX]];
        let given = many(&grammar, &counted(&odd), 10, rooms);
        assert_eq!(given, accepted(&[[2, 1, 0, 1]; 4], &[], rooms), "{more}");
    }
}

#[test]
fn one_list_word_for_two_statements() {
    let grammar = grammar(rules_of("2 c10"));
    let rooms = [0, 1, 1, 8, 4];
    let given = many(&grammar, &[2, 1, 10, 2, 1, 10], 4, rooms);
    assert_eq!(given, accepted(&[[0, 0, 1, 2], [7, 0, 0, 2]], &[1], rooms));
}

#[test]
fn no_statements() {
    let grammar = grammar(set_s());
    let index = index_of(&grammar);
    assert_eq!(many(&grammar, &[], 9, [0, 0, 0, 0, index]), accepted(&[], &[], [0, 0, 0, 0, index]));
    assert_eq!(many(&grammar, &[], 9, [2, 2, 2, 2, index]), accepted(&[], &[], [2, 2, 2, 2, index]));
    assert_eq!(many(&grammar, &[], 9, [2, 2, 2, 2, 0]), refused(7, 0, [2, 2, 2, 2, 0]));
}

#[test]
fn refusals_in_their_order() {
    let good = grammar(set_s());
    let index = index_of(&good);
    let short = [1, 4, 3, 15, index - 1];
    let cut = &counted(&FOUR)[..14];
    let rising = Tables::from_words(good.tables().node_words(), &good.tables().edge_words()[1..]);
    let bad_tables = Grammar::with_tables(set_s(), rising.expect("no key twice"));
    let mut bad_rules = set_s();
    bad_rules.push_numbered(symbol(1), &[]);
    let bad_rules = Grammar::with_tables(bad_rules, bad_tables.tables().clone());
    assert_eq!(many(&bad_rules, cut, 9, short), refused(10, 0, short));
    assert_eq!(many(&bad_tables, cut, 9, short), refused(8, 0, short));
    assert_eq!(many(&good, cut, 9, short), refused(22, 3, short));
    for rooms in [short, [1, 4, 3, 16, index - 1], [1, 4, 3, 15, index], [0, 0, 0, 0, 0]] {
        assert_eq!(many(&good, &counted(&FOUR), 9, rooms), refused(7, 0, rooms));
    }
}

#[test]
fn statement_words_cut_anywhere() {
    let grammar = grammar(set_s());
    let rooms = [1, 4, 3, 16, index_of(&grammar)];
    let words = counted(&FOUR);
    let ends = [0, 7, 11, 12, 15];
    for length in 0..=words.len() {
        let whole = ends.iter().filter(|&&end| end <= length).count() - 1;
        let expected = match ends.contains(&length) {
            true => accepted(&FOUR_ANSWERS[..whole], &FOUR_LISTS[..[0, 3, 3, 3, 4][whole]], rooms),
            false => refused(22, whole, rooms),
        };
        assert_eq!(many(&grammar, &words[..length], 10, rooms), expected, "{length}");
    }
}

#[test]
fn counts_that_pass_the_end() {
    let grammar = grammar(set_s());
    let rooms = [1, 4, 3, 16, index_of(&grammar)];
    let words = counted(&FOUR);
    for (statement, start) in [0, 7, 11, 12].into_iter().enumerate() {
        let left = (words.len() - start) as u32;
        for count in [left, left + 1, 1 << 30, i32::MAX as u32, 1 << 31, u32::MAX - 1, u32::MAX] {
            let mut words = words.clone();
            words[start] = count;
            assert_eq!(many(&grammar, &words, 10, rooms), refused(22, statement, rooms), "{count}");
        }
    }
}

/// Each statement's answer and list are those of a parse alone, with the part of the list slice that is free.
fn each_is_the_single_parse(grammar: &Grammar, statements: &[&[u32]], allowance: u32, [frames, list, work]: [usize; 3]) {
    let rooms = [frames, list, work, 4 * statements.len(), index_of(grammar)];
    let Given { batch, lent } = many(grammar, &counted(statements), allowance, rooms);
    assert_eq!((batch.number, batch.place, batch.statements), (0, 0, statements.len()));
    let mut used = 0;
    for (tokens, answer) in statements.iter().zip(lent[3].chunks_exact(4)) {
        let mut alone = Lent::garbage(frames, list - used, work);
        let Answer {
            number,
            place,
            length,
            passes,
        } = parse(grammar, tokens, allowance, &mut alone);
        assert_eq!(answer, [number, place, length, passes], "{tokens:?}");
        let end = used + length as usize;
        assert_eq!(lent[1][used..end], alone.list[..length as usize], "{tokens:?}");
        used = end;
    }
    assert_eq!(batch.words, used);
    assert!(lent[1][used..]
        .iter()
        .chain(&lent[0])
        .chain(&lent[2])
        .chain(&lent[4])
        .all(|&word| word == 0));
}

#[test]
fn any_room_for_four_statements() {
    let grammar = grammar(set_s());
    for allowance in [0, 1, 2, 9, 10, 99] {
        for list in 0..=5 {
            for (frames, work) in [(0, 3), (1, 0), (1, 2), (1, 3), (9, 9)] {
                each_is_the_single_parse(&grammar, &FOUR, allowance, [frames, list, work]);
            }
        }
    }
}

#[test]
fn random_batches() {
    let mut random = Random(80_808);
    let sets = [
        (grammar(set_s10()), [5, 7, 6, 8, 10, 13, 14, 15]),
        (grammar(set_t()), [30, 31, 30, 31, 30, 31, 30, 31]),
    ];
    for turn in 0..300 {
        let (grammar, alphabet) = &sets[turn % 2];
        let statements: Vec<Vec<u32>> = (0..random.below(12))
            .map(|_| {
                let length = random.below(9);
                [1].into_iter().chain((0..length).map(|_| random.pick(alphabet))).collect()
            })
            .collect();
        let slices: Vec<&[u32]> = statements.iter().map(Vec::as_slice).collect();
        let rooms = [random.below(5), random.below(40), random.below(20)];
        each_is_the_single_parse(grammar, &slices, random.below(40) as u32, rooms);
    }
}

// ---- by an iterator

/// What a parse of each alone gives, with the passes.
fn one_by_one(grammar: &Grammar, statements: &[Statement]) -> Vec<Result<(Formula, u32), ParseError>> {
    let mut parser = Parser::new();
    let one = |statement| {
        parser
            .parse(grammar, statement)
            .map(|parsed| (parsed.formula.clone(), parsed.passes))
    };
    statements.iter().map(one).collect()
}

fn at_once(parser: &mut Parser, grammar: &Grammar, statements: &[Statement]) -> Vec<Result<(Formula, u32), ParseError>> {
    let mut answers = parser.parse_many(grammar, statements);
    let mut all = Vec::new();
    while let Some(answer) = answers.next_parsed() {
        all.push(answer.map(|parsed| (parsed.formula.clone(), parsed.passes)));
    }
    assert!(answers.next_parsed().is_none());
    all
}

#[test]
fn as_a_parse_of_each_alone() {
    let grammar = grammar(set_s10());
    let mut random = Random(5_150);
    let alphabet = [5, 7, 6, 8, 10, 13, 14, 15];
    let some = |random: &mut Random| {
        let length = random.below(12);
        let tokens = (0..length).map(|_| random.pick(&alphabet)).collect::<Vec<u32>>();
        statement(&[&[random.pick(&[1, 1, 2, 3])], &tokens[..]].concat())
    };
    // several batches, with long statements among them
    let mut statements: Vec<Statement> = (0..12_000).map(|_| some(&mut random)).collect();
    statements[7] = statement(&prefixes(32_767));
    statements[8] = statement(&prefixes(32_768));
    statements[9] = statement(&[10; 100_000]);
    statements[10] = statement(&[]);
    statements.extend([32_764, 32_765, 32_766].map(|count| statement(&prefixes(count))));
    let expected = one_by_one(&grammar, &statements);
    let mut parser = Parser::new();
    assert_eq!(at_once(&mut parser, &grammar, &statements), expected);
    // the same parser again, and for a single parse
    assert_eq!(at_once(&mut parser, &grammar, &statements[..30]), expected[..30]);
    let formulas: Vec<Result<Formula, ParseError>> = parser.parse_many(&grammar, &statements).collect();
    let kept = expected.iter().cloned().map(|answer| answer.map(|(formula, _)| formula));
    assert!(formulas.into_iter().eq(kept));
    assert_eq!(parser.parse_words(&grammar, &TEN_PASSES).map(|parsed| parsed.passes), Ok(10));
    let refusals: Vec<u32> = expected
        .iter()
        .filter_map(|answer| answer.as_ref().err().map(ParseError::number))
        .collect();
    assert!((1..=3).chain([9]).all(|number| refusals.contains(&number)) && refusals.len() < statements.len());
}

#[test]
fn refusals_that_are_about_no_statement() {
    let good = grammar(set_s());
    let nodes = vec![0; 3];
    let bad_tables = Grammar::with_tables(set_s(), Tables::from_words(nodes, vec![9; 16]).expect("no key twice"));
    let mut bad = rules(&[]);
    bad.push_numbered(symbol(1), &[]);
    let bad_rules = Grammar::with_tables(bad, good.tables().clone());
    let statements = [statement(&[1, 10]), statement(&[]), statement(&prefixes(40_000))];
    for (grammar, refusal) in [(bad_tables, ParseError::BadTables), (bad_rules, ParseError::BadRules)] {
        let answers: Vec<Result<Formula, ParseError>> = Parser::new().parse_many(&grammar, &statements).collect();
        assert_eq!(answers, vec![Err(refusal); 3]);
        assert_eq!(one_by_one(&grammar, &statements), vec![Err(refusal); 3]);
    }
}

#[test]
fn statements_of_any_kind() {
    let grammar = grammar(set_s());
    let mut parser = Parser::new();
    let lengths = |answers: Vec<Result<Formula, ParseError>>| answers.into_iter().map(|answer| answer.map_or(0, |formula| formula.len()));
    let words = [&TEN_PASSES[..], &[1, 10]];
    assert!(lengths(parser.parse_many(&grammar, words).collect()).eq([3, 1]));
    let owned = words.map(<[u32]>::to_vec);
    assert!(lengths(parser.parse_many(&grammar, &owned).collect()).eq([3, 1]));
    assert!(lengths(parser.parse_many(&grammar, owned.map(Statement::from_words)).collect()).eq([3, 1]));
    assert_eq!(parser.parse_many(&grammar, Vec::<Statement>::new()).next(), None);
}

/// How many statements were taken when so many answers had come.
fn taken(statements: &[Statement], answers: usize) -> usize {
    let grammar = grammar(set_s());
    let count = Cell::new(0);
    let counting = statements.iter().inspect(|_| count.set(count.get() + 1));
    let mut parser = Parser::new();
    let mut all = parser.parse_many(&grammar, counting);
    (0..answers).for_each(|_| drop(all.next()));
    count.get()
}

#[test]
fn a_batch_is_bounded() {
    // three words each, and the next is looked at
    let short = vec![statement(&[1, 10]); 50_000];
    assert_eq!(
        [0, 1, 10_923, 10_924].map(|answers| taken(&short, answers)),
        [0, 10_924, 10_924, 21_847]
    );
    // of none a word each
    let empty = vec![statement(&[]); 50_000];
    assert_eq!(taken(&empty, 1), 32_772);
    // the longest statement alone, and one that is as long as any
    for count in [32_767, 32_768, 90_000] {
        let long = [statement(&prefixes(count)), statement(&[1, 10]), statement(&[1, 10])];
        assert_eq!([1, 2].map(|answers| taken(&long, answers)), [2, 3], "{count}");
    }
    // just as many words as fit, and one more
    for (count, all) in [(32_765, 3), (32_766, 2)] {
        let full = [statement(&prefixes(count)), statement(&[1, 10]), statement(&[1])];
        assert_eq!(taken(&full, 1), all, "{count}");
    }
}

#[test]
fn how_many_are_left() {
    let grammar = grammar(set_s());
    let statements = vec![statement(&[1, 10]); 20_000];
    let mut parser = Parser::new();
    let mut answers = parser.parse_many(&grammar, &statements);
    for told in 0..statements.len() {
        let left = statements.len() - told;
        assert_eq!(answers.size_hint(), (left, Some(left)));
        assert!(answers.next().is_some_and(|answer| answer.is_ok()));
    }
    assert_eq!((answers.size_hint(), answers.next()), ((0, Some(0)), None));
}

/// What is enough for each, though the first ones use up all that they may: no refusal is for want of room.
#[test]
fn nothing_runs_short() {
    let grammar = grammar(set_t());
    let room = Room::for_tokens(3);
    assert_eq!((room.list, room.frames), (36, 1));
    let statements = vec![statement(&[1, 31, 30]); 3_000];
    let mut parser = Parser::new();
    assert!(parser
        .parse_many(&grammar, &statements)
        .all(|answer| answer.is_ok_and(|formula| formula.words() == [1, 2, 3, 4])));
}
