//! Room by the proved bounds: enough for everything, and where it is tight, one less is not.

use jiehkavon::limits::{MOST_EDGES, MOST_NODES, ROW_WIDTH};
use jiehkavon::words::{self, Answer};
use jiehkavon::{BuildError, Grammar, Label, Room, Rules, Tables};

use crate::sets::{c, chain, grammar, parse, prefixes, rules, rules_of, s, set_s, set_s10, set_t, symbol, Lent, Random};

/// The answer, and the list.
fn with_room(grammar: &Grammar, tokens: &[u32], room: Room) -> (Answer, Vec<u32>) {
    let mut lent = Lent::garbage(room.frames, room.list, room.list);
    let answer = parse(grammar, tokens, room.allowance, &mut lent);
    lent.list.truncate(answer.length as usize);
    (answer, lent.list)
}

fn ample(tokens: usize) -> Room {
    Room {
        allowance: 1_000_000,
        frames: 50 + 2 * tokens,
        list: 50 + 40 * tokens,
    }
}

#[test]
fn the_bounds_by_the_number_of_tokens() {
    let room = |allowance, frames, list| Room { allowance, frames, list };
    assert_eq!(Room::for_tokens(0), room(0, 0, 0));
    assert_eq!(Room::for_tokens(1), room(0, 0, 0));
    assert_eq!(Room::for_tokens(2), room(4, 0, 18));
    assert_eq!(Room::for_tokens(6), room(20, 4, 90));
    assert_eq!(Room::for_tokens(32_769), room(131_072, 32_767, 589_824));
    assert_eq!(Room::for_tokens(32_770), room(0, 0, 0));
    assert_eq!(Room::for_tokens(usize::MAX), room(0, 0, 0));
}

#[test]
fn all_short_statements_have_enough() {
    let grammar = grammar(set_s10());
    let alphabet = [8, 10, 13, 14, 15, 5, 7];
    for code in 0..alphabet.len().pow(4) {
        let tokens: Vec<u32> = [1]
            .into_iter()
            .chain((0..4).map(|place| alphabet[code / alphabet.len().pow(place) % alphabet.len()]))
            .collect();
        let enough = with_room(&grammar, &tokens, Room::for_tokens(tokens.len()));
        assert_eq!(enough, with_room(&grammar, &tokens, ample(tokens.len())), "{tokens:?}");
        assert!(!(5..=7).contains(&enough.0.number), "{tokens:?}: {:?}", enough.0);
    }
}

#[test]
fn random_statements_have_enough() {
    let mut random = Random(20_231);
    let mut accepted = 0;
    let sets = [
        (grammar(set_s10()), [5, 7, 6, 8, 10, 13, 14, 15]),
        (grammar(set_t()), [30, 31, 30, 31, 30, 31, 30, 31]),
    ];
    for turn in 0..4_000 {
        let (grammar, alphabet) = &sets[turn % 2];
        let length = 1 + random.below(9);
        let tokens: Vec<u32> = [1].into_iter().chain((0..length).map(|_| random.pick(alphabet))).collect();
        let enough = with_room(grammar, &tokens, Room::for_tokens(tokens.len()));
        assert_eq!(enough, with_room(grammar, &tokens, ample(tokens.len())), "{tokens:?}");
        assert!(!(5..=7).contains(&enough.0.number), "{tokens:?}: {:?}", enough.0);
        accepted += usize::from(enough.0.number == 0);
    }
    // not all of them were refused at once
    assert!(accepted > 20, "only {accepted} accepted");
}

#[test]
fn frames_are_tight() {
    let grammar = grammar(set_s());
    for count in [1, 2, 5, 32_767] {
        let tokens = prefixes(count);
        let room = Room::for_tokens(tokens.len());
        assert_eq!(room.frames, count);
        assert_eq!(with_room(&grammar, &tokens, room).0.number, 0);
        let less = Room {
            frames: room.frames - 1,
            ..room
        };
        assert_eq!(with_room(&grammar, &tokens, less).0.number, 6);
    }
}

#[test]
fn passes_are_tight_but_for_one() {
    let grammar = grammar(set_s());
    let room = Room::for_tokens(2);
    let needed = with_room(&grammar, &[1, 13], room).0;
    assert_eq!((needed.number, needed.passes), (3, room.allowance - 1));
    let less = Room {
        allowance: room.allowance - 2,
        ..room
    };
    assert_eq!(with_room(&grammar, &[1, 13], less).0.number, 5);
}

#[test]
fn a_list_may_be_longer_than_its_statement() {
    // rule 1 for c30, the links from the first to the last, which was pushed first, and rule 2 around them
    let (grammar, tokens) = (grammar(chain(5)), [1, 31, 30]);
    let room = Room::for_tokens(tokens.len());
    let (answer, list) = with_room(&grammar, &tokens, room);
    assert_eq!((answer.number, list), (0, vec![1, 7, 6, 5, 4, 3, 2]));
    assert_eq!(with_room(&grammar, &tokens, Room { list: 7, ..room }).0.number, 0);
    assert_eq!(with_room(&grammar, &tokens, Room { list: 6, ..room }).0.number, 7);
}

/// The tree of the rules in as much room as any build can use.
fn build_at_the_limits(rules: &Rules, nodes: &mut [u32], edges: &mut [u32]) -> Result<Tables, BuildError> {
    let built = words::build(
        rules.provable().word(),
        rules.logic().word(),
        rules.words(),
        &[],
        nodes,
        edges,
        &mut [],
    );
    let (node_count, edge_count) = (built.nodes as usize, built.edges as usize);
    match BuildError::of(built) {
        None => Ok(Tables::from_words(&nodes[..node_count], &edges[..edge_count * ROW_WIDTH]).expect("no key twice")),
        Some(refusal) => Err(refusal),
    }
}

const TYPECODES: [u32; 5] = [2, 3, 4, 5, 6];

/// A few rules over five typecodes and four constants.
fn random_rules(random: &mut Random) -> Rules {
    let mut set = rules(&[]);
    for _ in 0..2 + random.below(7) {
        let (first, last) = (s(random.pick(&TYPECODES)), s(random.pick(&TYPECODES)));
        let constant = c(random.pick(&[10, 11, 12, 13]));
        let bodies: [&[Label]; 4] = [&[first], &[first, constant], &[first, constant, last], &[constant]];
        // a conversion as often as not
        let kind = random.below(6).saturating_sub(2);
        set.push_numbered(symbol(random.pick(&TYPECODES)), bodies[kind]);
    }
    set
}

#[test]
fn a_build_gets_all_that_it_needs() {
    let (mut nodes, mut edges) = (vec![0; MOST_NODES], vec![0; MOST_EDGES * ROW_WIDTH]);
    let mut random = Random(8_192);
    let mut grown = 0;
    for turn in 0..300 {
        let rules = random_rules(&mut random);
        let expected = build_at_the_limits(&rules, &mut nodes, &mut edges);
        let built = Grammar::build(rules.clone()).map_err(BuildError::from);
        let built = built.map(|grammar| grammar.tables().clone());
        // edges beyond those of the rules are the work of conversions
        grown += usize::from(
            built
                .as_ref()
                .is_ok_and(|tables| tables.edges().count() >= tables.node_words().len()),
        );
        assert_eq!(built, expected, "turn {turn}: {:?}", rules.words());
    }
    assert!(grown > 20, "conversions made edges in {grown} of the sets only");
}

/// The rows of a node are copied in the order of their keys, so the lowest key decides between a sixth reduce and a full table.
#[test]
fn the_lower_key_decides_between_14_and_13() {
    let number = |text: &str, rows: usize| {
        let (mut nodes, mut edges) = (vec![7; MOST_NODES], vec![7; rows * ROW_WIDTH]);
        words::build(1, 2, rules_of(text).words(), &[], &mut nodes, &mut edges, &mut []).number
    };
    // rows for s45 down to s40, made in that order, each with a reduce more; s40 is the least and has five
    let falling = "2 c10 s3 s45; 2 c10 s4 c11; 45 s44; 44 s43; 43 s42; 42 s41; 41 s40; 3 s4";
    assert_eq!([8, 9, 10, 11, 12].map(|rows| number(falling, rows)), [13, 13, 14, 14, 14]);
    // rows for s20 to s25, made in that order, of which s25 has five; then one for s10, which is the least and has one
    let rising = "2 c10 s3 s20; 2 c10 s4 c11; 20 s21; 21 s22; 22 s23; 23 s24; 24 s25; 20 s10; 3 s4";
    assert_eq!([15, 16, 17, 18].map(|rows| number(rising, rows)), [13, 13, 14, 14]);
}
