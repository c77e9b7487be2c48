//! The four entry points over words: what they write, what they leave alone, and slices without a word.

use jiehkavon::words::{self, Answer, Built, Stretch};

use crate::examples::EXAMPLES;
use crate::sets::{grammar, rules_of, set_s, Random, TEN_PASSES};

const REFUSED_1: Answer = Answer {
    number: 1,
    place: 0,
    length: 0,
    passes: 0,
};

#[test]
fn empty_slices() {
    assert_eq!(words::body(1, 2, &[], 1), Stretch { start: 0, length: 0 });
    assert_eq!(
        words::build(1, 2, &[], &[], &mut [], &mut [], &mut []),
        Built {
            number: 12,
            nodes: 0,
            edges: 0
        }
    );
    assert_eq!(
        words::build(1, 2, &[], &[], &mut [9], &mut [], &mut []),
        Built {
            number: 0,
            nodes: 1,
            edges: 0
        }
    );
    assert_eq!(words::build(0, 0, &[], &[], &mut [], &mut [], &mut []).number, 10);
    let parsed = words::parse(1, 2, &[], &[], &[], &[], 0, &mut [], &mut [], &mut []);
    assert_eq!(parsed, Answer { number: 8, ..REFUSED_1 });
    assert_eq!(words::parse(1, 2, &[], &[0], &[], &[], 0, &mut [], &mut [], &mut []), REFUSED_1);
    assert_eq!(words::verify(1, 2, &[], &[], &[], &mut []), REFUSED_1);
    assert_eq!(words::verify(1, 2, &[], &[1, 10], &[], &mut []), Answer { number: 4, ..REFUSED_1 });
    assert_eq!(words::verify(1, 2, &[], &[1, 10], &[1], &mut []), Answer { number: 7, ..REFUSED_1 });
}

/// One buffer in which slices stand side by side, with words between them that nobody may touch.
struct Arena {
    words: Vec<u32>,
}

/// Between the slices.
const FENCE: [u32; 3] = [0x5afe_0001, 0x5afe_0002, 0x5afe_0003];

impl Arena {
    /// The parts, with a fence before each and one at the end.
    fn of(parts: &[&[u32]]) -> Arena {
        let mut words = FENCE.to_vec();
        parts.iter().for_each(|part| words.extend(part.iter().chain(&FENCE)));
        Arena { words }
    }

    /// The parts again, to be lent all at once.
    fn parts<const N: usize>(&mut self, lengths: [usize; N]) -> [&mut [u32]; N] {
        let mut rest = &mut self.words[FENCE.len()..];
        lengths.map(|length| {
            let (part, after) = std::mem::take(&mut rest).split_at_mut(length);
            rest = &mut after[FENCE.len()..];
            part
        })
    }
}

/// The second example of garden paths: rules, commands, and its tables.
fn copied_branch() -> (Vec<u32>, &'static [u32], Vec<u32>, Vec<u32>) {
    let example = &EXAMPLES[3];
    let rules = rules_of(example.rules).words().to_vec();
    let (mut nodes, mut edges) = (vec![0; 16], vec![0; 256]);
    let built = words::build(1, 2, &rules, example.commands, &mut nodes, &mut edges, &mut [0; 32]);
    assert_eq!((built.number, built.nodes, built.edges), (0, 16, 16));
    (rules, example.commands, nodes, edges)
}

#[test]
fn a_build_writes_its_three_slices_and_nothing_else() {
    let (rules, commands, nodes, edges) = copied_branch();
    for (more_nodes, more_edges, frames) in [(0, 0, 32), (1, 0, 32), (0, 1, 33), (3, 40, 100)] {
        let lengths = [
            rules.len(),
            commands.len(),
            nodes.len() + more_nodes,
            edges.len() + more_edges,
            frames,
        ];
        let mut arena = Arena::of(&[&rules, commands, &vec![77; lengths[2]], &vec![88; lengths[3]], &vec![99; frames]]);
        let [lent_rules, lent_commands, lent_nodes, lent_edges, lent_frames] = arena.parts(lengths);
        let built = words::build(1, 2, lent_rules, lent_commands, lent_nodes, lent_edges, lent_frames);
        assert_eq!((built.number, built.nodes, built.edges), (0, 16, 16));
        let padded = |words: &[u32], more| [words, &vec![0; more]].concat();
        let after = [
            &rules,
            commands,
            &padded(&nodes, more_nodes),
            &padded(&edges, more_edges),
            &vec![0; frames],
        ];
        assert_eq!(arena.words, Arena::of(&after).words);
    }
}

#[test]
fn a_refused_build_leaves_zeros() {
    let (rules, commands, ..) = copied_branch();
    // a node too few, an edge too few (short by one word), a frame too few (likewise), bad rules, a last command that is none
    for (nodes, edges, frames, logic, more, number) in [
        (15, 256, 32, 2, &[][..], 12),
        (16, 255, 32, 2, &[], 13),
        (16, 256, 31, 2, &[], 6),
        (16, 256, 0, 2, &[], 6),
        (16, 256, 32, 1, &[], 10),
        (16, 256, 32, 2, &[3], 16),
    ] {
        let commands = [commands, more].concat();
        let mut arena = Arena::of(&[&rules, &commands, &vec![77; nodes], &vec![88; edges], &vec![99; frames]]);
        let [lent_rules, lent_commands, lent_nodes, lent_edges, lent_frames] =
            arena.parts([rules.len(), commands.len(), nodes, edges, frames]);
        let built = words::build(1, logic, lent_rules, lent_commands, lent_nodes, lent_edges, lent_frames);
        assert_eq!((built.number, built.nodes, built.edges), (number, 0, 0));
        let zeros = [&rules, &commands, &vec![0; nodes], &vec![0; edges], &vec![0; frames]];
        assert_eq!(arena.words, Arena::of(&zeros.map(|part| &part[..])).words);
    }
}

/// A parse of the ten-pass sentence with all of its slices in one arena; gives back the answer and the arena.
fn parse_in_arena(typecodes: (u32, u32), allowance: u32, room: [usize; 3]) -> (Answer, Vec<u32>) {
    let grammar = grammar(set_s());
    let read = [
        grammar.rules().words(),
        grammar.tables().node_words(),
        grammar.tables().edge_words(),
        &TEN_PASSES[..],
    ];
    let garbage = room.map(|length| vec![0xbad; length]);
    let all: Vec<&[u32]> = read.into_iter().chain(garbage.iter().map(|part| &part[..])).collect();
    let mut arena = Arena::of(&all);
    let [rules, nodes, edges, tokens, frames, list, work] = arena.parts([0, 1, 2, 3, 4, 5, 6].map(|part| all[part].len()));
    let answer = words::parse(typecodes.0, typecodes.1, rules, nodes, edges, tokens, allowance, frames, list, work);
    (answer, arena.words)
}

/// The arena that is expected after it.
fn arena_after(list: &[u32], room: [usize; 3]) -> Vec<u32> {
    let grammar = grammar(set_s());
    let zeros = |length: usize| vec![0; length];
    let list = [list, &zeros(room[1] - list.len())].concat();
    let (rules, tables) = (grammar.rules(), grammar.tables());
    let read = [rules.words(), tables.node_words(), tables.edge_words(), &TEN_PASSES[..]];
    let written = [zeros(room[0]), list, zeros(room[2])];
    let all: Vec<&[u32]> = read.into_iter().chain(written.iter().map(|part| &part[..])).collect();
    Arena::of(&all).words
}

#[test]
fn a_parse_writes_its_three_slices_and_nothing_else() {
    let accepted = Answer {
        number: 0,
        place: 0,
        length: 3,
        passes: 10,
    };
    for room in [[1, 3, 3], [1, 3, 9], [1, 9, 3], [5, 40, 40]] {
        assert_eq!(parse_in_arena((1, 2), 10, room), (accepted, arena_after(&[1, 2, 7], room)));
    }
}

#[test]
fn a_refused_parse_leaves_zeros() {
    // allowance, rooms, number, passes
    let rows = [
        (9, [1, 3, 3], 5, 9),
        (10, [0, 3, 3], 6, 2),
        (10, [1, 2, 3], 7, 10),
        (10, [1, 3, 2], 7, 10),
        (10, [1, 0, 0], 7, 4),
        (0, [0, 0, 0], 5, 0),
    ];
    for (allowance, room, number, passes) in rows {
        let answer = Answer {
            number,
            passes,
            ..REFUSED_1
        };
        assert_eq!(parse_in_arena((1, 2), allowance, room), (answer, arena_after(&[], room)));
    }
    let answer = Answer { number: 10, ..REFUSED_1 };
    assert_eq!(parse_in_arena((2, 2), 99, [4, 4, 4]), (answer, arena_after(&[], [4, 4, 4])));
}

#[test]
fn a_check_clears_its_work_slice_and_nothing_else() {
    let rules = set_s();
    let rows: [(&[u32], usize, u32); 5] = [
        (&[1, 2, 7], 3, 0),
        (&[1, 2, 7], 8, 0),
        (&[2, 1, 7], 3, 4),
        (&[1, 2, 7], 2, 7),
        (&[], 2, 4),
    ];
    for (list, room, number) in rows {
        let mut arena = Arena::of(&[rules.words(), &TEN_PASSES, list, &vec![99; room]]);
        let [lent_rules, tokens, lent_list, work] = arena.parts([rules.words().len(), TEN_PASSES.len(), list.len(), room]);
        assert_eq!(
            words::verify(1, 2, lent_rules, tokens, lent_list, work),
            Answer { number, ..REFUSED_1 }
        );
        assert_eq!(arena.words, Arena::of(&[rules.words(), &TEN_PASSES, list, &vec![0; room]]).words);
    }
}

#[test]
fn any_words_get_a_listed_number() {
    let mut random = Random(4_097);
    let small: Vec<u32> = (0..20).chain([255, 256, 65_535, 65_536, u32::MAX]).collect();
    let mut slice = |most: usize| -> Vec<u32> { (0..random.below(most)).map(|_| random.pick(&small)).collect() };
    for _ in 0..3_000 {
        let (rules, nodes, edges, tokens) = (slice(12), slice(4), slice(40), slice(5));
        let (mut frames, mut list, mut work) = (slice(4), slice(6), slice(6));
        let parsed = words::parse(1, 2, &rules, &nodes, &edges, &tokens, 20, &mut frames, &mut list, &mut work);
        assert!(parsed.number <= 10 && parsed.place <= 4);
        assert!([frames, work].concat().iter().all(|&word| word == 0));
        assert!(list[parsed.length as usize..].iter().all(|&word| word == 0));
        let (commands, mut more_nodes, mut more_edges, mut frames) = (slice(9), slice(9), slice(70), slice(40));
        let built = words::build(1, 2, &rules, &commands, &mut more_nodes, &mut more_edges, &mut frames);
        assert!([0, 6, 10, 11, 12, 13, 14, 15, 16, 17].contains(&built.number));
        assert!(frames.iter().all(|&word| word == 0));
        assert!(more_nodes[built.nodes as usize..].iter().all(|&word| word == 0));
        assert!(more_edges[16 * built.edges as usize..].iter().all(|&word| word == 0));
    }
}
