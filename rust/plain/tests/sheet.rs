//! The sentences on the training sheet.

mod desk;

use desk::{build_number, row, Desk, S, T};

#[test]
fn nodes_and_edges_of_s() {
    let desk = Desk::grown(S);
    assert_eq!(desk.nodes, [0, 1, 2, 3, 4, 0, 6, 0, 0, 0, 0, 7, 0, 0, 8, 0, 9]);
    let rows = desk.rows();
    assert_eq!(rows.len(), 19);
    assert!(rows.windows(2).all(|pair| pair[0][..3] < pair[1][..3]));
    let (reduced, bare): (Vec<_>, Vec<_>) = rows.into_iter().partition(|row| row[4] != 0);
    assert_eq!(
        reduced,
        [row(&[0, 1, 4, 12, 1, 5]), row(&[13, 1, 4, 14, 1, 5]), row(&[15, 1, 4, 16, 1, 5])]
    );
    assert!(bare.iter().all(|row| row[4..] == [0; 12]));
}

#[test]
fn nodes_and_edges_with_rule_10() {
    let desk = Desk::grown(&format!("{S}; 2 s4 c15 s4"));
    let rows = desk.rows();
    assert_eq!((desk.nodes.len(), rows.len()), (20, 23));
    let of_17: Vec<_> = rows.into_iter().filter(|row| row[0] == 17).collect();
    assert_eq!(
        of_17,
        [row(&[17, 0, 8, 13, 1, 5]), row(&[17, 0, 9, 15, 1, 5]), row(&[17, 0, 15, 18])]
    );
}

/// Tokens; answer, place, passes; list.
type Sentence = (&'static [u32], (u32, u32, u32), &'static [u32]);

const SENTENCES: [Sentence; 12] = [
    (&[], (1, 0, 0), &[]),
    (&[1], (1, 0, 0), &[]),
    (&[1, 10], (0, 0, 2), &[1]),
    (&[1, 5, 10, 7, 11, 6], (0, 0, 10), &[1, 2, 7]),
    (&[1, 13, 8, 12], (0, 0, 7), &[4, 5, 3, 8]),
    (&[1, 13, 8, 13], (0, 0, 7), &[4, 5, 4, 5, 8]),
    (&[3, 13], (0, 0, 2), &[4, 5]),
    (&[1, 13], (3, 1, 3), &[]),
    (&[1, 10, 10], (2, 1, 2), &[]),
    (&[1, 6], (2, 1, 1), &[]),
    (&[1, 5, 6], (2, 2, 3), &[]),
    (&[1, 5, 10], (3, 2, 5), &[]),
];

#[test]
fn sentences_of_s() {
    let desk = Desk::grown(S);
    for (tokens, refusal, list) in SENTENCES {
        let (answer, found) = desk.parse(tokens);
        assert_eq!((answer.number, answer.place, answer.passes), refusal, "{tokens:?}");
        assert_eq!(found, list, "{tokens:?}");
    }
}

const TEN_PASSES: [u32; 6] = [1, 5, 10, 7, 11, 6];

/// Allowance, frame room, list room; answer, place, passes.
const ROOMS: [([usize; 3], (u32, u32, u32)); 8] = [
    ([9, 99, 99], (5, 0, 9)),
    ([10, 99, 99], (0, 0, 10)),
    ([0, 99, 99], (5, 0, 0)),
    ([99, 0, 99], (6, 0, 2)),
    ([99, 1, 99], (0, 0, 10)),
    ([99, 99, 2], (7, 0, 10)),
    ([99, 99, 3], (0, 0, 10)),
    ([10, 1, 3], (0, 0, 10)),
];

#[test]
fn rooms_of_the_ten_pass_sentence() {
    let mut desk = Desk::grown(S);
    for ([allowance, frames, room], refusal) in ROOMS {
        desk.allowance = allowance as u32;
        desk.frames = frames;
        for (list, work) in [(room, 99), (99, room)] {
            (desk.list, desk.work) = (list, work);
            assert_eq!(desk.refusal(&TEN_PASSES), refusal);
        }
    }
}

#[test]
fn check_of_the_ten_pass_sentence() {
    let desk = Desk::grown(S);
    assert_eq!(desk.verify(&TEN_PASSES, &[1, 2, 7]), 0);
    assert_eq!(desk.verify(&TEN_PASSES, &[2, 1, 7]), 4);
    assert_eq!(desk.verify(&TEN_PASSES, &[]), 4);
}

/// A statement of this many tokens, deeply nested.
fn nested(tokens: usize) -> Vec<u32> {
    [vec![1], vec![14; tokens - 2], vec![10]].concat()
}

#[test]
fn most_tokens() {
    let desk = Desk::grown(S);
    let (answer, list) = desk.parse(&nested(32_769));
    assert_eq!((answer.number, answer.length, answer.passes), (0, 32_768, 98_303));
    assert_eq!(desk.verify(&nested(32_769), &list), 0);
    assert_eq!(desk.refusal(&nested(32_770)), (9, 0, 0));
    assert_eq!(desk.verify(&nested(32_770), &list), 9);
}

#[test]
fn rooms_of_the_most_tokens() {
    let ample = Desk::grown(S);
    let exact = Desk {
        allowance: 98_303,
        frames: 32_767,
        list: 32_768,
        work: 32_768,
        ..ample.clone()
    };
    let answers = [
        exact.clone(),
        Desk {
            allowance: 98_302,
            ..exact.clone()
        },
        Desk {
            frames: 32_766,
            ..exact.clone()
        },
        Desk {
            list: 32_767,
            ..exact.clone()
        },
        Desk { work: 32_767, ..exact },
    ];
    let numbers = answers.map(|desk| desk.number(&nested(32_769)));
    assert_eq!(numbers, [0, 5, 6, 7, 7]);
}

/// Thousands of trees stand side by side before the end of the tokens joins them.
#[test]
fn most_tokens_of_a_flat_statement() {
    let desk = Desk::grown("2 c10; 2 s2 s2");
    let flat = |tokens: usize| [vec![2], vec![10; tokens - 1]].concat();
    let (answer, list) = desk.parse(&flat(32_769));
    assert_eq!((answer.number, answer.passes, answer.length), (0, 131_070, 65_535));
    assert_eq!(desk.verify(&flat(32_769), &list), 0);
    assert_eq!(desk.refusal(&flat(32_770)), (9, 0, 0));
    assert_eq!(desk.verify(&flat(32_770), &list), 9);
}

#[test]
fn set_t() {
    let desk = Desk::grown(T);
    let (answer, list) = desk.parse(&[1, 31, 30]);
    assert_eq!((answer.number, answer.place, answer.passes), (0, 0, 5));
    assert_eq!(list, [1, 2, 3, 4]);
    assert_eq!(desk.verify(&[1, 31, 30], &[1, 2, 3, 4]), 0);
}

/// A rule with a slot, and so many conversions into its typecode, last link first.
fn chain(links: u32) -> String {
    let links: Vec<String> = (0..links).map(|link| format!("{} s{}", 50 + link, 51 + link)).collect();
    format!("2 c31 s50; {}", links.join("; "))
}

#[test]
fn chains_of_conversions() {
    assert_eq!(build_number(&chain(5)), 0);
    assert_eq!(build_number(&chain(6)), 14);
    let desk = Desk::grown(&format!("{}; 55 c30", chain(5)));
    assert_eq!(desk.parse(&[1, 31, 30]).1, [7, 6, 5, 4, 3, 2, 1]);
}
