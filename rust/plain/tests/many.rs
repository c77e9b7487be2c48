//! Batches: every word that is lent, the refusals in their order, and each statement against the single parse.

mod desk;

use desk::{Desk, GARBAGE, S};
use plain::{Answer, Batch};

/// What came back: the fields, then frames, list, work, answers, index.
type Given = (Batch, [Vec<u32>; 5]);

fn many(desk: &Desk, logic: u32, statements: &[u32], answers: usize, index: usize) -> Given {
    let mut lent = [desk.frames, desk.list, desk.work, answers, index].map(|length| vec![GARBAGE; length]);
    let [frames, list, work, answers, index] = &mut lent;
    let batch = plain::parse_many(
        1,
        logic,
        &desk.rules,
        &desk.nodes,
        &desk.edges,
        statements,
        desk.allowance,
        frames,
        list,
        work,
        answers,
        index,
    );
    (batch, lent)
}

fn small(text: &str) -> Desk {
    Desk {
        allowance: 10,
        frames: 1,
        list: 4,
        work: 3,
        ..Desk::grown(text)
    }
}

/// The ten-pass sentence, one that is refused, one without tokens, and 1 10.
const FOUR: [u32; 15] = [6, 1, 5, 10, 7, 11, 6, 3, 1, 10, 10, 0, 2, 1, 10];
/// Rules, nodes and one more.
const INDEX: usize = 9 + 17 + 1;

fn padded(words: &[u32], length: usize) -> Vec<u32> {
    [words, &vec![0; length - words.len()]].concat()
}

fn refused(desk: &Desk, number: u32, place: usize, answers: usize, index: usize) -> Given {
    let batch = Batch {
        number,
        place,
        ..Batch::default()
    };
    (
        batch,
        [desk.frames, desk.list, desk.work, answers, index].map(|length| vec![0; length]),
    )
}

#[test]
fn four_statements() {
    let desk = small(S);
    for (answers, index) in [(16, INDEX), (18, INDEX + 3)] {
        let (batch, lent) = many(&desk, 2, &FOUR, answers, index);
        let counts = Batch {
            number: 0,
            place: 0,
            statements: 4,
            words: 4,
        };
        let told = [[0, 0, 3, 10], [2, 1, 0, 2], [1, 0, 0, 0], [0, 0, 1, 2]].concat();
        let expected = [vec![0], vec![1, 2, 7, 1], vec![0; 3], padded(&told, answers), vec![0; index]];
        assert_eq!((batch, lent), (counts, expected));
    }
}

#[test]
fn one_list_word_for_two_statements() {
    let desk = Desk { list: 1, ..small("2 c10") };
    let (batch, lent) = many(&desk, 2, &[2, 1, 10, 2, 1, 10], 8, 4);
    assert_eq!((batch.number, batch.statements, batch.words), (0, 2, 1));
    assert_eq!((&lent[1], &lent[3]), (&vec![1], &vec![0, 0, 1, 2, 7, 0, 0, 2]));
}

#[test]
fn refusals_in_their_order() {
    let desk = small(S);
    let mut bad = desk.clone();
    bad.edges.pop();
    let cut = &FOUR[..14];
    assert_eq!(many(&bad, 1, cut, 15, INDEX - 1), refused(&desk, 10, 0, 15, INDEX - 1));
    assert_eq!(many(&bad, 2, cut, 15, INDEX - 1), refused(&desk, 8, 0, 15, INDEX - 1));
    assert_eq!(many(&desk, 2, cut, 15, INDEX - 1), refused(&desk, 22, 3, 15, INDEX - 1));
    for (answers, index) in [(15, INDEX - 1), (16, INDEX - 1), (15, INDEX), (0, 0)] {
        assert_eq!(many(&desk, 2, &FOUR, answers, index), refused(&desk, 7, 0, answers, index));
    }
    assert_eq!(many(&desk, 2, &[], 0, INDEX).0, Batch::default());
}

#[test]
fn words_that_are_not_whole() {
    let desk = small(S);
    let starts = [0, 7, 11, 12];
    for length in 0..FOUR.len() {
        let whole = starts.iter().filter(|&&start| start <= length).count() - 1;
        let (batch, lent) = many(&desk, 2, &FOUR[..length], 16, INDEX);
        match starts.contains(&length) {
            true => assert_eq!((batch.number, batch.statements), (0, whole)),
            false => assert_eq!((batch, lent), refused(&desk, 22, whole, 16, INDEX)),
        }
    }
    for (statement, start) in starts.into_iter().enumerate() {
        for count in [(FOUR.len() - start) as u32, 1 << 30, u32::MAX] {
            let mut words = FOUR;
            words[start] = count;
            assert_eq!(many(&desk, 2, &words, 16, INDEX), refused(&desk, 22, statement, 16, INDEX));
        }
    }
}

#[test]
fn each_as_alone() {
    for allowance in [0, 2, 9, 10] {
        for (frames, list, work) in [
            (0, 4, 3),
            (1, 0, 3),
            (1, 2, 3),
            (1, 3, 3),
            (1, 4, 2),
            (1, 4, 0),
            (1, 4, 3),
            (7, 8, 9),
        ] {
            let desk = Desk {
                allowance,
                frames,
                list,
                work,
                ..small(S)
            };
            let (batch, lent) = many(&desk, 2, &FOUR, 16, INDEX);
            let mut used = 0;
            for (tokens, told) in plain::counted(&FOUR).expect("whole").into_iter().zip(lent[3].chunks_exact(4)) {
                let alone = Desk {
                    list: list - used,
                    ..desk.clone()
                };
                let (answer, entries) = alone.parse(tokens);
                let Answer {
                    number,
                    place,
                    length,
                    passes,
                } = answer;
                assert_eq!(told, [number, place, length, passes]);
                assert_eq!(lent[1][used..][..entries.len()], entries);
                used += entries.len();
            }
            assert_eq!((batch.number, batch.statements, batch.words), (0, 4, used));
        }
    }
}
