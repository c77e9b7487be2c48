//! Garden paths: whole trees, each refusal with its smallest input, and the readings that could have been otherwise.

mod desk;
#[path = "../../tests/suite/examples.rs"]
mod examples;

use desk::{build_with, rules, Desk};
use examples::{EXAMPLES, REFUSED};
use plain::{Refusal, Room, Rules, Tree};

/// An edge as it is written in the examples.
fn edge_text(row: &[u32; 16]) -> String {
    let kind = if row[1] == 0 { "c" } else { "s" };
    let pairs = row[5..5 + 2 * row[4] as usize].chunks_exact(2);
    let reduces: String = pairs.map(|pair| format!(" {}@{}", pair[0], pair[1])).collect();
    format!("{} {kind}{} {}{reduces}", row[0], row[2], row[3])
}

fn edges_text(desk: &Desk) -> String {
    desk.rows().iter().map(edge_text).collect::<Vec<_>>().join("; ")
}

#[test]
fn trees_of_the_examples() {
    for example in EXAMPLES {
        let desk = Desk::grown_with(example.rules, example.commands);
        assert_eq!(desk.nodes, example.nodes, "{}", example.rules);
        assert_eq!(edges_text(&desk), example.edges, "{}", example.rules);
    }
}

#[test]
fn sentences_of_the_examples() {
    for example in EXAMPLES {
        let desk = Desk::grown_with(example.rules, example.commands);
        for (tokens, refusal, list) in example.sentences {
            let (answer, found) = desk.parse(tokens);
            assert_eq!((answer.number, answer.place, answer.passes), *refusal, "{tokens:?}");
            assert_eq!(found, *list, "{tokens:?}");
        }
    }
}

const AMPLE: Room = Room {
    nodes: 8_192,
    edges: 16_384,
    frames: 16_385,
};

/// The tree as it is at the end, or at the refusal.
fn tree(text: &str, commands: &[u32], room: Room) -> (Tree, Option<Refusal>) {
    let rules = Rules::read(1, 2, &rules(text)).expect("good rules");
    let mut tree = Tree::empty(room);
    let refusal = tree.grow(&rules, commands).err();
    (tree, refusal)
}

#[test]
fn edges_taken_up_in_the_examples() {
    for example in EXAMPLES {
        let (tree, refusal) = tree(example.rules, example.commands, AMPLE);
        let taken: Vec<usize> = tree.taken.iter().map(|taken| taken.edges).collect();
        assert_eq!((refusal, &taken[..]), (None, example.taken), "{}", example.rules);
    }
}

#[test]
fn a_list_too_late_is_still_a_formula() {
    let desk = Desk::grown_with(EXAMPLES[11].rules, EXAMPLES[11].commands);
    assert_eq!(desk.verify(&[2, 5, 7, 7, 11, 10, 10, 6], &[2, 3, 1, 5, 1, 5, 4]), 0);
}

#[test]
fn each_refusal() {
    for (what, number, text, commands, counts) in REFUSED {
        let (tree, refusal) = tree(text, commands, AMPLE);
        assert_eq!(refusal.map(Refusal::number), Some(number), "{what}");
        assert_eq!((tree.nodes.len(), tree.rows.len()), counts, "{what}");
        let built = build_with(&rules(text), commands, 16 * AMPLE.frames, AMPLE.nodes, 16 * AMPLE.edges).built;
        assert_eq!(built.number, number, "{what}");
    }
}

/// The second example, whose path needs a node and two edges.
const COPY: (&str, &[u32]) = (EXAMPLES[3].rules, EXAMPLES[3].commands);

#[test]
fn rooms_of_a_copied_branch() {
    let number = |frames, nodes, edges| build_with(&rules(COPY.0), COPY.1, frames, nodes, edges).built.number;
    assert_eq!(number(32, 16, 256), 0);
    assert_eq!(number(32, 15, 224), 12);
    assert_eq!(number(32, 15, 256), 12);
    assert_eq!(number(32, 16, 240), 13);
    assert_eq!(number(32, 16, 255), 13);
    // Words of a frame that isn't whole are no room, and a row's own refusals come before the clone that it leads to.
    assert_eq!([0, 15, 16, 31].map(|frames| number(frames, 16, 256)), [6; 4]);
    assert_eq!([0, 15].map(|frames| number(frames, 15, 224)), [6; 2]);
    assert_eq!([16, 31].map(|frames| number(frames, 15, 224)), [12; 2]);
    assert_eq!([16, 31].map(|frames| number(frames, 16, 224)), [13; 2]);
}

#[test]
fn frames_of_the_examples() {
    for example in EXAMPLES {
        let needed = tree(example.rules, example.commands, AMPLE)
            .0
            .taken
            .iter()
            .map(|taken| taken.deepest)
            .max();
        let needed = needed.unwrap_or(0);
        for frames in 0..needed + 2 {
            let (_, refusal) = tree(example.rules, example.commands, Room { frames, ..AMPLE });
            assert_eq!(refusal, (frames < needed).then_some(Refusal::FramesFull), "{}", example.rules);
        }
    }
    assert_eq!(tree(EXAMPLES[9].rules, EXAMPLES[9].commands, AMPLE).0.taken[0].deepest, 1);
    assert_eq!(tree(COPY.0, COPY.1, AMPLE).0.taken[0].deepest, 2);
}

#[test]
fn as_many_frames_as_can_be_needed() {
    let circle = REFUSED[REFUSED.len() - 1];
    let with = |frames| tree(circle.2, circle.3, Room { frames, ..AMPLE });
    let (grown, refusal) = with(16_385);
    assert_eq!(refusal, Some(Refusal::TooManyTaken));
    let last = grown.taken[grown.taken.len() - 1];
    assert_eq!((last.edges, last.deepest), (16_384, 16_385));
    assert_eq!(with(16_384).1, Some(Refusal::FramesFull));
}

#[test]
fn the_second_place_is_asked_before_a_frame() {
    // A leaf there copies rows and needs none.
    let refusal = tree(
        "2 c10 s2 c11; 2 c12 c13; 2 c10 c12 c13",
        &[1, 2, 2, 0, 10, 0, 12, 0, 10, 1, 2],
        Room { frames: 0, ..AMPLE },
    )
    .1;
    assert_eq!(refusal, Some(Refusal::FramesFull));
    let refusal = tree(
        "2 c10 s2; 2 c12; 2 c10 c12 c13",
        &[1, 2, 2, 0, 10, 0, 12, 0, 10, 1, 2],
        Room { frames: 0, ..AMPLE },
    )
    .1;
    assert_eq!(refusal, Some(Refusal::LeafCopied));
    // And a clone into a leaf is found at its first row.
    let refusal = tree(
        "2 c10 s2 c11; 2 c12 c13; 2 c10 c12",
        &[1, 2, 2, 0, 10, 0, 12, 0, 10, 1, 2],
        Room { frames: 0, ..AMPLE },
    )
    .1;
    assert_eq!(refusal, Some(Refusal::FramesFull));
}

fn number(text: &str, commands: &[u32]) -> u32 {
    tree(text, commands, AMPLE).1.map_or(0, Refusal::number)
}

#[test]
fn conversions_that_nobody_asked_for_come_last() {
    let text = "2 c21; 2 s3 c11; 2 c10 s3 c12; 2 c10 s2 c13; 3 s4; 4 c22";
    let desk = Desk::grown_with(text, &[1, 2, 2, 0, 10, 1, 3, 0, 10, 1, 2]);
    assert_eq!((desk.nodes.len(), desk.rows().len()), (10, 12));
    let rows = desk.rows();
    let reduced: Vec<String> = rows.iter().filter(|row| row[4] != 0).map(edge_text).collect();
    assert_eq!(reduced, ["0 s4 2 5@0", "4 s4 5 5@0", "5 c11 7 2@0"]);
    assert_eq!(desk.number(&[1, 22, 11]), 0);
}

#[test]
fn no_command_and_the_conversions_alone_are_the_same_build() {
    for text in [desk::S, desk::T, "2 s3 s5 c8; 2 s3 c7; 2 s4 c9; 3 s4", ""] {
        let [none, alone] = [&[][..], &[2]].map(|commands| Desk::grown_with(text, commands));
        assert_eq!((none.nodes, none.edges), (alone.nodes, alone.edges));
    }
}

#[test]
fn words_of_a_command_are_read_in_its_turn() {
    assert_eq!(number("2 c10; 2 c10", &[3]), 11);
    // The first command is refused by the tree, the second is none.
    assert_eq!(number("2 c10 c10", &[2, 0]), 16);
    let chain = "2 c31 s50; 50 s51; 51 s52; 52 s53; 53 s54; 54 s55; 55 s56";
    assert_eq!(number(chain, &[2, 3]), 14);
    assert_eq!(number(chain, &[3, 2]), 16);
}

#[test]
fn words_that_are_no_command() {
    let text = "2 c10 c10; 2 c10 s2";
    let good: [u32; 11] = [1, 2, 2, 0, 10, 0, 10, 0, 10, 1, 2];
    assert_eq!(number(text, &good), 16);
    for (place, word) in [
        (0, 0),
        (0, 3),
        (1, 3),
        (2, 3),
        (1, u32::MAX),
        (2, u32::MAX),
        (3, 2),
        (4, 0),
        (4, 65_536),
        (9, 2),
        (10, 0),
    ] {
        let mut words = good;
        words[place] = word;
        assert_eq!(number(text, &words), 16, "{words:?}");
    }
    for end in 1..good.len() {
        assert_eq!(number(text, &good[..end]), 16);
    }
    assert_eq!(number(text, &[1, 1 << 31, 1 << 31]), 16);
    assert_eq!(number(text, &[1, 0, 0]), 16);
}

/// A good path, and one whose last pair is bad though nothing is asked of it.
#[test]
fn pairs_that_say_nothing_more_are_still_read() {
    let (text, path) = COPY;
    let with = |more: [u32; 2]| {
        let mut words = path.to_vec();
        words[2] += 1;
        words.extend(more);
        number(text, &words)
    };
    assert_eq!(
        [with([0, 9]), with([1, 65_535]), with([2, 9]), with([0, 0]), with([1, 65_536])],
        [0, 0, 16, 16, 16]
    );
}

#[test]
fn lists_may_be_longer_than_a_body() {
    let (text, path) = COPY;
    let mut words = path.to_vec();
    words[2] += 1_000;
    words.extend([0, 9].repeat(1_000));
    assert_eq!(number(text, &words), 0);
}

#[test]
fn a_copy_of_a_node_to_itself() {
    let path = [1, 2, 2, 0, 10, 0, 10, 0, 10, 1, 2];
    let text = "2 c10 c10 c10; 2 c10 s2";
    assert_eq!(number(text, &[path, path].concat()), 16);
    // All rows skipped: nothing is copied.
    assert_eq!(number("2 c10 s2; 2 c10 c10 c10", &[1, 3, 2, 0, 10, 0, 10, 0, 10, 0, 10, 1, 2]), 0);
}

#[test]
fn lists_part_as_pairs() {
    assert_eq!(number("3 c10; 3 s3 c7; 2 c5 s3 c6", &[1, 2, 2, 0, 5, 1, 3, 0, 5, 1, 3]), 16);
}
