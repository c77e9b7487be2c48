//! The longest statements: 32,768 tokens after the typecode, deep and flat, with room that is just enough and one short of it.

use jiehkavon::words::{self, Answer};
use jiehkavon::Grammar;

use crate::sets::{c, grammar, parse, prefixes, rules, s, set_s, Lent};

/// Tokens after the typecode.
const LONGEST: usize = 32_768;

/// Frames, words of the list and of the work slice.
type Slices = [usize; 3];

/// The answer, and the list; what has to be zero is looked at.
fn asked(grammar: &Grammar, tokens: &[u32], allowance: u32, [frames, list, work]: Slices) -> (Answer, Vec<u32>) {
    let mut lent = Lent::garbage(frames, list, work);
    let answer = parse(grammar, tokens, allowance, &mut lent);
    let (front, rest) = lent.list.split_at(answer.length as usize);
    assert!(rest.iter().chain(&lent.frames).chain(&lent.work).all(|&word| word == 0));
    (answer, front.to_vec())
}

fn refused(number: u32, passes: u32) -> Answer {
    Answer {
        number,
        place: 0,
        length: 0,
        passes,
    }
}

/// The statement is accepted with this list in exactly so much room, and with one less of anything it is refused for that.
fn exact(grammar: &Grammar, tokens: &[u32], list: &[u32], passes: u32, frames: usize) {
    let room = [frames, list.len(), list.len()];
    let accepted = Answer {
        number: 0,
        place: 0,
        length: list.len() as u32,
        passes,
    };
    assert_eq!(asked(grammar, tokens, passes, room), (accepted, list.to_vec()));
    assert_eq!(asked(grammar, tokens, passes - 1, room).0, refused(5, passes - 1));
    for slice in [1, 2] {
        let mut less = room;
        less[slice] -= 1;
        assert_eq!(asked(grammar, tokens, passes, less).0.number, 7);
    }
    if frames > 0 {
        assert_eq!(asked(grammar, tokens, passes, [frames - 1, room[1], room[2]]).0.number, 6);
    }
}

/// The check alone, with a work slice of so many words.
fn checked(grammar: &Grammar, tokens: &[u32], list: &[u32], work: usize) -> u32 {
    let mut work = vec![7; work];
    let set = grammar.rules();
    let answer = words::verify(set.provable().word(), set.logic().word(), set.words(), tokens, list, &mut work);
    assert!(work.iter().all(|&word| word == 0));
    answer.number
}

#[test]
fn a_deep_chain() {
    let grammar = grammar(set_s());
    let tokens = prefixes(LONGEST - 1);
    let list = [vec![1], vec![6; LONGEST - 1]].concat();
    exact(&grammar, &tokens, &list, 98_303, LONGEST - 1);
    assert_eq!(checked(&grammar, &tokens, &list, LONGEST), 0);
    assert_eq!(checked(&grammar, &tokens, &list, LONGEST - 1), 7);
    assert_eq!(checked(&grammar, &tokens, &list[1..], LONGEST), 4);
}

/// Thousands of trees side by side: in 14 10 14 10 .. 10 each 10 waits for the tree behind it, and they are joined at the end.
#[test]
fn a_flat_list_of_trees() {
    let grammar = grammar(rules(&[(2, &[c(10)]), (2, &[c(14), s(2), s(2)]), (2, &[c(16), s(2)])]));
    let pairs = LONGEST / 2 - 1;
    let tokens = [vec![1, 16], [14, 10].repeat(pairs), vec![10]].concat();
    assert_eq!(tokens.len(), LONGEST + 1);
    let list = [vec![1; pairs + 1], vec![2; pairs], vec![3]].concat();
    let passes = asked(&grammar, &tokens, 4 * LONGEST as u32, [LONGEST, list.len(), list.len()])
        .0
        .passes;
    exact(&grammar, &tokens, &list, passes, pairs + 1);
    assert_eq!(checked(&grammar, &tokens, &list, list.len()), 0);
    assert_eq!(checked(&grammar, &tokens, &list, list.len() - 1), 7);
}

#[test]
fn one_token_more() {
    let grammar = grammar(set_s());
    let tokens = prefixes(LONGEST);
    assert_eq!(tokens.len(), 32_770);
    let list = [vec![1], vec![6; LONGEST]].concat();
    assert_eq!(
        asked(&grammar, &tokens, u32::MAX, [LONGEST, 18 * LONGEST, 18 * LONGEST]).0,
        refused(9, 0)
    );
    assert_eq!(asked(&grammar, &tokens, 0, [0, 0, 0]).0, refused(9, 0));
    assert_eq!(checked(&grammar, &tokens, &list, list.len()), 9);
    assert_eq!(checked(&grammar, &tokens, &list, 0), 9);
}
