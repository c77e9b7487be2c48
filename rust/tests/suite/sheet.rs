//! The rows of the training sheet, through the wrapper.

use jiehkavon::words::Answer;
use jiehkavon::{BuildError, Edge, Formula, Grammar, Label, NodeNo, ParseError, Parser, Reduce, RuleNo, VerifyError};

use crate::sets::{c, chain, grammar, parse, prefixes, s, set_s, set_s10, set_t, statement, Lent, TEN_PASSES};

fn converted(from: u32, label: Label, to: u32) -> Edge {
    Edge {
        from: NodeNo(from),
        label,
        to: NodeNo(to),
        reduces: vec![Reduce {
            rule: RuleNo(5),
            offset: 0,
        }],
    }
}

#[test]
fn set_s_grows_as_listed() {
    let grammar = grammar(set_s());
    assert_eq!(grammar.tables().node_words(), [0, 1, 2, 3, 4, 0, 6, 0, 0, 0, 0, 7, 0, 0, 8, 0, 9]);
    let edges: Vec<Edge> = grammar.tables().edges().collect();
    assert_eq!(edges.len(), 19);
    assert_eq!(grammar.tables().edge_words().len(), 19 * 16);
    let keys: Vec<(u32, [u32; 2])> = edges.iter().map(|edge| (edge.from.0, edge.label.words())).collect();
    assert!(keys.windows(2).all(|pair| pair[0] < pair[1]));
    let (reduced, bare): (Vec<Edge>, Vec<Edge>) = edges.into_iter().partition(|edge| !edge.reduces.is_empty());
    assert_eq!(reduced, [converted(0, s(4), 12), converted(13, s(4), 14), converted(15, s(4), 16)]);
    assert_eq!(bare.len(), 16);
}

#[test]
fn with_rule_10_edges_are_copied() {
    let grammar = grammar(set_s10());
    assert_eq!(grammar.tables().node_words().len(), 20);
    assert_eq!(grammar.tables().edges().count(), 23);
    let leaving: Vec<Edge> = grammar.tables().edges().filter(|edge| edge.from == NodeNo(17)).collect();
    let own = Edge {
        from: NodeNo(17),
        label: c(15),
        to: NodeNo(18),
        reduces: vec![],
    };
    assert_eq!(leaving, [converted(17, c(8), 13), converted(17, c(9), 15), own]);
}

#[test]
fn accepted_rows() {
    let grammar = grammar(set_s());
    let mut parser = Parser::new();
    let rows: [(&[u32], &[u32], u32); 5] = [
        (&[1, 10], &[1], 2),
        (&TEN_PASSES, &[1, 2, 7], 10),
        (&[1, 13, 8, 12], &[4, 5, 3, 8], 7),
        (&[1, 13, 8, 13], &[4, 5, 4, 5, 8], 7),
        (&[3, 13], &[4, 5], 2),
    ];
    for (tokens, list, passes) in rows {
        let parsed = parser
            .parse(&grammar, &statement(tokens))
            .unwrap_or_else(|refusal| panic!("{tokens:?}: {refusal}"));
        assert_eq!((parsed.formula.words(), parsed.passes), (list, passes), "{tokens:?}");
        assert_eq!(
            grammar.parse(&statement(tokens)).as_ref(),
            Ok(&Formula::from_words(list)),
            "{tokens:?}"
        );
        assert_eq!(grammar.verify(&statement(tokens), &Formula::from_words(list)), Ok(()), "{tokens:?}");
    }
}

#[test]
fn refused_rows() {
    let grammar = grammar(set_s());
    let rows: [(&[u32], ParseError); 7] = [
        (&[], ParseError::TooShort),
        (&[1], ParseError::TooShort),
        (&[1, 13], ParseError::Unfinished { place: 1, passes: 3 }),
        (&[1, 10, 10], ParseError::Unparseable { place: 1, passes: 2 }),
        (&[1, 6], ParseError::Unparseable { place: 1, passes: 1 }),
        (&[1, 5, 6], ParseError::Unparseable { place: 2, passes: 3 }),
        (&[1, 5, 10], ParseError::Unfinished { place: 2, passes: 5 }),
    ];
    for (tokens, refusal) in rows {
        assert_eq!(grammar.parse(&statement(tokens)), Err(refusal), "{tokens:?}");
    }
}

#[test]
fn ten_passes_with_less_room() {
    let grammar = grammar(set_s());
    let accepted = Answer {
        number: 0,
        place: 0,
        length: 3,
        passes: 10,
    };
    let refused = |number, passes| Answer {
        number,
        place: 0,
        length: 0,
        passes,
    };
    // allowance, frames, list, work
    let rows: [(u32, usize, usize, usize, Answer); 8] = [
        (9, 9, 9, 9, refused(5, 9)),
        (10, 9, 9, 9, accepted),
        (99, 0, 9, 9, refused(6, 2)),
        (99, 1, 9, 9, accepted),
        (99, 9, 2, 9, refused(7, 10)),
        (99, 9, 9, 2, refused(7, 10)),
        (99, 9, 3, 3, accepted),
        (0, 0, 0, 0, refused(5, 0)),
    ];
    for (allowance, frames, list, work, answer) in rows {
        let mut lent = Lent::garbage(frames, list, work);
        assert_eq!(parse(&grammar, &TEN_PASSES, allowance, &mut lent), answer);
        let mut expected = vec![0; list];
        expected[..answer.length as usize].copy_from_slice(&[1, 2, 7][..answer.length as usize]);
        assert_eq!((lent.frames, lent.list, lent.work), (vec![0; frames], expected, vec![0; work]));
    }
}

#[test]
fn the_check_tells_lists_apart() {
    let grammar = grammar(set_s());
    let sentence = statement(&TEN_PASSES);
    assert_eq!(grammar.verify(&sentence, &Formula::from_words([1, 2, 7])), Ok(()));
    let wrong: [&[u32]; 6] = [&[2, 1, 7], &[], &[1, 2], &[1, 2, 7, 7], &[7], &[1, 2, 0]];
    for list in wrong {
        assert_eq!(
            grammar.verify(&sentence, &Formula::from_words(list)),
            Err(VerifyError::NotWellTyped),
            "{list:?}"
        );
    }
}

#[test]
fn the_longest_statement_is_walked() {
    let grammar = grammar(set_s());
    let longest = prefixes(32_767);
    assert_eq!(longest.len(), 32_769);
    let formula = grammar.parse(&statement(&longest)).expect("a formula");
    assert_eq!(formula.words(), [vec![1], vec![6; 32_767]].concat());
    assert_eq!(grammar.verify(&statement(&longest), &formula), Ok(()));
    let longer = statement(&prefixes(32_768));
    assert_eq!(grammar.parse(&longer), Err(ParseError::TooLong));
    assert_eq!(grammar.verify(&longer, &formula), Err(VerifyError::TooLong));
}

#[test]
fn set_t_is_converted_with_a_frame_left() {
    let grammar = grammar(set_t());
    let sentence = statement(&[1, 31, 30]);
    let formula = Formula::from_words([1, 2, 3, 4]);
    assert_eq!(grammar.parse(&sentence), Ok(formula.clone()));
    assert_eq!(grammar.verify(&sentence, &formula), Ok(()));
}

#[test]
fn five_conversions_in_a_chain_and_no_more() {
    // the slot's own edge and five converted ones, from the node after c31; node 0 has c30 and c31
    assert_eq!(grammar(chain(5)).tables().edges().count(), 8);
    assert_eq!(Grammar::build(chain(6)).map_err(BuildError::from), Err(BuildError::SixthReduce));
}
