//! Tables as what they say, and tables that come from outside.

use jiehkavon::{Formula, Grammar, KeyTwice, Node, NodeNo, ParseError, RuleNo, Rules, Tables};

use crate::sets::{c, grammar, rules, s, set_s, statement, TEN_PASSES};

/// An edge without reduces, of set S's kind of numbers.
fn row(from: u32, kind: u32, symbol: u32, to: u32) -> [u32; 16] {
    let mut row = [0; 16];
    row[..4].copy_from_slice(&[from, kind, symbol, to]);
    row
}

fn tables(nodes: impl Into<Vec<u32>>, edges: impl Into<Vec<u32>>) -> Tables {
    Tables::from_words(nodes, edges).expect("no key twice")
}

#[test]
fn nodes_are_branches_or_leaves() {
    let grammar = grammar(set_s());
    let node = |number| grammar.tables().node(NodeNo(number));
    assert_eq!(grammar.tables().node(NodeNo::ROOT), Some(Node::Branch));
    assert_eq!(
        [node(5), node(16), node(17)],
        [Some(Node::Branch), Some(Node::Leaf(RuleNo(9))), None]
    );
}

#[test]
fn rows_that_say_no_edge_end_the_list() {
    let good = [row(0, 0, 10, 1), row(0, 0, 11, 1), row(1, 0, 10, 1)];
    let mut sixth = row(0, 1, 10, 1);
    sixth[4] = 6;
    let count = |more: &[u32]| tables([0, 1], [&good.concat(), more].concat()).edges().count();
    assert_eq!(count(&[]), 3);
    for (bad, before) in [(row(0, 2, 10, 1), 2), (row(0, 0, 0, 1), 0), (row(0, 1, 65_536, 1), 2), (sixth, 2)] {
        assert_eq!(count(&bad), before);
    }
    assert_eq!(count(&row(1, 0, 11, 1)[..15]), 3);
}

#[test]
fn tables_from_outside_parse_as_their_originals() {
    let built = grammar(set_s());
    let outside = Grammar::with_tables(set_s(), tables(built.tables().node_words(), built.tables().edge_words()));
    assert_eq!(outside, built);
    assert_eq!(outside.parse(&statement(&TEN_PASSES)), Ok(Formula::from_words([1, 2, 7])));
}

#[test]
fn rows_in_any_order_are_put_in_order() {
    let built = grammar(set_s());
    let rows: Vec<&[u32]> = built.tables().edge_words().chunks_exact(16).collect();
    let turned = |by: usize| [&rows[by..], &rows[..by]].concat().concat();
    let backwards: Vec<&[u32]> = rows.iter().rev().copied().collect();
    let orders = (0..rows.len()).map(turned).chain([backwards.concat()]);
    for edges in orders {
        let outside = Grammar::with_tables(set_s(), tables(built.tables().node_words(), edges));
        assert_eq!(outside, built);
        assert_eq!(outside.parse(&statement(&TEN_PASSES)), Ok(Formula::from_words([1, 2, 7])));
    }
    // nodes, then constants before slots, then symbols, each as numbers
    let keys = [
        [0, 0, 9],
        [0, 0, 10],
        [0, 0, 65_535],
        [0, 1, 2],
        [2, 0, 9],
        [10, 0, 1],
        [u32::MAX, 0, 1],
    ];
    let edges: Vec<u32> = keys
        .iter()
        .rev()
        .flat_map(|&[from, kind, symbol]| row(from, kind, symbol, 1))
        .collect();
    let tables = tables([0, 1], edges);
    assert_eq!(
        tables
            .edge_words()
            .chunks(16)
            .map(|row| [row[0], row[1], row[2]])
            .collect::<Vec<_>>(),
        keys
    );
}

#[test]
fn a_key_twice_is_refused_before_any_parse() {
    let key_twice = |rows: &[[u32; 16]]| Tables::from_words([0, 1, 2], rows.concat()).expect_err("a key twice");
    let twice = key_twice(&[row(0, 0, 11, 1), row(0, 0, 10, 1), row(0, 0, 12, 1), row(0, 0, 10, 2)]);
    let expected = KeyTwice {
        from: NodeNo::ROOT,
        label: c(10),
        rows: [1, 3],
    };
    assert_eq!(twice, expected);
    assert_eq!(twice.to_string(), "rows 1 and 3 are both the edge of node 0 for the constant 10");
    // even if they are one row, and the least key is told
    let same = row(2, 1, 65_535, 1);
    let twice = key_twice(&[same, same, row(2, 1, 7, 1), same, row(2, 1, 7, 2)]);
    assert_eq!((twice.from, twice.label, twice.rows), (NodeNo(2), s(7), [2, 4]));
    assert_eq!(twice.to_string(), "rows 2 and 4 are both the edge of node 2 for the slot 7");
    // what is no label is left to the library
    let bad = row(0, 2, 10, 1);
    let grammar = Grammar::with_tables(one(), tables([0, 1], [bad, bad].concat()));
    assert_eq!(grammar.parse(&statement(&[1, 10])), Err(ParseError::BadTables));
}

/// A table that leads astray is not believed.
#[test]
fn a_wrong_leaf_is_found_out() {
    let two = || rules(&[(2, &[c(10)]), (2, &[c(11)])]);
    let leading = |to| Grammar::with_tables(two(), tables([0, 1, 2], row(0, 0, 10, to)));
    assert_eq!(leading(1).parse(&statement(&[1, 10])), Ok(Formula::from_words([1])));
    assert_eq!(leading(2).parse(&statement(&[1, 10])), Err(ParseError::NotWellTyped { passes: 2 }));
}

fn one() -> Rules {
    rules(&[(2, &[c(10)])])
}

#[test]
fn bad_tables_are_refused() {
    let good = row(0, 0, 10, 1);
    let mut offset = good;
    offset[4..7].copy_from_slice(&[1, 1, 256]);
    let mut unused = good;
    unused[13] = 1;
    let bad: [(&[u32], &[u32]); 9] = [
        (&[], &[]),
        (&[1], &[]),
        (&[0, 2], &good),
        (&[0, 1], &good[..15]),
        (&[0, 1], &row(0, 0, 10, 0)),
        (&[0, 1], &row(0, 0, 10, 2)),
        (&[0, 1], &row(1, 0, 10, 1)),
        (&[0, 1], &offset),
        (&[0, 1], &unused),
    ];
    for (nodes, edges) in bad {
        let grammar = Grammar::with_tables(one(), tables(nodes, edges));
        assert_eq!(
            grammar.parse(&statement(&[1, 10])),
            Err(ParseError::BadTables),
            "{nodes:?} {edges:?}"
        );
    }
    let good = Grammar::with_tables(one(), tables([0, 1], good));
    assert_eq!(good.parse(&statement(&[1, 10])), Ok(Formula::from_words([1])));
}

#[test]
fn tables_are_good_as_long_as_the_limits_and_bad_past_them() {
    let parse = |nodes: Vec<u32>, rows: u32| {
        let edges: Vec<u32> = (1..=rows).flat_map(|symbol| row(0, 0, symbol, 1)).collect();
        let grammar = Grammar::with_tables(one(), tables(nodes, edges));
        grammar.parse(&statement(&[1, 10]))
    };
    let nodes = |count: usize| [vec![0, 1], vec![0; count - 2]].concat();
    assert_eq!(parse(nodes(8_192), 16_384), Ok(Formula::from_words([1])));
    assert_eq!(parse(nodes(8_193), 16_384), Err(ParseError::BadTables));
    assert_eq!(parse(nodes(8_192), 16_385), Err(ParseError::BadTables));
}
