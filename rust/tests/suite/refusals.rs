//! Every number that can come back, with its place and its sentence.

use jiehkavon::words::{Answer, Built};
use jiehkavon::{BuildError, Formula, Grammar, ParseError, Rules, Tables, VerifyError};

use crate::sets::{c, chain, grammar, prefixes, rules, s, set_s, statement, symbol, TEN_PASSES};

fn refused(rules: Rules) -> BuildError {
    Grammar::build(rules).expect_err("a refusal").why()
}

#[test]
fn a_refused_build_gives_the_rules_back() {
    let refused = Grammar::build(chain(6)).expect_err("a refusal");
    assert_eq!((refused.why(), refused.number()), (BuildError::SixthReduce, 14));
    assert_eq!(refused.to_string(), BuildError::SixthReduce.to_string());
    assert_eq!(refused.rules(), &chain(6));
    assert_eq!(BuildError::from(refused.clone()), BuildError::SixthReduce);
    assert_eq!(refused.into_rules(), chain(6));
}

#[test]
fn builds() {
    assert_eq!(refused(rules(&[(2, &[])])), BuildError::BadRules);
    assert_eq!(refused(rules(&[(1, &[c(10)])])), BuildError::BadRules);
    assert_eq!(refused(rules(&[(2, &[s(2)])])), BuildError::BadRules);
    assert_eq!(refused(Rules::new(symbol(2), symbol(2))), BuildError::BadRules);
    assert_eq!(refused(rules(&[(2, &[c(10), c(11)]), (3, &[c(10)])])), BuildError::Collision);
    assert_eq!(refused(rules(&[(2, &[c(10)]), (3, &[c(10), c(11)])])), BuildError::Collision);
    assert_eq!(refused(chain(6)), BuildError::SixthReduce);
    assert_eq!(
        refused(rules(&[(2, &[c(10), s(2)]), (2, &[c(10), s(3)]), (2, &[s(3)])])),
        BuildError::BadCopy
    );
}

/// Bodies of five items that share none of their beginnings: `count` of them make five nodes each.
fn apart(count: u32) -> Rules {
    let mut rules = rules(&[]);
    for first in 100..100 + count {
        rules.push_numbered(symbol(2), &[c(first), c(5), c(6), c(7), c(8)]);
    }
    rules
}

#[test]
fn nodes_up_to_the_limit() {
    // node 0, 1,638 times 5, and one more
    let mut full = apart(1_638);
    full.push_numbered(symbol(2), &[c(99)]);
    assert_eq!(grammar(full.clone()).tables().node_words().len(), 8_192);
    full.push_numbered(symbol(2), &[c(98)]);
    assert_eq!(refused(full), BuildError::NodesFull);
}

/// `sides` typecodes each get the edges of typecode 2, of which there are `fan`; `more` rules on top.
fn copied(fan: u32, sides: u32, more: u32) -> Rules {
    let mut rules = rules(&[]);
    for label in 0..fan {
        rules.push_numbered(symbol(3), &[s(2), c(1_000 + label)]);
    }
    for side in 0..sides {
        rules.push_numbered(symbol(3), &[s(10 + side), c(999)]);
    }
    for label in 0..more {
        rules.push_numbered(symbol(3), &[c(100 + label)]);
    }
    for side in 0..sides {
        rules.push_numbered(symbol(2), &[s(10 + side)]);
    }
    rules
}

#[test]
fn edges_up_to_the_limit() {
    // 1 + fan, 2 for each side, then fan copies for each side
    let full = copied(1_818, 8, 5);
    assert_eq!(grammar(full).tables().edges().count(), 1_819 + 16 + 5 + 8 * 1_818);
    assert_eq!(1_819 + 16 + 5 + 8 * 1_818, 16_384);
    assert_eq!(refused(copied(1_818, 8, 6)), BuildError::EdgesFull);
}

#[test]
fn parses() {
    let good = grammar(set_s());
    let ask = |grammar: &Grammar, words: &[u32]| grammar.parse(&statement(words)).expect_err("a refusal");
    assert_eq!(ask(&good, &[1]), ParseError::TooShort);
    assert_eq!(ask(&good, &[1, 10, 10]), ParseError::Unparseable { place: 1, passes: 2 });
    assert_eq!(ask(&good, &[1, 5, 10]), ParseError::Unfinished { place: 2, passes: 5 });
    assert_eq!(ask(&good, &prefixes(32_768)), ParseError::TooLong);
    let bare = Grammar::with_tables(set_s(), Tables::from_words([], []).expect("no rows"));
    assert_eq!(ask(&bare, &TEN_PASSES), ParseError::BadTables);
    // bad rules come before bad tables, and those before a statement that is too short
    let bad = Grammar::with_tables(rules(&[(2, &[])]), Tables::from_words([], []).expect("no rows"));
    assert_eq!(ask(&bad, &[]), ParseError::BadRules);
    assert_eq!(ask(&bare, &[]), ParseError::BadTables);
}

#[test]
fn words_that_are_no_symbols_match_nothing() {
    let good = grammar(set_s());
    for word in [0, 65_536, 65_546, u32::MAX] {
        assert_eq!(
            good.parse(&statement(&[1, word])),
            Err(ParseError::Unparseable { place: 1, passes: 1 })
        );
        assert_eq!(
            good.parse(&statement(&[word, 10])),
            Err(ParseError::Unparseable { place: 1, passes: 2 })
        );
        assert_eq!(
            good.verify(&statement(&[1, word]), &Formula::from_words([1])),
            Err(VerifyError::NotWellTyped)
        );
    }
}

#[test]
fn checks() {
    let good = grammar(set_s());
    let list = Formula::from_words([1, 2, 7]);
    assert_eq!(good.verify(&statement(&[1]), &list), Err(VerifyError::TooShort));
    assert_eq!(good.verify(&statement(&[1, 10]), &list), Err(VerifyError::NotWellTyped));
    assert_eq!(good.verify(&statement(&prefixes(32_768)), &list), Err(VerifyError::TooLong));
    let bad = Grammar::with_tables(rules(&[(2, &[])]), Tables::from_words([], []).expect("no rows"));
    assert_eq!(bad.verify(&statement(&[]), &list), Err(VerifyError::BadRules));
}

#[test]
fn numbers_of_builds() {
    for number in 0..=20 {
        let refusal = BuildError::of(Built {
            number,
            nodes: 0,
            edges: 0,
        });
        assert_eq!(refusal.map_or(0, |refusal| refusal.number()), number);
        let listed = [6, 10, 11, 12, 13, 14, 15, 16, 17].contains(&number);
        assert_eq!(matches!(refusal, Some(BuildError::Unlisted(_))), number != 0 && !listed);
        assert!(refusal.map_or(true, |refusal| refusal
            .to_string()
            .starts_with(&format!("build refused with {number}: "))));
    }
}

#[test]
fn numbers_of_parses() {
    for number in 0..=20 {
        let refusal = ParseError::of(Answer {
            number,
            place: 3,
            length: 0,
            passes: 9,
        });
        assert_eq!(refusal.map_or(0, |refusal| refusal.number()), number);
        assert_eq!(matches!(refusal, Some(ParseError::Unlisted(_))), number > 10);
        assert_eq!(refusal.and_then(|refusal| refusal.place()), [2, 3].contains(&number).then_some(3));
        assert_eq!(
            refusal.map_or(0, |refusal| refusal.passes()),
            if (2..=7).contains(&number) { 9 } else { 0 }
        );
        let text = refusal.map(|refusal| refusal.to_string()).unwrap_or_default();
        assert_eq!(text.starts_with(&format!("parse refused with {number}: ")), number != 0);
        assert_eq!(text.ends_with(", at token 3"), [2, 3].contains(&number));
    }
}

#[test]
fn numbers_of_checks() {
    for number in 0..=20 {
        let refusal = VerifyError::of(Answer {
            number,
            place: 0,
            length: 0,
            passes: 0,
        });
        assert_eq!(refusal.map_or(0, |refusal| refusal.number()), number);
        let listed = [1, 4, 7, 9, 10].contains(&number);
        assert_eq!(matches!(refusal, Some(VerifyError::Unlisted(_))), number != 0 && !listed);
        assert!(refusal.map_or(true, |refusal| refusal
            .to_string()
            .starts_with(&format!("check refused with {number}: "))));
    }
}
