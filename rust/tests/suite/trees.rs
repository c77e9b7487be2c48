//! Formulas as trees, and back to tokens.

use jiehkavon::{Formula, RuleNo, Subtree, Symbol, VerifyError};

use crate::sets::{c, grammar, prefixes, s, set_s, statement, symbol, TEN_PASSES};

fn places(subtree: Subtree<'_>) -> Vec<usize> {
    subtree.children().map(|child| child.place()).collect()
}

fn words(tokens: &[Symbol]) -> Vec<u32> {
    tokens.iter().map(|token| token.word()).collect()
}

#[test]
fn children_of_each_entry() {
    let rules = set_s();
    let formula = Formula::from_words([4, 5, 3, 8]);
    let tree = formula.tree(&rules).expect("a tree");
    assert_eq!(
        tree.subtrees().map(places).collect::<Vec<_>>(),
        [vec![], vec![0], vec![], vec![1, 2]]
    );
    assert_eq!(tree.subtrees().map(|part| part.rule()).collect::<Formula>(), formula);
    let root = tree.root();
    assert_eq!((root.place(), root.rule(), root.result()), (3, RuleNo(8), symbol(2)));
    assert!(root.items().iter().map(|item| item.label()).eq([s(3), c(8), s(3)]));
    assert_eq!(
        root.children().map(|child| child.result()).collect::<Vec<_>>(),
        [symbol(3), symbol(3)]
    );
}

#[test]
fn tokens_of_each_part() {
    let rules = set_s();
    let tree = Formula::from_words([1, 2, 7, 6]).tree(&rules).expect("a tree");
    let parts: Vec<Vec<u32>> = tree.subtrees().map(|part| words(&part.tokens())).collect();
    assert_eq!(parts, [vec![10], vec![11], vec![5, 10, 7, 11, 6], vec![14, 5, 10, 7, 11, 6]]);
}

#[test]
fn parsed_formulas_spell_their_statements() {
    let grammar = grammar(set_s());
    let rows: [&[u32]; 4] = [&TEN_PASSES, &[1, 13, 8, 13], &[3, 13], &prefixes(32_767)];
    for tokens in rows {
        let formula = grammar.parse(&statement(tokens)).expect("a formula");
        let tree = formula.tree(grammar.rules()).expect("a tree");
        assert_eq!(words(&tree.root().tokens()), tokens[1..]);
    }
}

#[test]
fn parts_from_the_top_with_their_depth() {
    let rules = set_s();
    let tree = Formula::from_words([4, 5, 3, 8, 1, 7]).tree(&rules).expect("a tree");
    let parts: Vec<(usize, u32)> = tree.root().preorder().map(|(depth, part)| (depth, part.rule().0)).collect();
    assert_eq!(parts, [(0, 7), (1, 8), (2, 5), (3, 4), (2, 3), (1, 1)]);
    let below: Vec<usize> = tree.subtrees().map(|part| part.preorder().count()).collect();
    assert_eq!(below, [1, 2, 1, 4, 1, 6]);
}

#[test]
fn a_tree_deeper_than_the_stack() {
    const DEPTH: usize = 100_000;
    let run = || {
        let rules = set_s();
        let tree = Formula::from_words([vec![1], vec![6; DEPTH]].concat())
            .tree(&rules)
            .expect("a tree");
        assert_eq!(tree.root().preorder().map(|(depth, _)| depth).max(), Some(DEPTH));
        assert_eq!(tree.root().tokens().len(), DEPTH + 1);
    };
    // a call for each level would need megabytes
    let small = std::thread::Builder::new().stack_size(256 << 10).spawn(run).expect("a thread");
    small.join().expect("no overflow");
}

#[test]
fn statements_and_lists_as_text() {
    assert_eq!(statement(&TEN_PASSES).to_string(), "1 5 10 7 11 6");
    assert_eq!(statement(&[0, u32::MAX]).to_string(), "0 4294967295");
    assert_eq!(statement(&[]).to_string(), "");
    assert_eq!(Formula::from_words([1, 2, 7]).to_string(), "1 2 7");
    assert_eq!(Formula::from_words([]).to_string(), "");
}

#[test]
fn lists_that_are_no_tree() {
    let rules = set_s();
    let wrong: [&[u32]; 6] = [&[], &[0], &[10], &[1, 7], &[1, 2], &[1, 6, 2]];
    for list in wrong {
        assert!(Formula::from_words(list).tree(&rules).is_none(), "{list:?}");
    }
}

#[test]
fn an_ill_typed_tree_is_a_tree_that_the_check_refuses() {
    let grammar = grammar(set_s());
    let formula = Formula::from_words([3, 6]);
    let tree = formula.tree(grammar.rules()).expect("a tree");
    assert_eq!(words(&tree.root().tokens()), [14, 12]);
    assert_eq!(grammar.verify(&statement(&[2, 14, 12]), &formula), Err(VerifyError::NotWellTyped));
}
